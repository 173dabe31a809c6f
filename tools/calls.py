"""Makes the vectors of the program crate call_vectors: its stdin and the stdout that it must print.

    python3 tools/calls.py

Each line of stdin is one list of calls on a capture, all in one line. It begins with the kind's letter, base and depth, the
channels, and the sizes of the memories that the program sets up: words, finding, work and numbers. Every element of these is
one at first, every number 9; finding and work memory are set to one again before each find. Then the calls, each with the
sizes that it hands in (the first so many places):
  feed S k a..         a word of k elements
  draw S m GENERATOR   m words of a source (as in sources.py)
  back m               take back
  find S F W           with words, finding, work memory
  reopen
  profile S N W F      with words, numbers, work and finding memory
  settled F            on a found capture
  runs-back F          whether it can be run back
  try F k a..          a polynomial of k coefficients
  run S F B            run on, into a buffer of B elements, all of them one before
  words p a            the test puts an element at place p of the words memory
  finding p a          .. of the finding memory
  level i L f          .. the record's level i is L, found if f is 1
Each call answers one line: ok or refused and the number, and a digest of every memory that is determined. Where a
finding's lower coefficients decide (run on from an unsettled finding, running back), the call's word ends in `-any`, and
only what is determined is printed; `try-whole` prints the remainder too.
A digest is d × 31 + c modulo 2^32 over all the numbers c.
"""

import os
import random

from linear import findings, left_over, next_word, settled, solve
from rings import BACK, BASES, CHANNELS, FOREIGN, FULL, SHORT, SPAN, STAGES, UNSETTLED, Ring, deepest
from sources import build, generator, register, show_generator, unlawful

MOST = 128  # words
COEFFICIENTS = 256


def digest(ring, elements, total=0):
    for a in elements:
        for c in a if isinstance(a, tuple) else (a,):
            total = (total * 31 + c) % 2 ** 32
    return total


def work_size(count, channels, depth):
    return (count * channels + 2 * depth + 12) * (count + channels + 1)


class Capture:
    """The calls as they are defined, on whole memories; each answers the line that the program prints."""

    def __init__(self, ring, channels, words, finding, work, numbers):
        self.ring, self.channels = ring, channels
        self.words = [ring.one] * words
        self.finding = [ring.one] * finding
        self.work = work
        self.numbers = [9] * numbers
        self.record = [(0, False)] * 31
        self.capacity = min(MOST, words // channels) if 1 <= channels <= 4 else 0
        self.count = 0
        self.own = False  # the finding is this capture's own
        self.unknown = set()  # the places of the finding memory whose coefficients are not determined

    def held(self):
        n = self.channels
        return [self.words[k * n:k * n + n] for k in range(self.count)]

    def short(self, words):
        return words < self.capacity * self.channels

    def foreign(self, elements):
        return not all(map(self.ring.lawful, elements))

    def size(self):
        return self.ring.depth * (self.count + 1)

    def outcome(self, number):
        return f"refused {number}" if number else "ok"

    def memory(self):
        return f" words {digest(self.ring, self.words)}"

    def feed(self, words, word):
        number = 0
        if len(word) != self.channels:
            number = CHANNELS
        elif self.short(words):
            number = SHORT
        elif self.count + 1 > self.capacity:
            number = FULL
        elif self.foreign(word):
            number = FOREIGN
        else:
            self.words[self.count * self.channels:(self.count + 1) * self.channels] = word
            self.count += 1
        return self.outcome(number) + self.memory()

    def draw(self, words, many, source):
        number = 0
        same = (source.ring.base, source.ring.depth) == (self.ring.base, self.ring.depth)
        if self.channels > 1:
            number = CHANNELS
        elif self.short(words):
            number = SHORT
        elif self.count + many > self.capacity:
            number = FULL
        elif not same:
            number = FOREIGN
        else:
            for _ in range(many):
                self.words[self.count] = source.next()
                self.count += 1
        return self.outcome(number) + self.memory() + f" then {self.ring.show(source.next())}"

    def back(self, many):
        number = 0
        if many > self.count:
            number = BACK
        else:
            self.count -= many
        return self.outcome(number)

    def find(self, words, finding, work):
        self.finding = [self.ring.one] * len(self.finding)
        self.unknown = set()
        number = 0
        if self.short(words) or finding < self.size() or work < work_size(self.count, self.channels, self.ring.depth):
            number = SHORT
        elif self.foreign(self.words[:self.count * self.channels]):
            number = FOREIGN
        if number:
            return self.outcome(number) + self.memory() + f" finding {digest(self.ring, self.finding)} record {self.table()} work {digest(self.ring, [self.ring.one] * self.work)}"
        found = findings(self.ring, self.channels, self.held())
        width = self.count + 1
        kept = []
        for i, (length, row) in enumerate(found):
            self.finding[i * width:(i + 1) * width] = row + [self.ring.zero] * (width - len(row))
            kept += self.finding[i * width + length:(i + 1) * width]
            self.unknown.update(range(i * width, i * width + length))
            self.unknown.difference_update(range(i * width + length, (i + 1) * width))
        kept += self.finding[self.size():]
        self.record = [(length, True) for length, _ in found] + [(0, False)] * (31 - self.ring.depth)
        self.own = True
        return self.outcome(0) + self.memory() + f" finding {digest(self.ring, kept)} record {self.table()}"

    def row_known(self):
        """Whether the polynomial of level 0 is determined."""
        return not self.unknown & set(range(self.record[0][0] + 1))

    def put(self, place, a):
        self.finding[place] = a
        self.unknown.discard(place)
        self.own = False

    def table(self):
        return digest(self.ring, [n for length, found in self.record for n in (length, int(found))])

    def profile(self, words, numbers, work, finding):
        number = 0
        if (self.short(words) or numbers < self.count + 1 or work < work_size(self.count, self.channels, self.ring.depth)
                or finding < self.size()):
            number = SHORT
        elif self.foreign(self.words[:self.count * self.channels]):
            number = FOREIGN
        else:
            held, length = self.held(), 0
            for j in range(self.count + 1):
                length = level_zero(self.ring, self.channels, held[:j], length)
                self.numbers[j] = length
        return self.outcome(number) + self.memory() + " numbers " + " ".join(map(str, self.numbers))

    def rows(self):
        width = self.count + 1
        return [(length, self.finding[i * width:i * width + length + 1])
                for i, (length, _) in enumerate(self.record[:self.ring.depth])]

    def judged(self, finding, elements=(), words=None):
        """The refusal of a finding handed in: short, foreign or stages."""
        if finding < self.size() or (words is not None and self.short(words)):
            return SHORT
        if self.foreign(self.finding[:self.size()]) or self.foreign(elements):
            return FOREIGN
        if words is not None and self.foreign(self.words[:self.count * self.channels]):
            return FOREIGN
        for i, (length, found) in enumerate(self.record[:self.ring.depth]):
            if length > self.count or not found or self.finding[i * (self.count + 1) + length] != self.ring.step_power(i):
                return STAGES
        return 0

    def settled(self, finding):
        number = self.judged(finding)
        return f"refused {number}" if number else "yes" if 2 * self.record[0][0] <= self.count else "no"

    def runs_back(self, finding):
        number = self.judged(finding)
        return f"refused {number}" if number else "yes" if self.finding[0] != self.ring.zero else "no"

    def attempt(self, finding, polynomial):
        """Try: the line, and the word by which the call goes."""
        ring = self.ring
        number = self.judged(finding, polynomial)
        if not number and 2 * self.record[0][0] > self.count:
            number = UNSETTLED
        if not number and len(polynomial) > COEFFICIENTS:
            number = SPAN
        if number:
            return "try-whole", f"refused {number} polynomial {digest(ring, polynomial)}"
        if ring.depth == 1 and (self.own or self.row_known()):  # the unit part of an element is itself, so all is determined
            rest = reduced(ring, self.rows(), polynomial)
            return "try-whole", f"left {len(rest)} polynomial {digest(ring, rest + [ring.zero] * (len(polynomial) - len(rest)))}"
        if not self.own:
            return None, None
        left = left_over(ring, self.channels, self.held(), self.rows(), polynomial)
        return "try", f"left {left} above {digest(ring, [ring.zero] * (len(polynomial) - left))}"

    def run(self, words, finding, size):
        """Run on: the line, and the word by which the call goes."""
        ring, n = self.ring, self.channels
        number = CHANNELS if size % n else self.judged(finding, words=words)
        if number:
            return "run", f"refused {number} buffer {digest(ring, [ring.one] * size)}"
        if not self.row_known() and not (self.own and 2 * self.record[0][0] <= self.count):
            return "run-any", "ok"
        held = self.held()
        for _ in range(size // n):
            held.append(next_word(ring, n, held, self.rows()[0][1]))
        return "run", f"ok buffer {digest(ring, [x for word in held[self.count:] for x in word])}"


def level_zero(ring, channels, words, least):
    """The length at level 0, known to be at least the length for fewer words."""
    for m in range(least, len(words)):
        rows = [[words[k + j][c] for j in range(m)] for k in range(len(words) - m) for c in range(channels)]
        right = [ring.neg(words[k + m][c]) for k in range(len(words) - m) for c in range(channels)]
        if solve(ring, rows, right, [0])[0] is not None:
            return m
    return max(least, len(words))


def reduced(ring, rows, polynomial):
    """What reduction leaves."""
    rest = list(polynomial)
    while True:
        while rest and rest[-1] == ring.zero:
            rest.pop()
        if not rest:
            return rest
        v, u = ring.split(rest[-1])
        length, row = rows[v]
        if len(rest) - 1 < length:
            return rest
        at = len(rest) - 1 - length
        for j, p in enumerate(row):
            rest[at + j] = ring.sub(rest[at + j], ring.mul(u, p))


class List:
    """One list of calls."""

    def __init__(self, ring, channels, words, finding, work, numbers, rng):
        self.ring, self.rng, self.channels = ring, rng, channels
        self.sizes = (words, finding, work, numbers)
        self.fields = [ring.name(), str(channels)] + [str(n) for n in self.sizes]
        self.lines = []
        self.found = False
        if 1 <= channels <= 4:
            self.capture = Capture(ring, channels, words, finding, work, numbers)
            self.lines.append("open")
        else:
            self.capture = None
            self.lines.append(f"refused {CHANNELS}")

    def size(self, needed, total):
        """A size to hand in: mostly what is there, else one short of the need or exactly the need."""
        return min(total, self.rng.choice([total] * 6 + [needed] * 2 + [max(0, needed - 1)]))

    def words_size(self):
        return self.size(self.capture.capacity * self.channels, self.sizes[0])

    def finding_size(self):
        return self.size(self.capture.size(), self.sizes[1])

    def work_size(self):
        return self.size(work_size(self.capture.count, self.channels, self.ring.depth), self.sizes[2])

    def call(self, word, arguments, line):
        self.fields.append(word)
        self.fields += [str(a) for a in arguments]
        self.lines.append(line)

    def element(self, bad=12):
        if self.rng.randrange(bad) == 0:
            return unlawful(self.ring, self.rng)
        return self.ring.random(self.rng)

    def shown(self, elements):
        return [self.ring.show(a) for a in elements]

    def step(self):
        rng, ring, capture = self.rng, self.ring, self.capture
        if not self.found:
            self.step_open(rng, ring, capture)
        else:
            self.step_found(rng, ring, capture)

    def step_open(self, rng, ring, capture):
        pick = rng.randrange(20)
        if self.channels == 1 and capture.count == 0 and rng.randrange(3):
            pick = 7
        if pick < 7:
            size = self.words_size()
            many = self.channels if rng.randrange(10) else rng.randrange(6)
            word = [self.element(4 * 12) for _ in range(many)]
            self.call("feed", [size, many] + self.shown(word), capture.feed(size, word))
        elif pick < 11:
            size = self.words_size()
            room = capture.capacity - capture.count
            many = rng.choice([rng.randrange(1 + min(room, 14))] * 2 + [min(room, 14)] * 4 + [0, room + 1])
            other = ring
            top = deepest(ring.letter, ring.base)
            if top > 1 and rng.randrange(8) == 0:
                other = Ring(ring.letter, ring.base, ring.depth % top + 1)
            made = register(other, rng.randrange(1, 6), rng) if rng.randrange(3) else generator(other, rng)
            self.call("draw", [size, many] + show_generator(made, ring.show), capture.draw(size, many, build(made)))
        elif pick < 13:
            many = rng.choice([0, 1, 1, rng.randrange(capture.count + 1), capture.count, capture.count + 1])
            self.call("back", [many], capture.back(many))
        elif pick < 15:
            sizes = [self.words_size(), self.size(capture.count + 1, self.sizes[3]), self.work_size(), self.finding_size()]
            self.call("profile", sizes, capture.profile(*sizes))
        elif pick < 19 or capture.count * self.channels >= len(capture.words):
            sizes = [self.words_size(), self.finding_size(), self.work_size()]
            line = capture.find(*sizes)
            self.found = line.startswith("ok")
            self.call("find", sizes, line)
        else:
            self.put_word(rng, capture)

    def put_word(self, rng, capture):
        place = rng.randrange(len(capture.words))
        capture.words[place] = self.element(2)
        self.call("words", [place, self.ring.show(capture.words[place])], "put")

    def put_finding(self, place, a):
        self.capture.put(place, a)
        self.call("finding", [place, self.ring.show(a)], "put")

    def step_found(self, rng, ring, capture):
        pick = rng.randrange(20)
        if pick < 3:
            self.found = False
            self.call("reopen", [], "ok")
        elif pick < 5:
            size = self.finding_size()
            self.call("settled", [size], capture.settled(size))
        elif pick < 6:
            size = self.finding_size()
            line = capture.runs_back(size)
            if 0 in capture.unknown and not line.startswith("refused"):
                self.call("runs-back-any", [size], "ok")
            else:
                self.call("runs-back", [size], line)
        elif pick < 12:
            size = self.finding_size()
            polynomial = self.polynomial(rng, ring, capture)
            word, line = capture.attempt(size, polynomial)
            if word:
                self.call(word, [size, len(polynomial)] + self.shown(polynomial), line)
        elif pick < 17:
            sizes = [self.words_size(), self.finding_size(), self.channels * rng.randrange(8) + (rng.randrange(8) == 0)]
            word, line = capture.run(*sizes)
            self.call(word, sizes, line)
        elif pick < 18 and self.sizes[1]:
            place = rng.randrange(min(self.sizes[1], capture.size() + 2))
            self.put_finding(place, self.element(3))
        elif pick < 19 and rng.randrange(2) and capture.size() <= self.sizes[1]:
            # a polynomial of the test's own at level 0
            length = rng.randrange(min(capture.count, 4) + 1)
            for place in range(length):
                self.put_finding(place, ring.random(rng))
            self.put_finding(length, ring.one)
            capture.record[0] = (length, True)
            self.call("level", [0, length, 1], "put")
        elif pick < 19:
            level = rng.randrange(min(31, ring.depth + 1))
            length = rng.choice([0, capture.count, capture.count + 1, rng.randrange(capture.count + 1)])
            found = rng.randrange(5) != 0
            capture.record[level] = (length, found)
            capture.own = False
            self.call("level", [level, length, int(found)], "put")
            if level < ring.depth and length <= capture.count and (level * (capture.count + 1) + length) < self.sizes[1]:
                self.put_finding(level * (capture.count + 1) + length, ring.step_power(level))
        elif capture.words:
            # words that are put by the test may no longer be those of the finding
            if rng.randrange(2) and capture.own:
                return
            capture.own = False
            self.put_word(rng, capture)

    def polynomial(self, rng, ring, capture):
        rows = [row for _, row in capture.rows() if row]
        many = rng.choice([0, 2, 5, 8, 10])
        if rng.randrange(16) == 0:
            return [ring.random(rng) for _ in range(rng.choice([COEFFICIENTS, COEFFICIENTS + 1]))]
        if rows and rng.randrange(3) == 0:  # a multiple of a row, if it is still lawful
            row = rng.choice(rows)
            if all(map(ring.lawful, row)):
                factor = ring.random(rng)
                return [ring.zero] * rng.randrange(3) + [ring.mul(factor, a) for a in row] + [ring.zero] * rng.randrange(3)
        return [self.element(60) for _ in range(many)]


def lists(rng, total):
    def kinds():
        while True:
            for letter, bases in (("Z", BASES), ("T", BASES), ("B", [2] * 5)):
                for base in bases:
                    top = deepest(letter, base)
                    yield Ring(letter, base, rng.choice([1, 1, 2, top, rng.randrange(1, top + 1)]) if top > 1 else 1)
    for index, ring in zip(range(total), kinds()):
        channels = rng.choice([1, 1, 1, 2, 2, 3, 4])
        if index % 50 == 49:
            channels = rng.choice([0, 5, 2 ** 32 - 1])
        capacity = rng.choice([0, 1, 3, 6, 10, 14, 14, 14])
        words = capacity * channels + rng.choice([0, 0, 0, channels - 1]) if 1 <= channels <= 4 else 8
        if index % 40 == 39 and 1 <= channels <= 4:
            words = channels * 130  # more memory than a capture ever uses
        most = min(capacity if words < 130 else 20, 20)
        finding = ring.depth * (most + 1) + rng.choice([0, 0, 3])
        work = work_size(most, channels, ring.depth) if 1 <= channels <= 4 else 8
        made = List(ring, channels, words, finding, work, most + 1 + rng.choice([0, 2]), rng)
        if made.capture:
            goal = rng.randrange(5, 41)
            while len(made.lines) - 1 < goal:
                made.step()
        yield made


def main():
    folder = os.path.join(os.path.dirname(os.path.abspath(__file__)), "..", "crates", "call_vectors")
    os.makedirs(folder, exist_ok=True)
    made = list(lists(random.Random(2029), 360))
    with open(os.path.join(folder, "stdin"), "w") as file:
        file.writelines(" ".join(one.fields) + "\n" for one in made)
    with open(os.path.join(folder, "stdout"), "w") as file:
        file.writelines(line + "\n" for one in made for line in one.lines)
    print(len(made), "lists,", sum(len(one.lines) for one in made), "answers")


if __name__ == "__main__":
    main()
