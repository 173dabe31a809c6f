"""Makes the vectors of the program crate source_vectors: its stdin and the stdout that it must print.

    python3 tools/sources.py

Each line of stdin is one source. Its fields: the kind's letter; two generators, each with its own base and depth; how they are
stacked; a stride; a factor. A generator is `register`, the number of listed coefficients and these, the number of stages in
the memory that is lent and what they hold; or `loop`, the number of elements and these.
Each line of stdout: the answers of the checks in the order of building, 0 where nothing is refused (first generator, second
generator, then each adapter from the inside out), and then the source's first 64 words. What a check refuses is a source of
zeros.
"""

import os
import random

from rings import BASES, FOREIGN, SHORT, SPAN, STAGES, Ring, deepest

WORDS = 64


class Register:
    def __init__(self, ring, coefficients, memory):
        self.ring, self.coefficients = ring, coefficients
        degree = max(0, len(coefficients) - 1)
        if len(memory) < degree:
            self.refused = SHORT
        elif not all(map(ring.lawful, coefficients + memory[:degree])):
            self.refused = FOREIGN
        elif not coefficients or coefficients[-1] != ring.one or degree > 128:
            self.refused = STAGES
        else:
            self.refused = 0
        self.stages = memory[:degree]

    def next(self):
        ring = self.ring
        if self.refused or not self.stages:
            return ring.zero
        total = ring.zero
        for a, b in zip(self.coefficients, self.stages):
            total = ring.add(total, ring.mul(a, b))
        self.stages.append(ring.neg(total))
        return self.stages.pop(0)


class Loop:
    def __init__(self, ring, elements):
        self.ring, self.elements, self.at = ring, elements, 0
        self.refused = FOREIGN if not all(map(ring.lawful, elements)) else 0 if elements else SPAN

    def next(self):
        if self.refused:
            return self.ring.zero
        self.at += 1
        return self.elements[(self.at - 1) % len(self.elements)]


class Stride:
    def __init__(self, source, by):
        self.ring, self.source, self.by = source.ring, source, by
        self.refused = 0 if 1 <= by <= 65536 else SPAN

    def next(self):
        if self.refused:
            return self.ring.zero
        word = self.source.next()
        for _ in range(self.by - 1):
            self.source.next()
        return word


class Sum:
    def __init__(self, first, second):
        self.ring, self.first, self.second = first.ring, first, second
        same = (first.ring.base, first.ring.depth) == (second.ring.base, second.ring.depth)
        self.refused = 0 if same else FOREIGN

    def next(self):
        if self.refused:
            return self.ring.zero
        return self.ring.add(self.first.next(), self.second.next())


class Scaling:
    def __init__(self, source, factor):
        self.ring, self.source, self.factor = source.ring, source, factor
        self.refused = 0 if self.ring.lawful(factor) else FOREIGN

    def next(self):
        if self.refused:
            return self.ring.zero
        return self.ring.mul(self.factor, self.source.next())


STACKS = {
    "plain": lambda a, b, m, f: [a],
    "stride": lambda a, b, m, f: [Stride(a, m)],
    "scale": lambda a, b, m, f: [Scaling(a, f)],
    "sum": lambda a, b, m, f: [Sum(a, b)],
    # stride (sum (scaling a) b)
    "stride-sum": lambda a, b, m, f: tower(Scaling(a, f), lambda s: Sum(s, b), lambda s: Stride(s, m)),
    # scaling (stride (sum a b))
    "scale-stride": lambda a, b, m, f: tower(Sum(a, b), lambda s: Stride(s, m), lambda s: Scaling(s, f)),
    # sum (stride a) (scaling b)
    "sum-both": lambda a, b, m, f: two(Stride(a, m), Scaling(b, f)),
    # stride (scaling (stride a)), which moves a by m × m
    "stride-stride": lambda a, b, m, f: tower(Stride(a, m), lambda s: Scaling(s, f), lambda s: Stride(s, m)),
}


def tower(source, *makers):
    built = [source]
    for maker in makers:
        built.append(maker(built[-1]))
    return built


def two(first, second):
    return [first, second, Sum(first, second)]


def show_generator(generator, show):
    ring = generator[1]
    fields = [str(ring.base), str(ring.depth), generator[0]]
    for elements in generator[2:]:
        fields.append(str(len(elements)))
        fields += [show(x) for x in elements]
    return fields


def build(generator):
    word, ring, *lists = generator
    return (Register if word == "register" else Loop)(ring, *[list(elements) for elements in lists])


def vector(first, second, stack, by, factor):
    """The line and its answer."""
    ring = first[1]
    fields = [ring.letter] + show_generator(first, ring.show) + show_generator(second, ring.show)
    fields += [stack, str(by), ring.show(factor)]
    a, b = build(first), build(second)
    built = STACKS[stack](a, b, by, factor)
    answers = [a.refused, b.refused] + ([] if stack == "plain" else [s.refused for s in built])
    words = [ring.show(built[-1].next()) for _ in range(WORDS)]
    return " ".join(fields), " ".join([str(n) for n in answers] + words)


def register(ring, degree, rng, spare=0):
    return ("register", ring, [ring.random(rng) for _ in range(degree)] + [ring.one],
            [ring.random(rng) for _ in range(degree + spare)])


def loop(ring, length, rng):
    return ("loop", ring, [ring.random(rng) for _ in range(length)])


def generator(ring, rng):
    if rng.randrange(3):
        return register(ring, rng.choice([0, 1, 2, 3, 4, 5, 8, 13, 21]), rng, rng.randrange(3))
    return loop(ring, rng.randrange(1, 20), rng)


def unlawful(ring, rng):
    """An element that is not lawful."""
    if ring.letter == "T":
        a = list(ring.random(rng))
        if ring.depth < 8 and rng.randrange(2):
            a[rng.randrange(ring.depth, 8)] = 1
        else:
            a[rng.randrange(ring.depth)] = ring.base
        return tuple(a)
    return ring.size + rng.randrange(2)


def kinds(rng):
    while True:
        for letter, bases in (("Z", BASES), ("T", BASES), ("B", [2] * 5)):
            for base in bases:
                top = deepest(letter, base)
                yield Ring(letter, base, rng.choice([1, top, rng.randrange(1, top + 1)]))


def edges(ring, rng):
    """The refusals of each check at their edges."""
    plain = loop(ring, 3, rng)
    one, zero = ring.one, ring.zero
    for degree in (127, 128, 129):
        yield register(ring, degree, rng), plain, "plain", 1, one
    word, _, coefficients, memory = register(ring, 6, rng)
    yield (word, ring, coefficients, memory[:-1]), plain, "plain", 1, one
    yield (word, ring, coefficients, []), plain, "plain", 1, one
    yield (word, ring, coefficients[:-1] + [ring.add(one, one)], memory), plain, "plain", 1, one
    yield (word, ring, coefficients[:-1] + [zero], memory), plain, "plain", 1, one
    yield (word, ring, [], memory), plain, "plain", 1, one
    yield (word, ring, [], []), plain, "plain", 1, one
    yield (word, ring, [one], []), plain, "plain", 1, one
    bad = unlawful(ring, rng)
    for place in (0, 3, 6):
        yield (word, ring, coefficients[:place] + [bad] + coefficients[place + 1:], memory), plain, "plain", 1, one
    for place in (0, 5):
        yield (word, ring, coefficients, memory[:place] + [bad] + memory[place + 1:]), plain, "plain", 1, one
    yield (word, ring, coefficients, memory + [bad]), plain, "plain", 1, one
    # of two reasons the first in the table
    yield (word, ring, [bad] + coefficients[1:], memory[:-1]), plain, "plain", 1, one
    yield (word, ring, [bad] + coefficients[1:-1] + [zero], memory), plain, "plain", 1, one
    word, _, coefficients, memory = register(ring, 129, rng)
    yield (word, ring, coefficients, memory[:128]), plain, "plain", 1, one
    yield (word, ring, coefficients[:-1] + [bad], memory), plain, "plain", 1, one
    yield ("loop", ring, []), plain, "plain", 1, one
    yield ("loop", ring, [bad]), plain, "plain", 1, one
    yield ("loop", ring, [zero, one, bad]), plain, "plain", 1, one
    for by in (0, 1, 2, 65536, 65537, 2 ** 32 - 1):
        yield loop(ring, 7, rng), plain, "stride", by, one
    yield register(ring, 2, rng), plain, "stride", 0, one
    yield register(ring, 2, rng), plain, "scale", 1, bad
    yield register(ring, 2, rng), plain, "scale", 1, zero
    top = deepest(ring.letter, ring.base)
    if top > 1:
        other = Ring(ring.letter, ring.base, ring.depth % top + 1)
        for stack in ("sum", "stride-sum", "scale-stride", "sum-both"):
            yield register(ring, 2, rng), loop(other, 3, rng), stack, 2, one
    if ring.letter != "B":
        other = Ring(ring.letter, 3 if ring.base != 3 else 5, ring.depth if ring.depth <= 8 else 1)
        yield register(ring, 2, rng), register(other, 1, rng), "sum", 2, one
    # adapters on what was refused
    yield ("loop", ring, []), plain, "sum", 2, one
    yield plain, ("loop", ring, []), "sum", 2, one
    yield register(ring, 2, rng), plain, "scale-stride", 0, one
    yield register(ring, 2, rng), plain, "scale-stride", 2, bad
    yield register(ring, 2, rng), plain, "stride-sum", 0, bad
    yield register(ring, 2, rng), plain, "sum-both", 65537, bad


def vectors(rng, total):
    for ring, index in zip(kinds(rng), range(total)):
        stack = rng.choice(list(STACKS) + ["plain", "plain"])
        by = rng.choice([1, 2, 3, 5, 16])
        yield vector(generator(ring, rng), generator(ring, rng), stack, by, ring.random(rng))
    for ring in (Ring("Z", 2, 31), Ring("Z", 251, 3), Ring("T", 3, 2), Ring("T", 251, 8), Ring("B", 2, 31), Ring("B", 2, 1)):
        for edge in edges(ring, rng):
            yield vector(*edge)


def main():
    folder = os.path.join(os.path.dirname(os.path.abspath(__file__)), "..", "crates", "source_vectors")
    os.makedirs(folder, exist_ok=True)
    pairs = list(vectors(random.Random(2028), 360))
    with open(os.path.join(folder, "stdin"), "w") as file:
        file.writelines(text + "\n" for text, _ in pairs)
    with open(os.path.join(folder, "stdout"), "w") as file:
        file.writelines(text + "\n" for _, text in pairs)
    print(len(pairs), "sources")


if __name__ == "__main__":
    main()
