"""Makes the vectors of the program crate capture_vectors: its stdin and the stdout that it must print.

    python3 tools/captures.py

Each line of stdin is one capture: the kind's letter, base and depth, the number of channels, the number of words, the words'
elements in order, then the number of polynomials to try and for each its number of coefficients and these, lowest first.
Each line of stdout: `lengths` by level, then `unsettled`, or `settled`, `next` with the next four words, and `left` with the
number of coefficients that each tried polynomial leaves. Everything printed is determined by the capture.

    python3 tools/captures.py --check

compares the linear algebra with exhaustion on tiny captures.
"""

import itertools
import os
import random
import sys

from linear import cancels, continued, findings, left_over, settled
from rings import BASES, Ring, deepest

NEXT = 4


def register(ring, channels, degree, count, rng):
    """Words that obey a random monic polynomial of this degree."""
    monic = [ring.random(rng) for _ in range(degree)] + [ring.one]
    first = [[ring.random(rng) for _ in range(channels)] for _ in range(degree)]
    return continued(ring, channels, first, monic, max(0, count - degree))[:count]


def add_words(ring, a, b, factor):
    return [[ring.add(x, ring.mul(factor, y)) for x, y in zip(u, w)] for u, w in zip(a, b)]


def random_words(ring, channels, count, rng):
    """Words of one of several makes."""
    make = rng.randrange(8)
    if make == 0:
        return [[ring.random(rng) for _ in range(channels)] for _ in range(count)]
    if make == 1:  # zeros, then something late
        words = [[ring.zero] * channels for _ in range(count)]
        if count and rng.randrange(3):
            words[rng.randrange(count)] = [ring.random(rng) for _ in range(channels)]
        return words
    degree = rng.randrange(count // 2 + 1)
    if make <= 4:
        return register(ring, channels, degree, count, rng)
    # a short part, and a longer one that only the lower powers of the step let be seen: deeper levels are shorter
    words = register(ring, channels, rng.randrange(degree + 1), count, rng)
    for i in sorted(rng.randrange(ring.depth) for _ in range(rng.randrange(1, 4))):
        words = add_words(ring, words, register(ring, channels, rng.randrange(degree + 1), count, rng), ring.step_power(i))
    return words


def multiply(ring, f, g):
    product = [ring.zero] * max(0, len(f) + len(g) - 1)
    for i, a in enumerate(f):
        for j, b in enumerate(g):
            product[i + j] = ring.add(product[i + j], ring.mul(a, b))
    return product


def tried(ring, found, rng):
    """Polynomials to try: nothing, random ones, and some that leave nothing."""
    polynomials = [[], [ring.random(rng) for _ in range(rng.randrange(1, 12))]]
    total = []
    for _, row in found:
        if rng.randrange(3) == 0:
            part = multiply(ring, row, [ring.random(rng) for _ in range(rng.randrange(1, 6))])
            size = max(len(total), len(part))
            total = [ring.add(a, b) for a, b in zip(total + [ring.zero] * (size - len(total)), part + [ring.zero] * (size - len(part)))]
    polynomials.append(total + [ring.zero] * rng.randrange(3))
    nearly = total[:] or [ring.zero]
    place = rng.randrange(len(nearly))
    nearly[place] = ring.add(nearly[place], ring.step_power(rng.randrange(ring.depth)))
    polynomials.append(nearly)
    return polynomials


def line(ring, channels, words, polynomials):
    fields = [ring.name(), str(channels), str(len(words))]
    fields += [ring.show(x) for word in words for x in word]
    fields.append(str(len(polynomials)))
    for p in polynomials:
        fields.append(str(len(p)))
        fields += [ring.show(x) for x in p]
    return " ".join(fields)


def answer(ring, channels, words, found, polynomials):
    text = "lengths " + " ".join(str(length) for length, _ in found)
    if not settled(found, len(words)):
        return text + " unsettled"
    run = continued(ring, channels, words, found[0][1], NEXT)
    text += " settled next " + " ".join(ring.show(x) for word in run[len(words):] for x in word)
    if polynomials:
        text += " left " + " ".join(str(left_over(ring, channels, words, found, p)) for p in polynomials)
    return text


def known():
    """The captures with known findings."""
    four, three, two, bit = Ring("Z", 2, 2), Ring("T", 3, 2), Ring("T", 2, 2), Ring("Z", 2, 1)
    poly = lambda ring, *parts: ring.make(list(parts))
    yield four, 1, [], []
    yield three, 1, [[poly(three, 1)], [poly(three, 1, 1)]] * 2, [
        [poly(three, 2, 2), poly(three, 0, 1), poly(three, 1)], [poly(three, 2), poly(three, 1)]]
    yield two, 1, [[poly(two, 1)], [poly(two, 1, 1)]] * 2, []
    yield four, 1, [[0], [0], [1]], []
    yield four, 1, [[2], [0], [2], [0]], []
    yield four, 1, [[2]], []
    yield four, 1, [[1]], []
    yield bit, 2, [[1, 0], [0, 1], [1, 1]], []


def kinds(rng):
    """Every letter and base, the smallest and the largest depth and a random one, again and again."""
    while True:
        for letter, bases in (("Z", BASES), ("T", BASES), ("B", [2] * 6)):
            for base in bases:
                top = deepest(letter, base)
                yield Ring(letter, base, rng.choice([1, 2, top, rng.randrange(1, top + 1)]) if top > 1 else 1)


def vectors(rng, total):
    for ring, channels, words, polynomials in known():
        found = findings(ring, channels, words)
        yield line(ring, channels, words, polynomials), answer(ring, channels, words, found, polynomials)
    for index, ring in zip(range(total), kinds(rng)):
        channels = rng.choice([1, 1, 1, 2, 2, 3, 4])
        most = 32 if index % 8 == 0 else 16
        words = random_words(ring, channels, rng.randrange(most + 1), rng)
        found = findings(ring, channels, words)
        polynomials = tried(ring, found, rng) if settled(found, len(words)) else []
        yield line(ring, channels, words, polynomials), answer(ring, channels, words, found, polynomials)


def check(rng):
    """The lengths by exhaustion over all polynomials, for tiny kinds and captures."""
    for letter, base, depth in (("Z", 2, 1), ("Z", 2, 2), ("Z", 3, 1), ("Z", 2, 3), ("Z", 3, 2), ("T", 2, 2), ("B", 2, 3), ("T", 3, 2)):
        ring = Ring(letter, base, depth)
        elements = [ring.make([a]) for a in range(ring.size)] if letter == "Z" else [
            ring.make(list(parts)) for parts in itertools.product(range(base), repeat=depth)]
        for _ in range(20):
            channels = rng.randrange(1, 3)
            words = random_words(ring, channels, rng.randrange(6 if ring.size < 8 else 5), rng)
            found = findings(ring, channels, words)
            for i, (length, row) in enumerate(found):
                assert len(row) == length + 1 and cancels(ring, channels, words, row) and ring.valuation(row[-1]) == i
                if length > 3:
                    continue
                for low in itertools.product(elements, repeat=max(0, length - 1)):
                    # a polynomial of a degree just below that cancels would be shifted to every degree between
                    assert length == 0 or not cancels(ring, channels, words, list(low) + [ring.step_power(i)])
            if settled(found, len(words)):
                tries = tried(ring, found, rng)
                counts = [left_over(ring, channels, words, found, p) for p in tries]
                for p, count in zip(tries, counts):
                    run = continued(ring, channels, words, found[0][1], len(p) + 2 * found[0][0] + 4)
                    assert (count == 0) == cancels(ring, channels, run, p)
                    assert count == reduced(ring, found, p)
    print("ok")


def reduced(ring, found, polynomial):
    """The number of coefficients left by reduction itself."""
    rest = polynomial[:]
    while True:
        while rest and rest[-1] == ring.zero:
            rest.pop()
        if not rest:
            return 0
        v, u = ring.split(rest[-1])
        length, row = found[v]
        if len(rest) - 1 < length:
            return len(rest)
        at = len(rest) - 1 - length
        for j, p in enumerate(row):
            rest[at + j] = ring.sub(rest[at + j], ring.mul(u, p))


def main():
    if "--check" in sys.argv:
        return check(random.Random(1))
    folder = os.path.join(os.path.dirname(os.path.abspath(__file__)), "..", "crates", "capture_vectors")
    os.makedirs(folder, exist_ok=True)
    pairs = list(vectors(random.Random(2027), 600))
    with open(os.path.join(folder, "stdin"), "w") as file:
        file.writelines(text + "\n" for text, _ in pairs)
    with open(os.path.join(folder, "stdout"), "w") as file:
        file.writelines(text + "\n" for _, text in pairs)
    print(len(pairs), "captures,", sum(" settled" in text for _, text in pairs), "settled")


if __name__ == "__main__":
    main()
