"""Makes the vectors of the program crate kind_vectors: its stdin and the stdout that it must print.

    python3 tools/kinds.py

Each line of stdin is one operation, fields parted by blanks: the kind's letter, base and depth, the operation and its
arguments. An element is its numbers. The answers, one line each:
  make            ok
  zero one step   the element
  depth           the number
  add sub mul     the element
  split           the valuation, and ok if the element is step^valuation × u with a unit u (any such u is right)
  inverse         the element
  lawful same     yes or no
A kind that is refused answers refused and the number, whatever the operation.
"""

import os
import random

from rings import BASES, Ring, all_kinds, deepest, refusal

LARGEST = 2 ** 32 - 1
RANDOM = 5  # random pairs for each kind


def edges(ring):
    """Elements at the edges: zero, one, step powers, the largest, and the largest unit."""
    found = [ring.zero, ring.one, ring.step, ring.neg(ring.one), ring.step_power(ring.depth - 1),
             ring.neg(ring.step), ring.mul(ring.neg(ring.one), ring.step_power(ring.depth - 1))]
    if ring.letter == "Z":
        found.append(ring.size // 2)
    else:
        found.append(ring.make([ring.base - 1] * ring.depth))
    kept = []
    for a in found:
        if a not in kept:
            kept.append(a)
    return kept


def unlawful(ring):
    """Elements just outside the kind, and far outside."""
    if ring.letter == "Z":
        return [str(a) for a in (ring.size, ring.size + 1, LARGEST)]
    if ring.letter == "B":
        return [str(a) for a in (ring.size, ring.size | 1, 2 ** 31, LARGEST)]
    found = []
    for place in (0, ring.depth - 1):
        for c in (ring.base, 255):
            a = list(ring.one)
            a[place] = c
            found.append(a)
    if ring.depth < 8:
        for place in (ring.depth, 7):
            a = list(ring.zero)
            a[place] = 1
            found.append(a)
    return [" ".join(map(str, a)) for a in found]


def vectors(rng):
    """Pairs of a line and its answer."""
    for ring in all_kinds():
        name, show = ring.name(), ring.show
        yield f"{name} make", "ok"
        yield f"{name} zero", show(ring.zero)
        yield f"{name} one", show(ring.one)
        yield f"{name} step", show(ring.step)
        yield f"{name} depth", str(ring.depth)
        some = edges(ring)
        pairs = [(a, b) for a in some[:4] for b in some[:4]] + [(a, a) for a in some[4:]]
        pairs += [(ring.random(rng), ring.random(rng)) for _ in range(RANDOM)]
        for index, (a, b) in enumerate(pairs):
            # every pair of edges by one operation in turn, every random pair by all three
            for offset, (word, answer) in enumerate((("add", ring.add), ("sub", ring.sub), ("mul", ring.mul))):
                if index % 3 == offset or index >= len(pairs) - RANDOM:
                    yield f"{name} {word} {show(a)} {show(b)}", show(answer(a, b))
        powers = [ring.mul(ring.random_unit(rng), ring.step_power(v)) for v in range(ring.depth + 1)]
        for a in some + powers + [ring.random(rng) for _ in range(4)]:
            yield f"{name} split {show(a)}", f"{ring.valuation(a)} ok"
        units = [a for a in some if ring.valuation(a) == 0] + [ring.random_unit(rng) for _ in range(6)]
        for u in units:
            assert ring.mul(u, ring.inverse(u)) == ring.one
            yield f"{name} inverse {show(u)}", show(ring.inverse(u))
        for a in some[:4] + [ring.random(rng)]:
            yield f"{name} lawful {show(a)}", "yes"
        for text in unlawful(ring):
            yield f"{name} lawful {text}", "no"
        for base, depth in ((ring.base, ring.depth), (ring.base, ring.depth % deepest(ring.letter, ring.base) + 1), (3, 1), (2, 1)):
            if not refusal(ring.letter, base, depth):
                yield f"{name} same {base} {depth}", "yes" if (base, depth) == (ring.base, ring.depth) else "no"
    # every remainder's inverse: the whole table
    for base in BASES:
        ring = Ring("Z", base, 1)
        for u in range(1, base):
            yield f"{ring.name()} inverse {u}", ring.show(ring.inverse(u))
    # makes at their edges
    for letter in "ZTB":
        for base in [0, 1, 4, 6, 8, 9, 16, 33, 37, 126, 128, 249, 250, 252, 253, 255, 256, 257, LARGEST] + BASES:
            top = deepest(letter, base) if base in BASES else 1
            for depth in (0, 1, top, top + 1, 31, 32, LARGEST):
                number = refusal(letter, base, depth)
                yield f"{letter} {base} {depth} make", f"refused {number}" if number else "ok"


def main():
    folder = os.path.join(os.path.dirname(os.path.abspath(__file__)), "..", "crates", "kind_vectors")
    os.makedirs(folder, exist_ok=True)
    pairs = list(dict.fromkeys(vectors(random.Random(2026))))  # each line once
    with open(os.path.join(folder, "stdin"), "w") as file:
        file.writelines(line + "\n" for line, _ in pairs)
    with open(os.path.join(folder, "stdout"), "w") as file:
        file.writelines(answer + "\n" for _, answer in pairs)
    print(len(pairs), "lines")


if __name__ == "__main__":
    main()
