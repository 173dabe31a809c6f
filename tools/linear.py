"""What the definitions say of a capture, by plain linear algebra over a kind: no step of the library's own method.

Words are lists of n elements. A polynomial is a list of elements, lowest coefficient first.
"""


def solve(ring, rows, right, multiples):
    """Solves rows × x = step^i × right for each i in multiples: the list of solutions, None where there is none.

    The pivot is always an entry of least valuation among what is left, so it divides all of that: other rows are cleared by it,
    and its own row is solvable exactly if it divides the right side.
    """
    rows = [row[:] for row in rows]
    right = right[:]
    width = len(rows[0]) if rows else 0
    left, pivots = list(range(len(rows))), []
    columns = set(range(width))
    while True:
        best, at = ring.depth, None
        for r in left:
            for c in columns:
                v = ring.valuation(rows[r][c])
                if v < best:
                    best, at = v, (r, c)
                if best == 0:
                    break
            if best == 0:
                break
        if at is None:
            break
        r, c = at
        left.remove(r)
        columns.remove(c)
        pivots.append(at)
        pivot = rows[r]
        used = [k for k in columns if pivot[k] != ring.zero]
        for other in left:
            row = rows[other]
            if row[c] != ring.zero:
                factor = ring.quotient(row[c], pivot[c])
                for k in used:
                    row[k] = ring.sub(row[k], ring.mul(factor, pivot[k]))
                row[c] = ring.zero
                right[other] = ring.sub(right[other], ring.mul(factor, right[r]))
    solutions = []
    for i in multiples:
        scaled = [ring.mul(ring.step_power(i), b) for b in right]
        if any(scaled[r] != ring.zero for r in left):
            solutions.append(None)
            continue
        x = [ring.zero] * width
        for r, c in reversed(pivots):
            value = scaled[r]
            for k in range(width):
                if k != c and x[k] != ring.zero:
                    value = ring.sub(value, ring.mul(rows[r][k], x[k]))
            if ring.valuation(value) < ring.valuation(rows[r][c]):
                x = None
                break
            x[c] = ring.quotient(value, rows[r][c])
        solutions.append(x)
    return solutions


def findings(ring, channels, words):
    """For each level the length and a polynomial of that length that cancels, with leading coefficient step^level."""
    count = len(words)
    found = [None] * ring.depth
    for m in range(count + 1):
        open_levels = [i for i in range(ring.depth) if found[i] is None]
        if not open_levels:
            break
        rows = [[words[k + j][c] for j in range(m)] for k in range(count - m) for c in range(channels)]
        right = [ring.neg(words[k + m][c]) for k in range(count - m) for c in range(channels)]
        if not rows:
            answers = [[ring.zero] * m for _ in open_levels]
        else:
            answers = solve(ring, rows, right, open_levels)
        for i, x in zip(open_levels, answers):
            if x is not None:
                found[i] = (m, x + [ring.step_power(i)])
    return found


def next_word(ring, channels, words, monic):
    """The word after these that the monic polynomial asks for."""
    length = len(monic) - 1
    word = []
    for c in range(channels):
        total = ring.zero
        for j in range(length):
            total = ring.add(total, ring.mul(monic[j], words[len(words) - length + j][c]))
        word.append(ring.neg(total))
    return word


def continued(ring, channels, words, monic, more):
    """The words and so many after them."""
    words = words[:]
    for _ in range(more):
        words.append(next_word(ring, channels, words, monic))
    return words


def value(ring, polynomial, words, k, c):
    """The polynomial's cancelling sum at word k, channel c."""
    total = ring.zero
    for j, p in enumerate(polynomial):
        total = ring.add(total, ring.mul(p, words[k + j][c]))
    return total


def cancels(ring, channels, words, polynomial):
    """Whether it cancels the words."""
    while polynomial and polynomial[-1] == ring.zero:
        polynomial = polynomial[:-1]
    return all(value(ring, polynomial, words, k, c) == ring.zero
               for k in range(len(words) - len(polynomial) + 1) for c in range(channels)) if polynomial else True


def settled(found, count):
    return 2 * found[0][0] <= count


def left_over(ring, channels, words, found, polynomial):
    """How many coefficients a settled finding's reduction leaves of the polynomial: the least number of low coefficients
    that act on the run as the polynomial does. (An irreducible rest is the shortest one, whichever units were used: of two
    rests of different degree the difference would cancel the run, with a degree below the length of its level.)"""
    while polynomial and polynomial[-1] == ring.zero:
        polynomial = polynomial[:-1]
    length, monic = found[0]
    run = continued(ring, channels, words, monic, len(polynomial) + 2 * length)
    # what obeys the monic polynomial of level 0 is zero everywhere if it is on the first places
    goal = [value(ring, polynomial, run, k, c) for k in range(length) for c in range(channels)]
    for kept in range(length + 1):
        rows = [[run[k + j][c] for j in range(kept)] for k in range(length) for c in range(channels)]
        if not rows or solve(ring, rows, goal, [0])[0] is not None:
            return kept
    raise AssertionError("the polynomial of level 0 reduces everything below its length")
