"""The coefficient kinds, written a second time and independently, for the programs beside this one.

A kind is a letter, a base and a depth:
  Z  the numbers modulo base^depth
  T  polynomials in x over the numbers modulo the base, cut at x^depth, eight coefficients, constant first
  B  the same for base 2, in one number, bit j the coefficient of x^j

An element of Z or B is a number, one of T a tuple of eight numbers; it is written as these numbers, parted by blanks.
"""

BASES = [2, 3, 5, 7, 11, 13, 17, 19, 23, 29, 31, 127, 251]
BASE, DEPTH, CHANNELS, SHORT, FULL, FOREIGN, BACK, STAGES, UNSETTLED, LINE, SPAN = range(1, 12)


def deepest(letter, base):
    """The largest depth of a kind."""
    if letter == "T":
        return 8
    if letter == "B":
        return 31
    depth = 1
    while base ** (depth + 1) <= 2 ** 31:
        depth += 1
    return depth


def refusal(letter, base, depth):
    """The number by which making the kind is refused, 0 if it is made."""
    if base not in BASES or (letter == "B" and base != 2):
        return BASE
    if depth < 1 or depth > deepest(letter, base):
        return DEPTH
    return 0


class Ring:
    """One kind with its arithmetic."""

    def __init__(self, letter, base, depth):
        assert refusal(letter, base, depth) == 0
        self.letter, self.base, self.depth = letter, base, depth
        self.size = base ** depth
        self.zero = self.make([0])
        self.one = self.make([1])
        self.step = self.make([base]) if letter == "Z" else self.make([0, 1])
        if depth == 1:
            self.step = self.zero

    def make(self, parts):
        """The element with these coefficients of x, or for Z with this number; cut and reduced."""
        if self.letter == "Z":
            return parts[0] % self.size
        parts = [c % self.base for c in parts[: self.depth]]
        if self.letter == "B":
            return sum(c << j for j, c in enumerate(parts))
        return tuple(parts + [0] * (8 - len(parts)))

    def parts(self, a):
        """The coefficients of an element, constant first."""
        if self.letter == "Z":
            return [a]
        if self.letter == "B":
            return [a >> j & 1 for j in range(self.depth)]
        return list(a[: self.depth])

    def add(self, a, b):
        return self.make([x + y for x, y in zip(self.parts(a), self.parts(b))])

    def sub(self, a, b):
        return self.make([x - y for x, y in zip(self.parts(a), self.parts(b))])

    def neg(self, a):
        return self.sub(self.zero, a)

    def mul(self, a, b):
        if self.letter == "Z":
            return a * b % self.size
        if self.letter == "B":  # schoolbook, one shifted copy for each bit
            product = 0
            while b:
                low = b & -b
                product ^= a * low
                b ^= low
            return product & (self.size - 1)
        x, y = self.parts(a), self.parts(b)
        return self.make([sum(x[i] * y[j - i] for i in range(j + 1)) for j in range(self.depth)])

    def power(self, a, n):
        product = self.one
        for _ in range(n):
            product = self.mul(product, a)
        return product

    def step_power(self, v):
        """step^v"""
        if v >= self.depth:
            return self.zero
        return self.make([self.base ** v]) if self.letter == "Z" else self.make([0] * v + [1])

    def split(self, a):
        """The valuation and a unit part."""
        if a == self.zero:
            return self.depth, self.one
        v = 0
        if self.letter == "Z":
            while a % self.base == 0:
                a //= self.base
                v += 1
            return v, a
        x = self.parts(a)
        while x[v] == 0:
            v += 1
        return v, self.make(x[v:])

    def valuation(self, a):
        return self.split(a)[0]

    def inverse(self, u):
        """The inverse of a unit."""
        if self.letter == "Z":
            return pow(u, -1, self.size)
        x = self.parts(u)
        lead = pow(x[0], -1, self.base)
        y = []
        for j in range(self.depth):  # the coefficients of the inverse series, one after the other
            y.append(((1 if j == 0 else 0) - sum(x[j - i] * y[i] for i in range(j))) * lead % self.base)
        return self.make(y)

    def quotient(self, a, b):
        """c with a = b × c, for b of no larger valuation than a."""
        v, u = self.split(a)
        w, t = self.split(b)
        assert w <= v
        if v == self.depth:
            return self.zero
        return self.mul(self.step_power(v - w), self.mul(u, self.inverse(t)))

    def lawful(self, a):
        if self.letter == "T":
            return len(a) == 8 and all(c < self.base for c in a) and not any(a[self.depth:])
        return a < self.size

    def random(self, rng):
        """A random element, small valuations and zero more often than by chance."""
        a = self.make([rng.randrange(self.size)] if self.letter == "Z" else [rng.randrange(self.base) for _ in range(self.depth)])
        if rng.randrange(4) == 0:
            a = self.mul(a, self.step_power(rng.randrange(self.depth + 1)))
        return a

    def random_unit(self, rng):
        while True:
            a = self.random(rng)
            if self.valuation(a) == 0:
                return a

    def show(self, a):
        return " ".join(map(str, a)) if self.letter == "T" else str(a)

    def name(self):
        return f"{self.letter} {self.base} {self.depth}"


def depths(letter, base):
    """Depth 1, the largest depth and a few between."""
    top = deepest(letter, base)
    return sorted({1, 2, (top + 1) // 2, top - 1, top} & set(range(1, top + 1)))


def all_kinds():
    """Every letter and base with some depths."""
    for letter in "ZTB":
        for base in BASES:
            if letter != "B" or base == 2:
                for depth in depths(letter, base):
                    yield Ring(letter, base, depth)
