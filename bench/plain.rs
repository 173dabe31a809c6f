// The kinds in plain Rust: the same arithmetic, with no proofs, for the benchmarks to compare with.
#![allow(dead_code)]

pub type Eight = [u8; 8];

pub trait Plain: Copy {
    type Elem: Copy + PartialEq + std::fmt::Debug;
    fn depth(&self) -> usize;
    fn zero(&self) -> Self::Elem;
    fn one(&self) -> Self::Elem;
    fn step(&self) -> Self::Elem;
    fn add(&self, a: Self::Elem, b: Self::Elem) -> Self::Elem;
    fn sub(&self, a: Self::Elem, b: Self::Elem) -> Self::Elem;
    fn mul(&self, a: Self::Elem, b: Self::Elem) -> Self::Elem;
    fn split(&self, a: Self::Elem) -> (usize, Self::Elem);
    fn inverse(&self, u: Self::Elem) -> Self::Elem;
    fn random(&self, state: &mut u64) -> Self::Elem;
}

pub fn next(state: &mut u64) -> u64 {
    *state = state.wrapping_mul(6364136223846793005).wrapping_add(1442695040888963407);
    *state >> 33
}

// The inverse of each remainder of a base.
const fn inverses<const P: usize>() -> [u8; P] {
    let mut table = [0; P];
    let mut r = 1;
    while r < P {
        let mut w = 1;
        while r * w % P != 1 {
            w += 1;
        }
        table[r] = w as u8;
        r += 1;
    }
    table
}

fn inverse_of(base: u32, r: u32) -> u32 {
    static TWO: [u8; 2] = inverses();
    static THREE: [u8; 3] = inverses();
    static LARGE: [u8; 251] = inverses();
    let table: &[u8] = match base {
        2 => &TWO,
        3 => &THREE,
        _ => &LARGE,
    };
    table[r as usize] as u32
}

#[derive(Clone, Copy)]
pub struct Residue {
    base: u32,
    depth: usize,
    size: u32,
}

impl Residue {
    pub fn new(base: u32, depth: usize) -> Residue {
        Residue { base, depth, size: base.pow(depth as u32) }
    }
}

impl Plain for Residue {
    type Elem = u32;

    fn depth(&self) -> usize {
        self.depth
    }

    fn zero(&self) -> u32 {
        0
    }

    fn one(&self) -> u32 {
        1
    }

    fn step(&self) -> u32 {
        self.base % self.size
    }

    fn add(&self, a: u32, b: u32) -> u32 {
        let sum = a + b;
        if sum < self.size { sum } else { sum - self.size }
    }

    fn sub(&self, a: u32, b: u32) -> u32 {
        if a >= b { a - b } else { self.size - (b - a) }
    }

    fn mul(&self, a: u32, b: u32) -> u32 {
        (a as u64 * b as u64 % self.size as u64) as u32
    }

    fn split(&self, a: u32) -> (usize, u32) {
        if a == 0 {
            return (self.depth, 1);
        }
        if self.base == 2 {
            let v = a.trailing_zeros();
            return (v as usize, a >> v);
        }
        let (mut v, mut u) = (0, a);
        while u % self.base == 0 {
            u /= self.base;
            v += 1;
        }
        (v, u)
    }

    fn inverse(&self, u: u32) -> u32 {
        let two = self.add(1, 1);
        let mut w = inverse_of(self.base, u % self.base);
        let mut known = 1;
        while known < self.depth {
            w = self.mul(w, self.sub(two, self.mul(u, w)));
            known += known;
        }
        w
    }

    fn random(&self, state: &mut u64) -> u32 {
        (next(state) % self.size as u64) as u32
    }
}

#[derive(Clone, Copy)]
pub struct Bits {
    depth: usize,
}

impl Bits {
    pub fn new(depth: usize) -> Bits {
        Bits { depth }
    }

    fn mask(&self) -> u32 {
        (1 << self.depth) - 1
    }
}

impl Plain for Bits {
    type Elem = u32;

    fn depth(&self) -> usize {
        self.depth
    }

    fn zero(&self) -> u32 {
        0
    }

    fn one(&self) -> u32 {
        1
    }

    fn step(&self) -> u32 {
        2 & self.mask()
    }

    fn add(&self, a: u32, b: u32) -> u32 {
        a ^ b
    }

    fn sub(&self, a: u32, b: u32) -> u32 {
        a ^ b
    }

    fn mul(&self, a: u32, b: u32) -> u32 {
        let mask = self.mask();
        let (mut sum, mut moved, mut rest) = (0, a, b);
        for _ in 0..self.depth {
            if rest & 1 == 1 {
                sum ^= moved;
            }
            moved = (moved << 1) & mask;
            rest >>= 1;
        }
        sum
    }

    fn split(&self, a: u32) -> (usize, u32) {
        if a == 0 {
            return (self.depth, 1);
        }
        let v = a.trailing_zeros();
        (v as usize, a >> v)
    }

    fn inverse(&self, u: u32) -> u32 {
        let (mut w, mut rest) = (0, 1);
        for i in 0..self.depth {
            if rest & 1 == 1 {
                w ^= 1 << i;
                rest ^= u;
            }
            rest >>= 1;
        }
        w
    }

    fn random(&self, state: &mut u64) -> u32 {
        next(state) as u32 & self.mask()
    }
}

#[derive(Clone, Copy)]
pub struct Truncated {
    base: u32,
    depth: usize,
}

impl Truncated {
    pub fn new(base: u32, depth: usize) -> Truncated {
        Truncated { base, depth }
    }
}

impl Plain for Truncated {
    type Elem = Eight;

    fn depth(&self) -> usize {
        self.depth
    }

    fn zero(&self) -> Eight {
        [0; 8]
    }

    fn one(&self) -> Eight {
        [1, 0, 0, 0, 0, 0, 0, 0]
    }

    fn step(&self) -> Eight {
        if self.depth == 1 { [0; 8] } else { [0, 1, 0, 0, 0, 0, 0, 0] }
    }

    fn add(&self, a: Eight, b: Eight) -> Eight {
        let mut sum = [0; 8];
        for i in 0..8 {
            let s = a[i] as u32 + b[i] as u32;
            sum[i] = if s < self.base { s } else { s - self.base } as u8;
        }
        sum
    }

    fn sub(&self, a: Eight, b: Eight) -> Eight {
        let mut rest = [0; 8];
        for i in 0..8 {
            let (x, y) = (a[i] as u32, b[i] as u32);
            rest[i] = if x >= y { x - y } else { x + self.base - y } as u8;
        }
        rest
    }

    fn mul(&self, a: Eight, b: Eight) -> Eight {
        let mut product = [0; 8];
        for j in 0..self.depth {
            let mut sum = 0u32;
            for i in 0..=j {
                sum += a[i] as u32 * b[j - i] as u32;
            }
            product[j] = (sum % self.base) as u8;
        }
        product
    }

    fn split(&self, a: Eight) -> (usize, Eight) {
        for v in 0..self.depth {
            if a[v] != 0 {
                let mut unit = [0; 8];
                unit[..8 - v].copy_from_slice(&a[v..]);
                return (v, unit);
            }
        }
        (self.depth, self.one())
    }

    fn inverse(&self, u: Eight) -> Eight {
        let first = inverse_of(self.base, u[0] as u32);
        let mut w = [first as u8, 0, 0, 0, 0, 0, 0, 0];
        let two = self.add(self.one(), self.one());
        let mut known = 1;
        while known < self.depth {
            w = self.mul(w, self.sub(two, self.mul(u, w)));
            known += known;
        }
        w
    }

    fn random(&self, state: &mut u64) -> Eight {
        let mut a = [0; 8];
        for place in a.iter_mut().take(self.depth) {
            *place = (next(state) % self.base as u64) as u8;
        }
        a
    }
}
