// The kinds' arithmetic, proved and plain, side by side in one run: time of each, and their ratio. Built and run by bench/run.
#![allow(improper_ctypes)]

mod plain;

use plain::{Bits, Eight, Plain, Residue, Truncated};
use std::hint::black_box;
use std::time::Instant;

#[rustfmt::skip]
unsafe extern "C" {
    // a slice is a pointer and a length
    fn residue_add(base: u32, depth: usize, a: *const u32, a_len: usize, b: *mut u32, b_len: usize);
    fn residue_mul(base: u32, depth: usize, a: *const u32, a_len: usize, b: *mut u32, b_len: usize);
    fn residue_split(base: u32, depth: usize, a: *const u32, a_len: usize, b: *mut u32, b_len: usize) -> usize;
    fn residue_dot(base: u32, depth: usize, a: *const u32, a_len: usize, b: *mut u32, b_len: usize, times: usize);
    fn bits_add(base: u32, depth: usize, a: *const u32, a_len: usize, b: *mut u32, b_len: usize);
    fn bits_mul(base: u32, depth: usize, a: *const u32, a_len: usize, b: *mut u32, b_len: usize);
    fn bits_split(base: u32, depth: usize, a: *const u32, a_len: usize, b: *mut u32, b_len: usize) -> usize;
    fn bits_dot(base: u32, depth: usize, a: *const u32, a_len: usize, b: *mut u32, b_len: usize, times: usize);
    fn truncated_add(base: u32, depth: usize, a: *const Eight, a_len: usize, b: *mut Eight, b_len: usize);
    fn truncated_mul(base: u32, depth: usize, a: *const Eight, a_len: usize, b: *mut Eight, b_len: usize);
    fn truncated_split(base: u32, depth: usize, a: *const Eight, a_len: usize, b: *mut Eight, b_len: usize) -> usize;
    fn truncated_dot(base: u32, depth: usize, a: *const Eight, a_len: usize, b: *mut Eight, b_len: usize, times: usize);
}

#[inline(never)]
fn add_all<P: Plain>(kind: P, a: &[P::Elem], b: &mut [P::Elem]) {
    for (x, y) in a.iter().zip(b) {
        *y = kind.add(*x, *y);
    }
}

#[inline(never)]
fn mul_all<P: Plain>(kind: P, a: &[P::Elem], b: &mut [P::Elem]) {
    for (x, y) in a.iter().zip(b) {
        *y = kind.mul(*x, *y);
    }
}

#[inline(never)]
fn split_all<P: Plain>(kind: P, a: &[P::Elem], b: &mut [P::Elem]) -> usize {
    let mut total = 0usize;
    for (x, y) in a.iter().zip(b) {
        let (v, u) = kind.split(*x);
        total = total.wrapping_add(v);
        *y = u;
    }
    total
}

#[inline(never)]
fn dots<P: Plain>(kind: P, a: &[P::Elem], b: &mut [P::Elem], times: usize) {
    for i in 0..times {
        let mut sum = kind.zero();
        for (x, y) in a.iter().zip(b.iter()) {
            sum = kind.add(sum, kind.mul(*x, *y));
        }
        let at = i % b.len();
        b[at] = sum;
    }
}

const MANY: usize = 4096;
const TURNS: usize = 15;
const DOTS: usize = 64;

// The shortest of several runs, proved and plain in turn, in nanoseconds for one operation on so many elements.
fn race(name: &str, operations: usize, elements: usize, mut proved: impl FnMut(), mut plain: impl FnMut()) {
    let repeat = (1_000_000 / (operations * elements)).max(1);
    let (mut ours, mut theirs) = (f64::MAX, f64::MAX);
    for _ in 0..TURNS {
        let start = Instant::now();
        for _ in 0..repeat {
            proved();
        }
        ours = ours.min(start.elapsed().as_nanos() as f64);
        let start = Instant::now();
        for _ in 0..repeat {
            plain();
        }
        theirs = theirs.min(start.elapsed().as_nanos() as f64);
    }
    let each = (repeat * operations) as f64;
    println!("{name:<24} proved {:8.2} ns   plain {:8.2} ns   ratio {:5.2}", ours / each, theirs / each, ours / theirs);
}

type Slices<E, R> = unsafe extern "C" fn(u32, usize, *const E, usize, *mut E, usize) -> R;
type Dots<E> = unsafe extern "C" fn(u32, usize, *const E, usize, *mut E, usize, usize);

fn kind<P: Plain>(name: &str, p: P, base: u32, depth: usize, add: Slices<P::Elem, ()>, mul: Slices<P::Elem, ()>, split: Slices<P::Elem, usize>, dot: Dots<P::Elem>) {
    let mut state = 7;
    let a: Vec<P::Elem> = (0..MANY).map(|_| p.random(&mut state)).collect();
    let fresh: Vec<P::Elem> = (0..MANY).map(|_| p.random(&mut state)).collect();
    let (mut b, mut c) = (fresh.clone(), fresh.clone());
    let call = |f: Slices<P::Elem, ()>, b: &mut Vec<P::Elem>| unsafe { f(base, depth, a.as_ptr(), MANY, b.as_mut_ptr(), MANY) };
    race(&format!("{name} add"), MANY, 1, || call(add, &mut b), || add_all(p, black_box(&a), &mut c));
    assert_eq!(b, c);
    race(&format!("{name} mul"), MANY, 1, || call(mul, &mut b), || mul_all(p, black_box(&a), &mut c));
    assert_eq!(b, c);
    let (mut ours, mut plain) = (0, 0);
    race(&format!("{name} split"), MANY, 1, || unsafe { ours = split(base, depth, a.as_ptr(), MANY, b.as_mut_ptr(), MANY) }, || plain = split_all(p, black_box(&a), &mut c));
    assert_eq!(ours, plain);
    let (mut b, mut c) = (fresh[..128].to_vec(), fresh[..128].to_vec());
    race(&format!("{name} dot of 128"), DOTS, 128, || unsafe { dot(base, depth, a.as_ptr(), 128, b.as_mut_ptr(), 128, DOTS) }, || dots(p, black_box(&a[..128]), &mut c, DOTS));
    assert_eq!(b, c);
}

fn main() {
    for (base, depth) in [(2u32, 31u32), (2, 1), (3, 19), (251, 3), (251, 1)] {
        kind(&format!("Z {base} {depth}"), Residue::new(base, depth as usize), base, depth as usize, residue_add, residue_mul, residue_split, residue_dot);
    }
    for (base, depth) in [(2, 1), (3, 8), (251, 8)] {
        kind(&format!("T {base} {depth}"), Truncated::new(base, depth), base, depth, truncated_add, truncated_mul, truncated_split, truncated_dot);
    }
    for depth in [1, 8, 31] {
        kind(&format!("B 2 {depth}"), Bits::new(depth), 2, depth, bits_add, bits_mul, bits_split, bits_dot);
    }
}
