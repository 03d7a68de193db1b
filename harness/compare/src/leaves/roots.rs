//! `sqrt_all` against `f32::sqrt`.

use crate::tally::{in_batches, Tally, BATCH};
use mesh3d::raw;

/// Signs, ends of the ranges, and NaNs.
pub const EDGES: [u32; 28] = [
    0x00000000, 0x80000000, 0x00000001, 0x00000002, 0x00000003, 0x80000001, 0x007fffff, 0x00800000,
    0x00800001, 0x807fffff, 0x3f7fffff, 0x3f800000, 0x3f800001, 0x40000000, 0x40800000, 0xbf800000,
    0x7f7ffffe, 0x7f7fffff, 0xff7fffff, 0x7f800000, 0xff800000, 0x7f800001, 0x7fbfffff, 0x7fc00000,
    0x7fffffff, 0xff800001, 0xffc00000, 0xffffffff,
];

pub fn compare() -> bool {
    let mut tally = Tally::new();
    check(&mut tally, gate_patterns());
    tally.report("sqrt", "patterns", "")
}

/// All 2^32 patterns.
pub fn compare_all() -> bool {
    let mut tally = Tally::new();
    for top in 0..=0xffu32 {
        check(&mut tally, (0..1 << 24).map(|low| top << 24 | low));
        if top % 16 == 15 {
            eprintln!("sqrt: {} of 256 parts", top + 1);
        }
    }
    tally.report("sqrt", "patterns", "")
}

fn check(tally: &mut Tally<u32>, patterns: impl Iterator<Item = u32>) {
    let mut found = [0.0; BATCH];
    in_batches(patterns.map(f32::from_bits), |xs| {
        raw::sqrt_all(xs, &mut found);
        for (x, root) in xs.iter().zip(&found) {
            tally.count_answer(x.to_bits(), x.sqrt(), *root);
        }
    });
}

/// A spread over all patterns, every exponent with both signs among them, and
/// the places where a root goes wrong most easily.
pub fn gate_patterns() -> impl Iterator<Item = u32> {
    let spread = (0..1u32 << 24).map(|k| k.wrapping_mul(257));
    EDGES
        .into_iter()
        .chain(spread)
        .chain(around_powers_of_two(64))
        .chain(subnormals())
        .chain(exact_squares())
        .chain(rounded_squares())
}

/// For each sign and exponent, the patterns up to `reach` steps away from the
/// first one.
pub fn around_powers_of_two(reach: u32) -> impl Iterator<Item = u32> {
    (0..=0x1ff).flat_map(move |exponent: u32| {
        let first = (exponent << 23).wrapping_sub(reach);
        (0..=2 * reach).map(move |k| first.wrapping_add(k))
    })
}

fn subnormals() -> impl Iterator<Item = u32> {
    (1..1 << 16).chain((1 << 16..1 << 23).step_by(61))
}

/// The squares that are f32 values, over the whole range, and their neighbours.
/// A power of two in the root is left to the scale.
fn exact_squares() -> impl Iterator<Item = u32> {
    let odd_roots = (1..1u32 << 12).step_by(2);
    odd_roots
        .flat_map(|m| (-74..64).flat_map(move |k| around_square(m, k)))
        .filter(|bits| *bits < 0x7f80_0000)
}

/// Squares of 24-bit values, rounded, and their neighbours; the scale goes
/// round through all exponents.
fn rounded_squares() -> impl Iterator<Item = u32> {
    let roots = (1u32 << 23..1 << 24).step_by(31);
    roots.flat_map(|m| around_square(m, (m % 138) as i32 - 97))
}

/// m * m * 4^k as an f32, with the f32s on both sides.
pub fn around_square(m: u32, k: i32) -> [u32; 3] {
    let square = f64::from(m) * f64::from(m) * 4f64.powi(k);
    let bits = (square as f32).to_bits();
    [bits - 1, bits, bits + 1]
}
