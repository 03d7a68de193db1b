//! A fixed list of the Rust's answers, which a program replays against the port
//! without Rust. Each line has 28 bytes, its end included:
//!
//! ```text
//! s 0000000040800000 40000000    root: an f32's bits, and its root's
//! n 3ff0000000000000 3f800000    narrowing: an f64's bits, and the f32's
//! w 3f0000003f000000 3f13cd3a    turn weight: bits of v and of c, and slerp's weight
//! ```
//!
//! NaN is written 7fc00000. The weights come from the C library's `acosf` and
//! `sinf`, so that another C library may give other last digits.

mod calls;
mod fields;
mod gltf;
pub mod published;
pub mod scenes;

use crate::{
    leaves::{narrowing, roots, turns},
    rng::Rng,
    tally::one_nan_bits,
};
use std::{
    collections::HashSet,
    hash::Hash,
    io::{self, BufWriter, Write},
};

const ROOTS: usize = 2000;
const NARROWINGS: usize = 2000;
const TURN_WEIGHTS: usize = 1000;

pub fn write(out: &mut impl Write) -> io::Result<()> {
    let mut out = BufWriter::new(out);
    for bits in first_distinct(ROOTS, root_inputs()) {
        let root = f32::from_bits(bits).sqrt();
        write_line(&mut out, 's', u64::from(bits), root)?;
    }
    for bits in first_distinct(NARROWINGS, narrowing_inputs()) {
        write_line(&mut out, 'n', bits, f64::from_bits(bits) as f32)?;
    }
    for (v, c) in first_distinct(TURN_WEIGHTS, turn_weight_inputs()) {
        let weight = rust_turn_weight(f32::from_bits(v), f32::from_bits(c));
        write_line(&mut out, 'w', u64::from(v) << 32 | u64::from(c), weight)?;
    }
    out.flush()
}

fn write_line(out: &mut impl Write, kind: char, input: u64, answer: f32) -> io::Result<()> {
    writeln!(out, "{kind} {input:016x} {:08x}", one_nan_bits(answer))
}

fn first_distinct<T: Copy + Eq + Hash>(
    count: usize,
    inputs: impl Iterator<Item = T>,
) -> impl Iterator<Item = T> {
    let mut seen = HashSet::new();
    inputs.filter(move |x| seen.insert(*x)).take(count)
}

/// The edges, powers of two and exact squares with their neighbours, and any
/// values that are not negative.
fn root_inputs() -> impl Iterator<Item = u32> {
    let mut rng = Rng::new(1);
    let squares = (1..100).flat_map(|k| roots::around_square(41 * k, 0));
    let powers = roots::around_powers_of_two(1).filter(|bits| *bits < 0x7f80_0000);
    roots::EDGES
        .into_iter()
        .chain(powers)
        .chain(squares)
        .chain(std::iter::repeat_with(move || rng.below(0x7f80_0000)))
}

fn narrowing_inputs() -> impl Iterator<Item = u64> {
    narrowing::edges()
        .chain(narrowing::near_f32s(1, 0x7f80_0000).take(600))
        .chain(narrowing::near_f32s(2, 0x0080_0000).take(600))
        .chain(narrowing::at_the_ends(3).take(400))
        .chain(narrowing::random(4))
}

/// Bits of v in [0, 1] and c in [0, 1).
fn turn_weight_inputs() -> impl Iterator<Item = (u32, u32)> {
    const STEP: f32 = 1.0 / (1 << 24) as f32; // from 1.0 to the next f32 down
    const SMALLEST: f32 = f32::from_bits(1);
    const VS: [f32; 9] = [
        0.0,
        SMALLEST,
        f32::MIN_POSITIVE,
        STEP,
        0.25,
        0.5,
        0.75,
        1.0 - STEP,
        1.0,
    ];
    const CS: [f32; 8] = [
        0.0,
        SMALLEST,
        STEP,
        0.25,
        0.5,
        0.75,
        1.0 - 2.0 * STEP,
        1.0 - STEP,
    ];
    let mut rng = Rng::new(1);
    let edges = VS.into_iter().flat_map(|v| CS.map(|c| (v, c)));
    let spread = std::iter::repeat_with(move || {
        let near_one = 1.0 - STEP * (1 + rng.below(1 << 12)) as f32;
        let any = rng.unit();
        (rng.unit(), rng.one_of(&[any, any, any, near_one]))
    });
    edges.chain(spread).map(|(v, c)| (v.to_bits(), c.to_bits()))
}

/// The first component of a slerp from (0, 0, 0, 1) to (1, 0, 0, c): their dot
/// product is c, and that component the weight of the second alone.
fn rust_turn_weight(v: f32, c: f32) -> f32 {
    turns::slerp([0.0, 0.0, 0.0, 1.0], [1.0, 0.0, 0.0, c], v)[0]
}
