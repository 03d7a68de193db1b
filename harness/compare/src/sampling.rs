//! The sampled value of a track, and the frames of its weights.

mod frames;
pub mod list;
mod on_bytes;
pub mod speed;
mod stock;
pub mod tracks;
pub mod values;

use crate::tally::one_nan_bits;

/// Runs every comparison, even after one that differs.
pub fn compare() -> bool {
    let equal = [values::compare(), frames::compare(), stock::compare()];
    !equal.contains(&false)
}

/// Of 65,536 keys, or of 65 weights a frame, the port draws 2, which the Rust
/// does not know.
const KEY_LIMIT: usize = 65_535;
const WEIGHT_LIMIT: usize = 64;

pub fn same_bits(a: &[f32], b: &[f32]) -> bool {
    let compared = |x: &f32| one_nan_bits(*x);
    a.iter().map(compared).eq(b.iter().map(compared))
}

pub fn bits(xs: &[f32]) -> Vec<u32> {
    xs.iter().map(|x| x.to_bits()).collect()
}
