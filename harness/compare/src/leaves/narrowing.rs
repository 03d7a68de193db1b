//! `narrow_all` against `as f32`.

use crate::{
    rng::Rng,
    tally::{in_batches, Tally, BATCH},
};
use mesh3d::raw;

const F32_INFINITY: u32 = 0x7f80_0000;
const F32_SUBNORMALS: u32 = 0x0080_0000;

/// Ends of f64's ranges, and NaNs whose payload lies in the bits that are kept,
/// in those that are dropped, or in both.
const F64_EDGES: [u64; 9] = [
    0x0000_0000_0000_0001,
    0x000f_ffff_ffff_ffff,
    0x0010_0000_0000_0000,
    0x7fef_ffff_ffff_ffff,
    0x7ff0_0000_0000_0000,
    0x7ff0_0000_0000_0001,
    0x7ff0_0000_2000_0000,
    0x7ff8_0000_0000_0000,
    0x7fff_ffff_ffff_ffff,
];

/// The smallest and largest f32s, the ends of the subnormals, and around 1.
const F32_EDGES: [u32; 9] = [
    0x00000000, 0x00000001, 0x00000002, 0x007fffff, 0x00800000, 0x3f7fffff, 0x3f800000, 0x7f7ffffe,
    0x7f7fffff,
];

pub fn compare() -> bool {
    let mut tally = Tally::new();
    let mut found = [0.0; BATCH];
    in_batches(gate_patterns().map(f64::from_bits), |xs| {
        raw::narrow_all(xs, &mut found);
        for (x, narrow) in xs.iter().zip(&found) {
            tally.count_answer(x.to_bits(), *x as f32, *narrow);
        }
    });
    tally.report("narrow", "patterns", "")
}

fn gate_patterns() -> impl Iterator<Item = u64> {
    edges()
        .chain(random(1).take(4_000_000))
        .chain(near_f32s(2, F32_INFINITY).take(5_000_000))
        .chain(near_f32s(3, F32_SUBNORMALS).take(2_000_000))
        .chain(at_the_ends(4).take(1_000_000))
}

pub fn edges() -> impl Iterator<Item = u64> {
    F64_EDGES
        .into_iter()
        .chain(F32_EDGES.into_iter().flat_map(near))
        .flat_map(|bits| [bits, bits ^ 1 << 63])
}

pub fn random(seed: u64) -> impl Iterator<Item = u64> {
    let mut rng = Rng::new(seed);
    std::iter::repeat_with(move || rng.bits())
}

/// `near` f32s of both signs whose bits, the sign apart, are below `limit`.
pub fn near_f32s(seed: u64, limit: u32) -> impl Iterator<Item = u64> {
    let mut rng = Rng::new(seed);
    std::iter::repeat_with(move || {
        let sign = rng.bits() & 1 << 63;
        near(rng.below(limit)).map(|bits| bits ^ sign)
    })
    .flatten()
}

/// Random values about the two ends of f32's range: from below half its least
/// value to its least normal ones, and from large to beyond overflow.
pub fn at_the_ends(seed: u64) -> impl Iterator<Item = u64> {
    const BIAS: u64 = 1023;
    let mut rng = Rng::new(seed);
    std::iter::repeat_with(move || {
        let exponent = match u64::from(rng.below(48)) {
            k @ 0..40 => BIAS - 160 + k,
            k => BIAS + 122 + (k - 40),
        };
        rng.bits() & !(0x7ff << 52) | exponent << 52
    })
}

/// For the bits of a finite f32, sign plus: the f32 itself and the exact tie
/// between it and the next one, each with the f64s one step to both sides.
fn near(bits: u32) -> [u64; 6] {
    let low = f64::from(f32::from_bits(bits));
    let next = bits + 1;
    let high = if next == F32_INFINITY {
        2f64.powi(128)
    } else {
        f64::from(f32::from_bits(next))
    };
    let tie = (low + high) / 2.0;
    [low, tie]
        .map(|x| [x.next_down(), x, x.next_up()].map(f64::to_bits))
        .concat()
        .try_into()
        .expect("twice three")
}

#[cfg(test)]
mod tests {
    use super::*;

    #[test]
    fn near_one() {
        let one = 1.0f64.to_bits();
        let tie = one + (1 << 28);
        assert_eq!(
            near(0x3f80_0000),
            [one - 1, one, one + 1, tie - 1, tie, tie + 1]
        );
    }
}
