//! `sqrt_block` against `f32::sqrt`, and what it says of the block's numbers.

use super::roots::{gate_patterns, EDGES};
use crate::{
    rng::Rng,
    tally::{Met, Tally, UNTOUCHED},
};
use mesh3d::raw::{sqrt_block, Block};

/// The normal numbers are below it.
const LIMIT: f32 = 1e37;
const RANDOM: usize = 1 << 19;
/// Blocks around each edge in each lane.
const FILLS: usize = 64;

pub fn compare() -> bool {
    let mut compared = Compared::new();
    compared.check_edges();
    compared.check_random();
    compared.check_gate();
    compared.report()
}

struct Compared {
    rng: Rng,
    tally: Tally<Vec<u32>>,
    met: Met<2>,
}

impl Compared {
    fn new() -> Self {
        Compared {
            rng: Rng::new(16),
            tally: Tally::new(),
            met: Met::new(["all normal", "some not"]),
        }
    }

    fn check(&mut self, block: &Block) {
        let mut found = [UNTOUCHED; 16];
        let normal = sqrt_block(block, &mut found);
        let expected = block.iter().all(is_normal);
        self.met.count(usize::from(!expected));
        let told =
            |roots: Block, normal: bool| [&roots[..], &[f32::from(u8::from(normal))]].concat();
        let rust = told(block.map(f32::sqrt), expected);
        self.tally
            .count_numbers(&[block], &rust, &told(found, normal));
    }

    /// Each edge, and each number next to an end of the normal ones, in every
    /// lane among normal numbers.
    fn check_edges(&mut self) {
        let ends = [f32::MIN_POSITIVE, LIMIT].map(f32::to_bits);
        let beside = ends.into_iter().flat_map(|end| end - 8..=end + 8);
        for bits in EDGES.into_iter().chain(beside) {
            for lane in 0..16 {
                for _ in 0..FILLS {
                    let mut block: Block = std::array::from_fn(|_| self.normal());
                    block[lane] = f32::from_bits(bits);
                    self.check(&block);
                }
            }
        }
    }

    fn check_random(&mut self) {
        for _ in 0..RANDOM {
            let block = std::array::from_fn(|_| self.normal());
            self.check(&block);
            let block = std::array::from_fn(|_| f32::from_bits(self.rng.bits() as u32));
            self.check(&block);
        }
    }

    /// The patterns that the single root is compared on: neighbours stand in
    /// one block.
    fn check_gate(&mut self) {
        let mut patterns = gate_patterns().map(f32::from_bits);
        while let Some(first) = patterns.next() {
            let block = std::array::from_fn(|lane| match lane {
                0 => first,
                _ => patterns.next().unwrap_or(first),
            });
            self.check(&block);
        }
    }

    /// Any normal number, each exponent alike.
    fn normal(&mut self) -> f32 {
        let (least, limit) = (f32::MIN_POSITIVE.to_bits(), LIMIT.to_bits());
        f32::from_bits(least + self.rng.below(limit - least))
    }

    fn report(&self) -> bool {
        let equal = self.tally.report("sqrt_block", "blocks", &self.met.note());
        self.met.report() && equal
    }
}

fn is_normal(x: &f32) -> bool {
    (f32::MIN_POSITIVE..LIMIT).contains(x)
}
