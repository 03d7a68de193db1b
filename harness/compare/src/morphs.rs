//! Morphed vertices: `morphed_floats` on directed and on generated primitives.

pub mod case;
mod directed;
mod sorts;
pub mod speed;

use crate::{
    rng::Rng,
    tables::{
        generate::{primitive, weights, Sizes, SMALL},
        layout::Layout,
    },
    tally::{Met, Tally},
};
use case::Case;
use oracle::Primitive;
use sorts::{sorts, SORTS};

const GENERATED: usize = 100_000;

const SIZES: Sizes = Sizes {
    vertices: 6,
    targets: 4,
    in_betweens: 4,
    ..SMALL
};

pub fn compare() -> bool {
    let mut directed = Comparison::new();
    let mut rng = Rng::new(1);
    for (base, weight) in directed::all() {
        directed.count(&base, &[weight], &mut rng);
    }
    let mut generated = Comparison::new();
    for _ in 0..GENERATED {
        let base = primitive(&mut rng, &SIZES);
        let weights = weights(&mut rng, &SIZES);
        generated.count(&base, &weights, &mut rng);
    }
    let equal = [
        directed.report("morphs, directed"),
        generated.report("morphs, generated"),
    ];
    !equal.contains(&false)
}

struct Comparison {
    tally: Tally<usize>,
    met: Met<{ SORTS.len() }>,
}

impl Comparison {
    fn new() -> Self {
        Comparison {
            tally: Tally::new(),
            met: Met::new(SORTS),
        }
    }

    /// Lent compactly or spread, with some floats past the last vertex.
    fn count(&mut self, base: &Primitive, weights: &[f32], rng: &mut Rng) {
        for (sort, is_met) in sorts(base, weights).into_iter().enumerate() {
            if is_met {
                self.met.count(sort);
            }
        }
        let mut layout = match rng.below(2) {
            0 => Layout::Compact,
            _ => Layout::Spread(Rng::new(rng.bits())),
        };
        let more = [3, 3, 4].map(|width| rng.below(width) as usize);
        let case = Case::new(base, weights, &mut layout, more);
        let told = |_: &_| format!("{weights:?} of {base:?}, port {:?}", case.of_port());
        self.tally.count(case.size(), case.is_equal(), told);
    }

    fn report(&self, name: &str) -> bool {
        let equal = self.tally.report(name, "cases", &self.met.note());
        self.met.report() && equal
    }
}
