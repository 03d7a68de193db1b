//! What is met in a case.

use oracle::{InBetween, MorphTarget, Primitive};

pub const SORTS: [&str; 8] = [
    "plain targets",
    "stations",
    "weight 0",
    "weight NaN",
    "equal in-betweens",
    "a slot absent",
    "a slot too short",
    "a slot too long",
];

pub fn sorts(base: &Primitive, weights: &[f32]) -> [bool; SORTS.len()] {
    let pairs: Vec<(&MorphTarget, f32)> =
        base.targets.iter().zip(weights.iter().copied()).collect();
    let any = |test: &dyn Fn(&MorphTarget, f32) -> bool| pairs.iter().any(|(t, w)| test(t, *w));
    let vertices = base.positions.len();
    let slots =
        |test: &dyn Fn(Option<usize>) -> bool| any(&|t, _| test(t.position.as_ref().map(Vec::len)));
    [
        any(&|t, w| w != 0.0 && !t.inbetweens.iter().any(is_valid)),
        any(&|t, w| w != 0.0 && t.inbetweens.iter().any(is_valid)),
        any(&|_, w| w == 0.0),
        any(&|_, w| w.is_nan()),
        any(&|t, w| w != 0.0 && has_equal(&t.inbetweens)),
        slots(&|count| count.is_none()),
        slots(&|count| count.is_some_and(|count| count < vertices)),
        slots(&|count| count.is_some_and(|count| count > vertices)),
    ]
}

fn is_valid(b: &InBetween) -> bool {
    b.weight.is_finite() && b.weight != 0.0 && b.weight != 1.0
}

fn has_equal(all: &[InBetween]) -> bool {
    let valid = || all.iter().enumerate().filter(|(_, b)| is_valid(b));
    valid().any(|(i, b)| valid().any(|(j, c)| i < j && b.weight == c.weight))
}
