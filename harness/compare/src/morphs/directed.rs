//! Primitives of two vertices with one target: every sort of slot with in-betweens
//! and weights of every sort, on plain and on special deltas.

use oracle::{InBetween, MorphTarget, Primitive};

/// How many deltas a slot has, if it is there.
const SLOTS: [Option<usize>; 5] = [None, Some(0), Some(1), Some(2), Some(3)];

const IN_BETWEENS: [&[f32]; 16] = [
    &[],
    &[0.5],
    &[0.5, 0.5],
    &[0.5, 0.25, 0.5],
    &[0.25, 0.75],
    &[0.75, 0.25],
    &[-0.5],
    &[2.0],
    &[2.0, -0.5, 0.5],
    &[-0.5, -0.25],
    &[f32::NAN],
    &[f32::NAN, 0.5],
    &[0.0, -0.0],
    &[1.0, 0.5],
    &[f32::INFINITY, 1e-40],
    &[f32::MAX, f32::MIN],
];

const WEIGHTS: [f32; 16] = [
    0.0,
    -0.0,
    1.0,
    0.5,
    0.25,
    0.3,
    0.75,
    -0.5,
    -0.3,
    -2.0,
    2.0,
    3.0,
    1e-40,
    f32::NAN,
    f32::INFINITY,
    f32::NEG_INFINITY,
];

const PLAIN: [f32; 6] = [0.5, -1.25, 3.0, 1e8, -1e8, 0.1];
const SPECIAL: [f32; 6] = [
    -0.0,
    f32::INFINITY,
    f32::NAN,
    f32::MAX,
    f32::from_bits(1),
    f32::NEG_INFINITY,
];

pub fn all() -> impl Iterator<Item = (Primitive, f32)> {
    let slots = SLOTS
        .into_iter()
        .flat_map(|own| SLOTS.into_iter().map(move |between| (own, between)));
    slots.flat_map(|(own, between)| {
        IN_BETWEENS.into_iter().flat_map(move |stops| {
            [PLAIN, SPECIAL].into_iter().flat_map(move |deltas| {
                let base = primitive(own, between, stops, deltas);
                WEIGHTS.into_iter().map(move |w| (base.clone(), w))
            })
        })
    })
}

/// The normals' slots are those of the positions the other way round.
fn primitive(
    own: Option<usize>,
    between: Option<usize>,
    stops: &[f32],
    deltas: [f32; 6],
) -> Primitive {
    let mut stock = Stock { deltas, next: 0 };
    let inbetweens = stops.iter().map(|weight| InBetween {
        weight: *weight,
        position: stock.slot(between),
        normal: stock.slot(own),
    });
    let inbetweens = inbetweens.collect();
    let target = MorphTarget {
        position: stock.slot(own),
        normal: stock.slot(between),
        tangent: stock.slot(own),
        inbetweens,
    };
    Primitive {
        positions: vec![[1.0, -2.0, 0.5], [-0.0, 0.0, 1e20]],
        normals: Some(vec![[0.0, 1.0, -0.0], [0.6, 0.8, 0.0]]),
        tangents: Some(vec![[1.0, 0.0, -0.0, -1.0], [0.0, 0.5, 0.5, f32::NAN]]),
        targets: vec![target],
        ..Primitive::default()
    }
}

/// Deltas one after the other.
struct Stock {
    deltas: [f32; 6],
    next: usize,
}

impl Stock {
    fn number(&mut self) -> f32 {
        self.next += 1;
        self.deltas[self.next % self.deltas.len()] * (1 + self.next / 4) as f32
    }

    fn slot(&mut self, count: Option<usize>) -> Option<Vec<[f32; 3]>> {
        count.map(|count| (0..count).map(|_| [(); 3].map(|_| self.number())).collect())
    }
}
