//! The speed of eight targets with normals and tangents, per vertex.

use super::case::{lend_primitive, targets_of, vertices_of};
use crate::{measure::side_by_side, rng::Rng, tables::layout::Layout};
use oracle::{InBetween, MorphTarget, Primitive};
use std::{array::from_fn, hint::black_box, iter::repeat_with};

const TARGETS: usize = 8;

pub fn measure() {
    for vertices in [1_024, 65_535] {
        for in_betweens in [0, 2] {
            measure_targets(vertices, in_betweens);
        }
    }
}

/// Both sides start from a copy of the base.
fn measure_targets(vertices: usize, in_betweens: usize) {
    let mut rng = Rng::new(1);
    let base = primitive(&mut rng, vertices, in_betweens);
    let weights: Vec<f32> = repeat_with(|| rng.unit()).take(TARGETS).collect();
    let lent = lend_primitive(&base, &mut Layout::Compact);
    let targets = targets_of(&lent.of_port());
    let lent = lent.of_port();
    let rest = vertices_of(&base, [0; 3]);
    let mut out = rest.clone();
    side_by_side(
        &format!("morphed, vertices {vertices}, between {in_betweens}"),
        vertices,
        || {
            out.positions.copy_from_slice(&rest.positions);
            out.normals.copy_from_slice(&rest.normals);
            out.tangents.copy_from_slice(&rest.tangents);
            black_box(&mut out).morph(black_box(&lent), targets, &weights);
        },
        || {
            black_box(black_box(&base).morphed(&weights));
        },
    );
}

fn rows<const N: usize>(rng: &mut Rng, count: usize) -> Vec<[f32; N]> {
    repeat_with(|| from_fn(|_| rng.signed_unit()))
        .take(count)
        .collect()
}

fn primitive(rng: &mut Rng, vertices: usize, in_betweens: usize) -> Primitive {
    let target = |rng: &mut Rng| MorphTarget {
        position: Some(rows(rng, vertices)),
        normal: Some(rows(rng, vertices)),
        tangent: Some(rows(rng, vertices)),
        inbetweens: (0..in_betweens)
            .map(|k| InBetween {
                weight: (k + 1) as f32 / (in_betweens + 1) as f32,
                position: Some(rows(rng, vertices)),
                normal: Some(rows(rng, vertices)),
            })
            .collect(),
    };
    Primitive {
        positions: rows(rng, vertices),
        normals: Some(rows(rng, vertices)),
        tangents: Some(rows(rng, vertices)),
        targets: repeat_with(|| target(rng)).take(TARGETS).collect(),
        ..Primitive::default()
    }
}
