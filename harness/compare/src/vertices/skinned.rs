//! `skinned`.

use super::{
    meshes::{joined, of_rust, over, rest, rows, vertices, LENGTHS},
    MESHES,
};
use crate::{
    matrices::{inputs::number, nearly_affine},
    rng::Rng,
    rooms::{Influences, Vertices},
    tally::{Met, Tally},
};
use mesh3d::raw::Mat4;

const MOST_JOINTS: u32 = 4;

pub fn compare() -> bool {
    let mut tally = Tally::new();
    let mut lengths = Met::new(LENGTHS);
    let mut sorts = Met::new([
        "influences that count",
        "weights not finite",
        "not above 0",
        "joints past the palette",
        "vertices without a row",
    ]);
    let mut rng = Rng::new(1);
    for _ in 0..MESHES {
        let lent = vertices(&mut rng, &mut lengths);
        let count = lent.positions.len() / 3;
        let influences = influences(&mut rng, count);
        count_sorts(&influences, count, &mut sorts);

        let expected = rust_skinned(&lent, &influences);
        let mut found = lent.clone();
        found.skin(&influences);
        let joints: Vec<f32> = influences.joints.iter().map(|j| *j as f32).collect();
        tally.count_numbers(
            &[
                &influences.palette,
                &joints,
                &influences.weights,
                &joined(&lent),
            ],
            &joined(&expected),
            &joined(&found),
        );
    }
    let note = sorts.note() + &lengths.note();
    let equal = [
        tally.report("skinned", "meshes", &note),
        sorts.report(),
        lengths.report(),
    ];
    !equal.contains(&false)
}

pub fn rust_skinned(lent: &Vertices, influences: &Influences) -> Vertices {
    let palette: Vec<Mat4> = influences
        .palette
        .chunks_exact(16)
        .map(|m| rows(m).try_into().expect("a matrix"))
        .collect();
    let mut mesh = of_rust(lent);
    mesh.joints = Some(rows(&influences.joints));
    mesh.weights = Some(rows(&influences.weights));
    over(lent, &mesh.skinned(&palette))
}

/// Often with fewer or more rows than vertices, with joints that the palette
/// lacks, and with values past the last row.
pub fn influences(rng: &mut Rng, vertices: usize) -> Influences {
    let (joint_rows, weight_rows) = (row_count(rng, vertices), row_count(rng, vertices));
    let mut palette = Vec::new();
    for _ in 0..rng.below(MOST_JOINTS + 1) {
        palette.extend(nearly_affine(rng).as_flattened());
    }
    for _ in 0..rest(rng, 16) {
        palette.push(number(rng));
    }
    let joints = 4 * joint_rows + rest(rng, 4);
    let weights = 4 * weight_rows + rest(rng, 4);
    Influences {
        palette,
        joints: (0..joints).map(|_| joint(rng)).collect(),
        weights: (0..weights).map(|_| weight(rng)).collect(),
    }
}

fn row_count(rng: &mut Rng, vertices: usize) -> usize {
    match rng.below(8) {
        0 => rng.below(vertices as u32 + 1) as usize,
        1 => vertices + 1,
        _ => vertices,
    }
}

fn joint(rng: &mut Rng) -> u32 {
    match rng.below(16) {
        0 => rng.one_of(&[u32::MAX, 1 << 31, 1 << 28]),
        _ => rng.below(MOST_JOINTS + 1),
    }
}

fn weight(rng: &mut Rng) -> f32 {
    match rng.below(4) {
        0 => number(rng),
        1 => rng.one_of(&[0.0, 1.0, 0.25]),
        _ => rng.unit(),
    }
}

fn count_sorts(influences: &Influences, vertices: usize, sorts: &mut Met<5>) {
    let joints = influences.palette.len() / 16;
    let (all_joints, all_weights): (Vec<[u32; 4]>, Vec<[f32; 4]>) =
        (rows(&influences.joints), rows(&influences.weights));
    for v in 0..vertices {
        let (Some(js), Some(ws)) = (all_joints.get(v), all_weights.get(v)) else {
            sorts.count(4);
            continue;
        };
        for (j, w) in js.iter().zip(ws) {
            sorts.count(match () {
                _ if !w.is_finite() => 1,
                _ if *w <= 0.0 => 2,
                _ if *j as usize >= joints => 3,
                _ => 0,
            });
        }
    }
}
