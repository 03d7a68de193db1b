//! The speed of `transformed` and `skinned`, per vertex. The Rust copies the mesh
//! and changes the copy; the port changes what it is lent, and pays for a copy
//! of it here.

use super::meshes::{of_rust, rows};
use crate::{
    matrices::inputs::unit_quaternion,
    measure::side_by_side,
    rng::Rng,
    rooms::{Influences, Vertices},
};
use mesh3d::raw::Mat4;
use oracle::scene::trs_to_matrix;
use std::{array::from_fn, hint::black_box};

const VERTICES: usize = 65_535;
const JOINTS: usize = 64;

pub fn measure() {
    let mut rng = Rng::new(1);
    let all = Vertices {
        positions: units(&mut rng, 3),
        normals: units(&mut rng, 3),
        tangents: units(&mut rng, 4),
    };
    let some = |positions: bool, normals: bool, tangents: bool| {
        let chosen = |there: bool, floats: &Vec<f32>| {
            if there {
                floats.clone()
            } else {
                Vec::new()
            }
        };
        Vertices {
            positions: chosen(positions, &all.positions),
            normals: chosen(normals, &all.normals),
            tangents: chosen(tangents, &all.tangents),
        }
    };
    let m = motion(&mut rng);
    measure_rigid("transformed, positions", &m, &some(true, false, false));
    measure_rigid("transformed, normals", &m, &some(false, true, false));
    measure_rigid("transformed, tangents", &m, &some(false, false, true));
    measure_rigid("transformed, all attributes", &m, &all);

    let influences = influences(&mut rng);
    measure_skinned("skinned, positions", &influences, &some(true, false, false));
    measure_skinned("skinned, all attributes", &influences, &all);
}

fn units(rng: &mut Rng, width: usize) -> Vec<f32> {
    (0..VERTICES * width).map(|_| rng.signed_unit()).collect()
}

fn motion(rng: &mut Rng) -> Mat4 {
    let (translation, rotation) = (from_fn(|_| rng.signed_unit()), unit_quaternion(rng));
    trs_to_matrix(translation, rotation, from_fn(|_| 0.5 + rng.unit()))
}

/// Four that count for each vertex, of any joints.
fn influences(rng: &mut Rng) -> Influences {
    let mut all = Influences::default();
    for _ in 0..JOINTS {
        all.palette.extend(motion(rng).as_flattened());
    }
    for _ in 0..4 * VERTICES {
        all.joints.push(rng.below(JOINTS as u32));
        all.weights.push(0.125 + rng.unit() / 4.0);
    }
    all
}

fn copy(from: &Vertices, to: &mut Vertices) {
    to.positions.copy_from_slice(&from.positions);
    to.normals.copy_from_slice(&from.normals);
    to.tangents.copy_from_slice(&from.tangents);
}

fn measure_rigid(name: &str, m: &Mat4, vertices: &Vertices) {
    let mut changed = vertices.clone();
    let mesh = of_rust(vertices);
    side_by_side(
        name,
        VERTICES,
        || {
            copy(vertices, &mut changed);
            black_box(&mut changed).transform(black_box(m));
        },
        || {
            black_box(black_box(&mesh).transformed(*black_box(m)));
        },
    );
}

fn measure_skinned(name: &str, influences: &Influences, vertices: &Vertices) {
    let mut changed = vertices.clone();
    let mut mesh = of_rust(vertices);
    mesh.joints = Some(rows(&influences.joints));
    mesh.weights = Some(rows(&influences.weights));
    let palette: Vec<Mat4> = influences
        .palette
        .chunks_exact(16)
        .map(|m| rows(m).try_into().expect("a matrix"))
        .collect();
    side_by_side(
        name,
        VERTICES,
        || {
            copy(vertices, &mut changed);
            black_box(&mut changed).skin(black_box(influences));
        },
        || {
            black_box(black_box(&mesh).skinned(black_box(&palette)));
        },
    );
}
