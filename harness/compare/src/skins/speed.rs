//! The speed of a palette and of a skin's root, per joint.

use super::{
    scenes::{fan, forest},
    worlds::Worlds,
};
use crate::{
    graph::no_animation,
    measure::side_by_side,
    rng::Rng,
    tables::{build::lend, layout::Layout},
};
use mesh3d::raw::{self, Mat4, Root, Told};
use oracle::{NodeId, SkinId};
use std::{array::from_fn, hint::black_box, iter::repeat_with};

pub fn measure() {
    measure_palette(64);
    measure_root(64, 256);
}

fn measure_palette(joints: usize) {
    let mut rng = Rng::new(1);
    let mut scene = forest(&mut rng, joints as u32, joints as u32, 4);
    scene.skeletons[0].inverse_bind_matrices = matrices(&mut rng, joints).collect();
    let worlds = Worlds::of(matrices(&mut rng, joints).map(Some).collect());
    let lent = lend(&scene, &no_animation(), &mut Layout::Compact);
    let lent = lent.of_port();
    let mut out = vec![0.0; 16 * joints];
    let mut palette = || {
        raw::joint_matrices(
            black_box(&lent),
            0,
            &worlds.codes,
            &worlds.slots,
            black_box(&mut out),
        )
    };
    let told = Told {
        number: 0,
        count: 16 * joints,
    };
    assert_eq!(palette(), told, "the speed of a refusal");
    side_by_side(
        &format!("joint_matrices, joints {joints}"),
        joints,
        || {
            black_box(palette());
        },
        || {
            black_box(black_box(&scene).joint_matrices_with(NodeId(0), &worlds.of_rust));
        },
    );
}

/// Numbers of the unit range.
fn matrices(rng: &mut Rng, count: usize) -> impl Iterator<Item = Mat4> + '_ {
    repeat_with(|| from_fn(|_| from_fn(|_| rng.signed_unit()))).take(count)
}

fn measure_root(depth: u32, joints: u32) {
    let scene = fan(depth, joints);
    let lent = lend(&scene, &no_animation(), &mut Layout::Compact);
    let lent = lent.of_port();
    let root = Root {
        number: 0,
        node: depth - 1,
    };
    assert_eq!(raw::skin_root(&lent, 0), root, "the speed of a refusal");
    side_by_side(
        &format!("skin_root, joints {joints}, depth {depth}"),
        joints as usize,
        || {
            black_box(raw::skin_root(black_box(&lent), 0));
        },
        || {
            black_box(black_box(&scene).skin_root(SkinId(0)));
        },
    );
}
