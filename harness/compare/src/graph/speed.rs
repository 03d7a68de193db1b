//! The speed of both walks on trees, per node.

use super::{answers::Answers, no_animation, poses::Posed, scenes::tree};
use crate::{
    in_bytes::Encoded,
    measure::side_by_side,
    rng::Rng,
    rooms::{Decoding, PlaceRoom},
    tables::{
        build::lend,
        layout::{Layout, Lent},
    },
};
use mesh3d::raw::{self, Placed};
use oracle::Scene3D;
use std::hint::black_box;

pub fn measure() {
    for nodes in [64, 1_024] {
        let scene = tree(&mut Rng::new(1), nodes);
        let lent = lend(&scene, &no_animation(), &mut Layout::Compact);
        measure_places(&scene, &lent);
        measure_bytes(&scene, &lent);
        measure_parents(&scene, &lent);
    }
}

fn measure_places(scene: &Scene3D, lent: &Lent) {
    let nodes = scene.nodes.len();
    let posed = Posed::plain(&mut Rng::new(2), nodes);
    let pose = posed.of_rust(nodes);
    let taken = Answers::of(scene, &pose).taken;
    let mut walk = vec![0; 2 * taken];
    let (mut places, mut worlds) = (vec![0; nodes], vec![0.0; 16 * nodes]);
    let lent = lent.of_port();
    let mut place = || {
        raw::place_floats(
            black_box(&lent),
            &posed.marks,
            &posed.slots,
            &mut walk,
            &mut places,
            &mut worlds,
        )
    };
    assert_eq!(place(), Placed { number: 0, taken });
    side_by_side(
        &format!("place_floats, nodes {nodes}"),
        nodes,
        || {
            black_box(place());
        },
        || {
            black_box(black_box(scene).posed_node_transforms(&pose));
        },
    );
}

fn measure_bytes(scene: &Scene3D, lent: &Lent) {
    let nodes = scene.nodes.len();
    let posed = Posed::plain(&mut Rng::new(2), nodes);
    let pose = posed.of_rust(nodes);
    let taken = Answers::of(scene, &pose).taken;
    let tables = lent.of_port();
    let mut decoding = Decoding::enough(&tables);
    let lent = Encoded::of(&tables, [0; 4]);
    let lent = lent.lent();
    let mut room = PlaceRoom {
        walk: vec![0; 2 * taken],
        codes: vec![0; nodes],
        matrices: vec![0.0; 16 * nodes],
        places: vec![0; 4 * nodes],
        worlds: vec![0; 64 * nodes],
    };
    let mut place = || {
        let lent = black_box(&lent);
        room.place(lent, &mut decoding, &posed.marks, &posed.slots)
    };
    assert_eq!(place(), Placed { number: 0, taken });
    side_by_side(
        &format!("place on bytes, nodes {nodes}"),
        nodes,
        || {
            black_box(place());
        },
        || {
            black_box(black_box(scene).posed_node_transforms(&pose));
        },
    );
}

fn measure_parents(scene: &Scene3D, lent: &Lent) {
    let nodes = scene.nodes.len();
    let mut out = vec![0; nodes];
    let lent = lent.of_port();
    assert_eq!(raw::parents(&lent, &mut out), 0, "the speed of a refusal");
    side_by_side(
        &format!("parents, nodes {nodes}"),
        nodes,
        || {
            black_box(raw::parents(black_box(&lent), &mut out));
        },
        || {
            black_box(black_box(scene).parents());
        },
    );
}
