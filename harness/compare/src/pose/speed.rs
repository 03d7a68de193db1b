//! The speed of `sample_pose`, per node: one channel a node.

use super::{FLOATS, WORDS};
use crate::{
    graph::scenes::tree,
    measure::side_by_side,
    rng::Rng,
    sampling::speed::{turns, vectors, Maker},
    tables::{build::lend, layout::Layout},
};
use mesh3d::raw;
use oracle::{
    Animation, AnimationChannel, AnimationProperty, AnimationSampler, Interpolation, NodeId,
};
use std::{hint::black_box, iter::repeat_with};

const KEYS: usize = 64;
/// Times that are sampled at in one go.
const TIMES: usize = 16;

const SORTS: [(&str, AnimationProperty, Maker); 2] = [
    ("translations", AnimationProperty::Translation, vectors),
    ("rotations", AnimationProperty::Rotation, turns),
];

pub fn measure() {
    for nodes in [64, 1_024] {
        for (name, property, values) in SORTS {
            let mut rng = Rng::new(1);
            let mut sampler = || AnimationSampler {
                keyframes: (0..KEYS).map(|k| k as f32 / 32.0).collect(),
                values: values(&mut rng, KEYS),
                interpolation: Interpolation::Linear,
            };
            let channels = (0..nodes)
                .map(|node| AnimationChannel::new(NodeId(node), property, sampler()))
                .collect();
            let animation = Animation {
                name: None,
                channels,
            };
            measure_animation(name, nodes, &animation);
        }
    }
}

fn measure_animation(name: &str, nodes: u32, animation: &Animation) {
    let scene = tree(&mut Rng::new(2), nodes);
    let lent = lend(&scene, animation, &mut Layout::Compact);
    let lent = lent.of_port();
    let nodes = nodes as usize;
    let (mut marks, mut slots) = (vec![0; WORDS * nodes], vec![0.0; FLOATS * nodes]);
    let end = (KEYS - 1) as f32 / 32.0;
    let mut rng = Rng::new(3);
    let times: Vec<f32> = repeat_with(|| end * rng.unit()).take(TIMES).collect();
    let drawn = raw::sample_pose(&lent, times[0], &mut marks, &mut slots);
    assert_eq!(drawn, 0, "the speed of a refusal");
    side_by_side(
        &format!("sample_pose, {nodes} {name}"),
        nodes * TIMES,
        || {
            for time in &times {
                black_box(raw::sample_pose(
                    black_box(&lent),
                    *time,
                    &mut marks,
                    &mut slots,
                ));
            }
        },
        || {
            for time in &times {
                black_box(black_box(animation).sample_pose(*time, nodes));
            }
        },
    );
}
