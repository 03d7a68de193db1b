//! The sizes of generated scenes, one scene at the limits, and trees.

use crate::{
    matrices::inputs::unit_quaternion,
    rng::Rng,
    tables::generate::{Sizes, SMALL as SMALL_OF_ALL},
};
use oracle::{Node, NodeId, Scene3D, Transform};
use std::array::from_fn;

pub const SMALL: Sizes = Sizes {
    nodes: 8,
    children: 4,
    roots: 4,
    meshes: 1,
    primitives: 1,
    skins: 1,
    skeletons: 1,
    ..SMALL_OF_ALL
};

pub const LARGE: Sizes = Sizes {
    nodes: 900,
    children: 8,
    roots: 60,
    ..SMALL
};

/// 1,024 nodes and roots, and 8,192 child entries.
pub fn at_limits(rng: &mut Rng) -> Scene3D {
    let mut scene = Scene3D::new();
    for _ in 0..1_024 {
        let children = from_fn::<_, 8, _>(|_| NodeId(rng.below(1_024)));
        scene.add_node(node(rng, children.to_vec()));
    }
    for _ in 0..1_024 {
        scene.add_root(NodeId(rng.below(1_024)));
    }
    scene
}

/// A root with two children below each node.
pub fn tree(rng: &mut Rng, nodes: u32) -> Scene3D {
    let mut scene = Scene3D::new();
    for i in 0..nodes {
        let children = [2 * i + 1, 2 * i + 2].into_iter();
        let children = children.filter(|id| *id < nodes).map(NodeId);
        scene.add_node(node(rng, children.collect()));
    }
    scene.add_root(NodeId(0));
    scene
}

fn node(rng: &mut Rng, children: Vec<NodeId>) -> Node {
    Node {
        transform: Transform::Trs {
            translation: from_fn(|_| rng.signed_unit()),
            rotation: unit_quaternion(rng),
            scale: [1.0; 3],
        },
        children,
        ..Node::new()
    }
}
