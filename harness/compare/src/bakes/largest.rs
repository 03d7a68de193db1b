//! A scene at the limits of nodes, child entries, channels and keys, with more
//! vertices than 65,536 floats hold.

use oracle::{
    Animation, AnimationChannel, AnimationProperty, AnimationSampler, AnimationTarget,
    AnimationValues, Interpolation, Mesh, MeshId, Node, NodeId, Primitive, Scene3D,
};

const NODES: u32 = 1_024;
const CHILDREN: u32 = 8;
const KEYS: u32 = 65_535;
const VERTICES: u32 = 21_846;

pub fn scene() -> (Scene3D, Animation) {
    let mut scene = Scene3D::new();
    scene.nodes = (0..NODES).map(node).collect();
    scene.roots = vec![NodeId(0)];
    scene.meshes = vec![Mesh {
        primitives: vec![Primitive {
            positions: (0..VERTICES).map(|k| [k as f32, 0.25, -1.5]).collect(),
            ..Primitive::default()
        }],
        ..Mesh::default()
    }];
    let animation = Animation {
        channels: (0..NODES).map(channel).collect(),
        ..Animation::default()
    };
    (scene, animation)
}

/// Each node is listed by the one before it, and by others later.
fn node(own: u32) -> Node {
    Node {
        children: (1..=CHILDREN).map(|k| NodeId((own + k) % NODES)).collect(),
        mesh: (own < 2).then_some(MeshId(0)),
        ..Node::new()
    }
}

/// The first has as many keys as a track can have.
fn channel(node: u32) -> AnimationChannel {
    let keys = if node == 0 { KEYS } else { 1 };
    let values = (0..keys).map(|k| [k as f32 / 8.0, 1.0, node as f32]);
    AnimationChannel {
        target: AnimationTarget {
            node: NodeId(node),
            property: AnimationProperty::Translation,
        },
        sampler: AnimationSampler {
            interpolation: Interpolation::Linear,
            keyframes: (0..keys).map(|k| k as f32).collect(),
            values: AnimationValues::Vec3(values.collect()),
        },
    }
}
