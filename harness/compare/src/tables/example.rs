//! The small scene of docs/TABLES.md.

use super::{decode::decode, layout::Lent, numbers::number, same::Same};
use mesh3d::raw::{self, Graph, Header, Meshes, Part};
use oracle::{
    Animation, AnimationChannel, AnimationProperty, AnimationSampler, AnimationValues,
    Interpolation, Mesh, MeshId, Node, NodeId, Primitive, Scene3D, Transform,
};

pub fn compare() -> bool {
    let lent = lent();
    let is_read = decode(&lent).is_same(&scene());
    let drawn = [number(&lent.of_port()), raw::tables_number(&lent.of_port())];
    println!("small scene: read {is_read}, drawn {drawn:?}");
    is_read && drawn == [0; 2]
}

pub fn lent() -> Lent {
    let node = |words: [u32; 6]| [&words[..], &[0; 10]].concat();
    let words = [
        node([0, 0, 44, 1, 0, 0]),
        node([1, 10, 0, 0, 1, 0]),
        vec![0, 0, 0, 1, 26, 2, 28, 2],
        vec![0, 1, 0, 0],
        vec![1],
        vec![0],
        [&[34, 3][..], &[0; 14]].concat(),
    ];
    let floats = [
        &[0.0, 0.0, 0.0, 0.0, 0.0, 0.0, 1.0, 1.0, 1.0, 1.0][..],
        MATRIX.as_flattened(),
        &[0.0, 1.0],
        &[0.0, 0.0, 0.0, 4.0, 0.0, 0.0],
        &[0.0, 0.0, 0.0, 1.0, 0.0, 0.0, 0.0, 1.0, 0.0],
    ];
    let part = |at, count| Part { at, count };
    Lent {
        words: words.concat(),
        floats: floats.concat(),
        node_weights: Vec::new(),
        mesh_weights: Vec::new(),
        header: Header {
            graph: Graph {
                nodes: part(0, 2),
                roots: part(45, 1),
            },
            channels: part(32, 1),
            meshes: Meshes {
                meshes: part(40, 1),
                primitives: part(46, 1),
                ..Meshes::default()
            },
            ..Header::default()
        },
    }
}

const MATRIX: [[f32; 4]; 4] = [
    [1.0, 0.0, 0.0, 2.0],
    [0.0, 1.0, 0.0, 0.0],
    [0.0, 0.0, 1.0, 0.0],
    [0.0, 0.0, 0.0, 1.0],
];

fn scene() -> (Scene3D, Animation) {
    let root = Node {
        children: vec![NodeId(1)],
        ..Node::new()
    };
    let child = Node {
        transform: Transform::Matrix(MATRIX),
        mesh: Some(MeshId(0)),
        ..Node::new()
    };
    let triangle = Primitive {
        positions: vec![[0.0; 3], [1.0, 0.0, 0.0], [0.0, 1.0, 0.0]],
        ..Primitive::default()
    };
    let scene = Scene3D {
        nodes: vec![root, child],
        roots: vec![NodeId(0)],
        meshes: vec![Mesh {
            primitives: vec![triangle],
            ..Mesh::default()
        }],
        ..Scene3D::new()
    };
    let sampler = AnimationSampler {
        keyframes: vec![0.0, 1.0],
        values: AnimationValues::Vec3(vec![[0.0; 3], [4.0, 0.0, 0.0]]),
        interpolation: Interpolation::Linear,
    };
    let channel = AnimationChannel::new(NodeId(0), AnimationProperty::Translation, sampler);
    let animation = Animation {
        name: None,
        channels: vec![channel],
    };
    (scene, animation)
}
