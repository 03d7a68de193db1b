//! The speed of a bake: per vertex where there are many, per node where there
//! are many nodes and few vertices. The Rust makes all that it fills; the port
//! fills what it is lent.

use super::case::{room, Case};
use crate::{
    graph::{no_animation, scenes::tree},
    in_bytes::Encoded,
    measure::side_by_side,
    pose::Moved,
    rng::Rng,
    rooms::{ByteOutputs, Decoding},
    sampling::speed::vectors,
    tables::{build::lend, layout::Layout},
};
use oracle::{
    Animation, AnimationChannel, AnimationProperty, AnimationSampler, Interpolation, Mesh,
    MorphTarget, NodeId, Primitive, Scene3D, Skeleton, Skin, SkinId,
};
use std::{array::from_fn, hint::black_box, iter::repeat_with};

/// How time grows with the vertices of a mesh, and with the nodes of a scene.
const VERTICES: [usize; 3] = [1_024, 16_384, 65_535];
const NODES: [u32; 3] = [64, 256, 1_024];
const JOINTS: u32 = 64;
const TARGETS: usize = 8;
const KEYS: usize = 64;

pub fn measure() {
    let mut rng = Rng::new(1);
    let still = no_animation();
    for vertices in VERTICES {
        let rigid = with_mesh(&mut rng, 1, vertices);
        let name = |sort: &str| format!("bake, {sort}, vertices {vertices}");
        measure_scene(&name("rigid"), vertices, &rigid, &still);
        measure_bytes(&name("rigid, on bytes"), vertices, &rigid);
        let mut skinned = with_mesh(&mut rng, JOINTS, vertices);
        add_skin(&mut skinned, &mut rng);
        measure_scene(&name("skinned"), vertices, &skinned, &still);
        let mut morphed = rigid;
        add_targets(&mut morphed, &mut rng);
        measure_scene(&name("morphed"), vertices, &morphed, &still);
    }
    for nodes in NODES {
        let scene = with_mesh(&mut rng, nodes, 8);
        let moved = translations(&mut rng, nodes);
        let name = |sort: &str| format!("bake, {sort}, nodes {nodes}");
        measure_scene(&name("still"), nodes as usize, &scene, &still);
        measure_scene(&name("a channel each"), nodes as usize, &scene, &moved);
    }
}

/// A Linear channel for each node.
fn translations(rng: &mut Rng, nodes: u32) -> Animation {
    let mut sampler = || AnimationSampler {
        keyframes: (0..KEYS).map(|k| k as f32 / 32.0).collect(),
        values: vectors(rng, KEYS),
        interpolation: Interpolation::Linear,
    };
    let channel =
        |node| AnimationChannel::new(NodeId(node), AnimationProperty::Translation, sampler());
    Animation {
        name: None,
        channels: (0..nodes).map(channel).collect(),
    }
}

/// A tree whose root has a mesh of one primitive.
fn with_mesh(rng: &mut Rng, nodes: u32, vertices: usize) -> Scene3D {
    let mut scene = tree(rng, nodes);
    let primitive = Primitive {
        positions: rows(rng, vertices),
        normals: Some(rows(rng, vertices)),
        tangents: Some(rows(rng, vertices)),
        ..Primitive::default()
    };
    let mesh = scene.add_mesh(Mesh {
        primitives: vec![primitive],
        ..Mesh::default()
    });
    scene.nodes[0].mesh = Some(mesh);
    scene
}

/// Numbers of the unit range.
fn rows<const N: usize>(rng: &mut Rng, count: usize) -> Vec<[f32; N]> {
    repeat_with(|| from_fn(|_| rng.signed_unit()))
        .take(count)
        .collect()
}

/// Four influences that count for each vertex.
fn add_skin(scene: &mut Scene3D, rng: &mut Rng) {
    let primitive = &mut scene.meshes[0].primitives[0];
    let vertices = primitive.positions.len();
    let joints = repeat_with(|| from_fn(|_| rng.below(JOINTS)));
    primitive.joints = Some(joints.take(vertices).collect());
    primitive.weights = Some(vec![[0.25; 4]; vertices]);
    let skeleton = scene.add_skeleton(Skeleton {
        name: None,
        joints: (0..JOINTS).map(NodeId).collect(),
        inverse_bind_matrices: Vec::new(),
    });
    scene.add_skin(Skin::new(skeleton));
    scene.nodes[0].skin = Some(SkinId(0));
}

/// Each with positions, normals and tangents.
fn add_targets(scene: &mut Scene3D, rng: &mut Rng) {
    let primitive = &mut scene.meshes[0].primitives[0];
    let vertices = primitive.positions.len();
    let target = || MorphTarget {
        position: Some(rows(rng, vertices)),
        normal: Some(rows(rng, vertices)),
        tangent: Some(rows(rng, vertices)),
        inbetweens: Vec::new(),
    };
    primitive.targets = repeat_with(target).take(TARGETS).collect();
    scene.meshes[0].weights = vec![0.75; TARGETS];
}

fn measure_scene(name: &str, results: usize, scene: &Scene3D, animation: &Animation) {
    let lent = lend(scene, animation, &mut Layout::Compact);
    let moved = Moved::new(scene, animation.clone(), &mut Rng::new(1));
    let case = Case::new(scene, &moved, lent.of_port(), 1.0);
    let mut room = room(case.lens(0));
    let mut bake = || black_box(&mut room).bake(black_box(&case.lent), 0, 1.0);
    assert_eq!(bake().number, 0, "the speed of a refusal");
    side_by_side(
        name,
        results,
        || {
            black_box(bake());
        },
        || {
            black_box(black_box(&case).rust_mesh(0));
        },
    );
}

fn measure_bytes(name: &str, results: usize, scene: &Scene3D) {
    let animation = no_animation();
    let lent = lend(scene, &animation, &mut Layout::Compact);
    let moved = Moved::new(scene, animation, &mut Rng::new(1));
    let case = Case::new(scene, &moved, lent.of_port(), 1.0);
    let encoded = Encoded::of(&case.lent, [0; 4]);
    let mut decoding = Decoding::enough(&case.lent);
    let mut room = room(case.lens(0));
    let [positions, normals, tangents] =
        [&room.positions, &room.normals, &room.tangents].map(|floats| vec![0; 4 * floats.len()]);
    let mut outputs = ByteOutputs {
        positions,
        normals,
        tangents,
    };
    let asked = (0, 1.0f32.to_bits());
    let tables = encoded.lent();
    let mut bake = || {
        let tables = black_box(&tables);
        room.bake_bytes(tables, asked, &mut decoding, &mut outputs)
    };
    assert_eq!(bake().number, 0, "the speed of a refusal");
    side_by_side(
        name,
        results,
        || {
            black_box(bake());
        },
        || {
            black_box(black_box(&case).rust_mesh(0));
        },
    );
}
