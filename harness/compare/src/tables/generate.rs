//! Scenes to compare on, with all that a table can say: loops, repeats and ids
//! that name nothing, parts that are absent or empty, channels of any kind and
//! layout for any property.

use crate::{
    matrices::inputs::{matrix, number, quaternion, vector},
    rng::Rng,
    sampling::tracks,
};
use oracle::{
    Animation, AnimationChannel, AnimationProperty, InBetween, Mesh, MeshId, MorphTarget, Node,
    NodeId, Primitive, Scene3D, Skeleton, SkeletonId, Skin, SkinId, Transform,
};
use std::{array::from_fn, iter::repeat_with};

/// The most that there are of each; children, keys and the like of one parent.
pub struct Sizes {
    pub nodes: u32,
    pub children: u32,
    pub roots: u32,
    pub channels: u32,
    pub keys: u32,
    pub meshes: u32,
    pub primitives: u32,
    pub vertices: u32,
    pub targets: u32,
    pub in_betweens: u32,
    pub skins: u32,
    pub skeletons: u32,
    pub joints: u32,
}

pub const SMALL: Sizes = Sizes {
    nodes: 5,
    children: 4,
    roots: 3,
    channels: 4,
    keys: 5,
    meshes: 3,
    primitives: 3,
    vertices: 4,
    targets: 3,
    in_betweens: 3,
    skins: 3,
    skeletons: 3,
    joints: 4,
};

pub fn scene(rng: &mut Rng, sizes: &Sizes) -> (Scene3D, Animation) {
    let counts = Counts {
        nodes: up_to(rng, sizes.nodes),
        meshes: up_to(rng, sizes.meshes),
        skins: up_to(rng, sizes.skins),
        skeletons: up_to(rng, sizes.skeletons),
    };
    let nodes = (0..counts.nodes).map(|k| node(rng, sizes, &counts, k));
    let nodes = nodes.collect();
    let root = |rng: &mut Rng| NodeId(id(rng, counts.nodes));
    let scene = Scene3D {
        nodes,
        roots: some(rng, sizes.roots, root),
        meshes: exactly(rng, counts.meshes, |rng| mesh(rng, sizes)),
        skins: exactly(rng, counts.skins, |rng| skin(rng, &counts)),
        skeletons: exactly(rng, counts.skeletons, |rng| skeleton(rng, sizes, &counts)),
        ..Scene3D::new()
    };
    let channels = some(rng, sizes.channels, |rng| channel(rng, sizes, &counts));
    let name = None;
    (scene, Animation { name, channels })
}

/// How many there are of what ids name.
struct Counts {
    nodes: u32,
    meshes: u32,
    skins: u32,
    skeletons: u32,
}

fn up_to(rng: &mut Rng, most: u32) -> u32 {
    rng.below(most + 1)
}

fn exactly<T>(rng: &mut Rng, count: u32, mut make: impl FnMut(&mut Rng) -> T) -> Vec<T> {
    repeat_with(|| make(rng)).take(count as usize).collect()
}

fn some<T>(rng: &mut Rng, most: u32, make: impl FnMut(&mut Rng) -> T) -> Vec<T> {
    let count = up_to(rng, most);
    exactly(rng, count, make)
}

/// One that names something, as a rule.
fn id(rng: &mut Rng, count: u32) -> u32 {
    match rng.below(12) {
        0 => count + rng.below(3),
        1 => rng.bits() as u32,
        _ if count == 0 => 0,
        _ => rng.below(count),
    }
}

fn maybe_id(rng: &mut Rng, count: u32) -> Option<u32> {
    (rng.below(3) != 0).then(|| id(rng, count))
}

fn node(rng: &mut Rng, sizes: &Sizes, counts: &Counts, own: u32) -> Node {
    let transform = if rng.below(3) == 0 {
        Transform::Matrix(matrix(rng))
    } else {
        Transform::Trs {
            translation: vector(rng),
            rotation: quaternion(rng),
            scale: vector(rng),
        }
    };
    let mut children = some(rng, sizes.children, |rng| child(rng, counts.nodes, own));
    if rng.below(4) == 0 {
        children.extend(children.first().copied());
        children.truncate(sizes.children as usize);
    }
    Node {
        transform,
        children,
        mesh: maybe_id(rng, counts.meshes).map(MeshId),
        skin: maybe_id(rng, counts.skins).map(SkinId),
        weights: weights(rng, sizes),
        ..Node::new()
    }
}

/// Behind its parent as a rule, so that not every list closes a loop.
fn child(rng: &mut Rng, nodes: u32, parent: u32) -> NodeId {
    let behind = nodes - parent - 1;
    if behind == 0 || rng.below(8) == 0 {
        return NodeId(id(rng, nodes));
    }
    NodeId(parent + 1 + rng.below(behind))
}

/// None, or as many as there may be targets, or about so many.
pub fn weights(rng: &mut Rng, sizes: &Sizes) -> Vec<f32> {
    match rng.below(3) {
        0 => Vec::new(),
        1 => exactly(rng, sizes.targets, weight),
        _ => some(rng, sizes.targets + 1, weight),
    }
}

/// At and between the stations that are always there, past them, or anything.
fn weight(rng: &mut Rng) -> f32 {
    match rng.below(6) {
        0 => number(rng),
        1 => rng.one_of(&[0.0, -0.0, 1.0, 0.5]),
        2 => 2.0 * rng.signed_unit(),
        _ => rng.unit(),
    }
}

fn channel(rng: &mut Rng, sizes: &Sizes, counts: &Counts) -> AnimationChannel {
    let property = rng.one_of(&[
        AnimationProperty::Translation,
        AnimationProperty::Rotation,
        AnimationProperty::Scale,
        AnimationProperty::MorphWeights,
    ]);
    let keys = up_to(rng, sizes.keys) as usize;
    let track = tracks::any(rng, keys);
    let node = NodeId(id(rng, counts.nodes));
    AnimationChannel::new(node, property, track.sampler)
}

fn mesh(rng: &mut Rng, sizes: &Sizes) -> Mesh {
    Mesh {
        primitives: some(rng, sizes.primitives, |rng| primitive(rng, sizes)),
        weights: weights(rng, sizes),
        ..Mesh::default()
    }
}

pub fn primitive(rng: &mut Rng, sizes: &Sizes) -> Primitive {
    let vertices = up_to(rng, sizes.vertices);
    Primitive {
        positions: exactly(rng, vertices, vector),
        normals: slot(rng, vertices, vector),
        tangents: slot(rng, vertices, |rng| from_fn(|_| number(rng))),
        joints: slot(rng, vertices, |rng| from_fn(|_| id(rng, sizes.joints))),
        weights: slot(rng, vertices, |rng| from_fn(|_| weight(rng))),
        indices: None,
        targets: some(rng, sizes.targets, |rng| target(rng, sizes, vertices)),
    }
}

/// Absent, empty, for each vertex, or for some more or fewer.
fn slot<T>(rng: &mut Rng, vertices: u32, make: impl FnMut(&mut Rng) -> T) -> Option<Vec<T>> {
    match rng.below(8) {
        0 | 1 => None,
        2 => Some(Vec::new()),
        3 => Some(some(rng, vertices + 2, make)),
        _ => Some(exactly(rng, vertices, make)),
    }
}

fn target(rng: &mut Rng, sizes: &Sizes, vertices: u32) -> MorphTarget {
    let mut inbetweens = some(rng, sizes.in_betweens, |rng| InBetween {
        weight: weight(rng),
        position: slot(rng, vertices, vector),
        normal: slot(rng, vertices, vector),
    });
    if let ([first, .., last], 0) = (&mut inbetweens[..], rng.below(8)) {
        last.weight = first.weight;
    }
    MorphTarget {
        position: slot(rng, vertices, vector),
        normal: slot(rng, vertices, vector),
        tangent: slot(rng, vertices, vector),
        inbetweens,
    }
}

fn skin(rng: &mut Rng, counts: &Counts) -> Skin {
    Skin {
        skeleton: SkeletonId(id(rng, counts.skeletons)),
        root_node: maybe_id(rng, counts.nodes).map(NodeId),
    }
}

/// With inverse binds for each joint, for none, or for some more or fewer.
fn skeleton(rng: &mut Rng, sizes: &Sizes, counts: &Counts) -> Skeleton {
    let joints = some(rng, sizes.joints, |rng| NodeId(id(rng, counts.nodes)));
    let inverse_bind_matrices = match rng.below(4) {
        0 => Vec::new(),
        1 => some(rng, sizes.joints + 1, matrix),
        _ => exactly(rng, joints.len() as u32, matrix),
    };
    Skeleton {
        name: None,
        joints,
        inverse_bind_matrices,
    }
}
