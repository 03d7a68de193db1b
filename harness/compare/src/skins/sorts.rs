//! Which sorts of listings there are, and of palettes, roots and weights that a
//! scene is asked for.

use super::case::Case;
use crate::graph::sorts::{has_loop, is_any_twice};
use mesh3d::raw::Mat4;
use oracle::{NodeId, Scene3D, SkinId};
use std::collections::BTreeSet;

pub const LISTINGS: [&str; 3] = ["loops", "repeated children", "shared children"];

pub fn listing(scene: &Scene3D) -> [bool; LISTINGS.len()] {
    let mut lists = scene.nodes.iter().map(|node| &node.children);
    let distinct = lists
        .clone()
        .flat_map(|ids| ids.iter().collect::<BTreeSet<_>>());
    let distinct: Vec<NodeId> = distinct.copied().collect();
    [
        has_loop(scene),
        lists.any(|ids| is_any_twice(ids)),
        is_any_twice(&distinct),
    ]
}

pub const PALETTES: [&str; 14] = [
    "written",
    "with NaN",
    "bad node ids",
    "no skin",
    "bad skin ids",
    "bad skeleton ids",
    "no joints",
    "repeated joints",
    "joints past the nodes, in a slot",
    "joints past the slots",
    "joints without a world",
    "no inverse binds",
    "too few inverse binds",
    "more inverse binds than joints",
];

pub fn palette(case: &Case, node: u32) -> [bool; PALETTES.len()] {
    let scene = case.scene;
    let rust = case.rust_palette(node);
    let node = scene.node(NodeId(node));
    let skin_id = node.and_then(|node| node.skin);
    let skin = skin_id.and_then(|id| scene.skins.get(id.0 as usize));
    let skeleton = skin.and_then(|skin| scene.skeletons.get(skin.skeleton.0 as usize));
    let (nodes, slots) = (case.nodes(), case.worlds.codes.len());
    let joints = skeleton.map_or(&[][..], |skeleton| &skeleton.joints);
    let is_any_in = |from: usize, to: usize| {
        let mut ids = joints.iter().map(|joint| joint.0 as usize);
        ids.any(|id| (from..to).contains(&id))
    };
    let is_unplaced = |joint: &NodeId| case.worlds.of_rust.get(joint.0 as usize) == Some(&None);
    let binds = skeleton.map_or(0, |skeleton| skeleton.inverse_bind_matrices.len());
    let is_nan = |palette: &Vec<Mat4>| {
        let floats = palette.as_flattened().as_flattened();
        floats.iter().any(|x| x.is_nan())
    };
    [
        rust.is_some(),
        rust.as_ref().is_some_and(is_nan),
        node.is_none(),
        node.is_some() && skin_id.is_none(),
        skin_id.is_some() && skin.is_none(),
        skin.is_some() && skeleton.is_none(),
        skeleton.is_some() && joints.is_empty(),
        is_any_twice(joints),
        is_any_in(nodes, slots),
        is_any_in(slots, usize::MAX),
        joints.iter().any(is_unplaced),
        !joints.is_empty() && binds == 0,
        binds != 0 && binds < joints.len(),
        skeleton.is_some() && binds > joints.len(),
    ]
}

pub const ROOTS: [&str; 11] = [
    "bad skin ids",
    "named",
    "named, past the nodes",
    "named, bad skeleton ids",
    "bad skeleton ids",
    "no joints",
    "bad joints",
    "repeated joints",
    "a joint as root",
    "a node above all joints as root",
    "nothing above all joints",
];

pub fn root(case: &Case, skin: u32) -> [bool; ROOTS.len()] {
    let scene = case.scene;
    let rust = scene.skin_root(SkinId(skin));
    let skin = scene.skins.get(skin as usize);
    let named = skin.and_then(|skin| skin.root_node);
    let skeleton = skin.and_then(|skin| scene.skeletons.get(skin.skeleton.0 as usize));
    let is_open = skin.is_some() && named.is_none();
    let joints = match skeleton {
        Some(skeleton) if is_open => &skeleton.joints[..],
        _ => &[],
    };
    let is_bad = |id: &NodeId| scene.node(*id).is_none();
    let is_any_bad = joints.iter().any(is_bad);
    [
        skin.is_none(),
        named.is_some() && rust.is_some(),
        named.is_some_and(|id| is_bad(&id)),
        named.is_some() && skeleton.is_none(),
        is_open && skeleton.is_none(),
        is_open && skeleton.is_some() && joints.is_empty(),
        is_any_bad,
        is_any_twice(joints),
        rust.is_some_and(|root| joints.contains(&root)),
        is_open && rust.is_some_and(|root| !joints.contains(&root)),
        !joints.is_empty() && !is_any_bad && rust.is_none(),
    ]
}

pub const WEIGHTS: [&str; 11] = [
    "bad node ids",
    "no mesh",
    "bad mesh ids",
    "the node's",
    "the mesh's, the node's absent",
    "the mesh's, the node's empty",
    "none of either",
    "output one short",
    "empty output",
    "output just long enough",
    "refused with an empty output",
];

/// The words of a node's record, and which of them marks its weights.
const NODE_WORDS: usize = 16;
const WEIGHTS_MARK: usize = 8;

pub fn weights(case: &Case, id: u32, room: usize) -> [bool; WEIGHTS.len()] {
    let scene = case.scene;
    let rust = case.rust_weights(id);
    let node = scene.node(NodeId(id));
    let mesh_id = node.and_then(|node| node.mesh);
    let is_own = node.is_some_and(|node| !node.weights.is_empty());
    let is_marked = || {
        let record = case.lent.header.graph.nodes.at + NODE_WORDS * id as usize;
        case.lent.words[record + WEIGHTS_MARK] == 1
    };
    let is_of_mesh = rust.is_some() && !is_own;
    let len = rust.map(<[f32]>::len);
    [
        node.is_none(),
        node.is_some() && mesh_id.is_none(),
        mesh_id.is_some() && rust.is_none(),
        rust.is_some() && is_own,
        is_of_mesh && !is_marked(),
        is_of_mesh && is_marked(),
        len == Some(0),
        len == Some(room + 1),
        len > Some(0) && room == 0,
        len > Some(0) && len == Some(room),
        rust.is_none() && room == 0,
    ]
}
