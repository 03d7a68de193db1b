//! Scenes with skins: the sizes of generated ones, every small listing with every
//! short list of joints, and large ones whose joints are nodes.

use crate::{
    matrices::inputs::matrix,
    placing,
    rng::Rng,
    tables::generate::{Sizes, SMALL as SMALL_OF_ALL},
};
use oracle::{Mesh, MeshId, Node, NodeId, Scene3D, Skeleton, Skin, SkinId};
use std::iter::repeat_with;

pub const SMALL: Sizes = Sizes {
    nodes: 8,
    roots: 4,
    primitives: 1,
    vertices: 1,
    ..SMALL_OF_ALL
};

/// Every listing of one, two or three nodes, with a skin for every list of up to
/// three joints, ids one past the nodes included.
pub fn all_small() -> impl Iterator<Item = Scene3D> {
    placing::all_listings().map(|mut scene| {
        let ids = scene.nodes.len() as u32 + 1;
        for joints in lists(ids) {
            add_skin(&mut scene, joints, Vec::new());
        }
        scene
    })
}

/// All lists of up to three ids below `ids`.
fn lists(ids: u32) -> Vec<Vec<NodeId>> {
    let mut all = vec![Vec::new()];
    let mut last = all.clone();
    for _ in 0..3 {
        let longer = last.iter().flat_map(|list| {
            let more = |id| [&list[..], &[NodeId(id)]].concat();
            (0..ids).map(more).collect::<Vec<_>>()
        });
        last = longer.collect();
        all.extend(last.iter().cloned());
    }
    all
}

/// Trees of nodes of which each lies below an earlier one or is a root, with one
/// skin on node 0. The deeper the trees are to be, the nearer a node's parent.
pub fn forest(rng: &mut Rng, nodes: u32, joints: u32, near: u32) -> Scene3D {
    let mut scene = Scene3D::new();
    for id in 0..nodes {
        scene.add_node(Node {
            mesh: Some(MeshId(0)),
            skin: Some(SkinId(0)),
            ..Node::new()
        });
        if id == 0 || rng.below(4 * nodes) == 0 {
            scene.add_root(NodeId(id));
        } else {
            let parent = id - 1 - rng.below(id.min(near));
            scene.nodes[parent as usize].children.push(NodeId(id));
        }
    }
    scene.add_mesh(Mesh::default());
    let ids = repeat_with(|| NodeId(rng.below(nodes))).take(joints as usize);
    let ids = ids.collect();
    let binds = repeat_with(|| matrix(rng)).take(joints as usize).collect();
    add_skin(&mut scene, ids, binds);
    scene
}

/// A line of `depth` nodes, and below its last one so many joints.
pub fn fan(depth: u32, joints: u32) -> Scene3D {
    let mut scene = Scene3D::new();
    for id in 0..depth + joints {
        let children = match id + 1 {
            next if next < depth => vec![NodeId(next)],
            next if next == depth => (next..next + joints).map(NodeId).collect(),
            _ => Vec::new(),
        };
        scene.add_node(Node {
            children,
            skin: Some(SkinId(0)),
            ..Node::new()
        });
    }
    scene.add_root(NodeId(0));
    let ids = (depth..depth + joints).map(NodeId).collect();
    add_skin(&mut scene, ids, Vec::new());
    scene
}

fn add_skin(scene: &mut Scene3D, joints: Vec<NodeId>, binds: Vec<[[f32; 4]; 4]>) {
    let skeleton = scene.add_skeleton(Skeleton {
        name: None,
        joints,
        inverse_bind_matrices: binds,
    });
    scene.add_skin(Skin::new(skeleton));
}
