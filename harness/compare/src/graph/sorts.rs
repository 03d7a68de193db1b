//! Which sorts of graphs and poses a scene has.

use super::{answers::Answers, poses::Posed};
use oracle::{Node, NodeId, Scene3D, Transform};

pub const SORTS: [&str; 12] = [
    "no nodes",
    "loops",
    "repeated children",
    "shared children",
    "bad child ids",
    "bad root ids",
    "repeated roots",
    "roots below others",
    "unplaced nodes",
    "parents unlike places",
    "posed matrices",
    "matrices at rest",
];

pub fn sorts(scene: &Scene3D, posed: &Posed, answers: &Answers) -> [bool; SORTS.len()] {
    let children = |node: &Node| node.children.clone();
    let listed: Vec<NodeId> = scene.nodes.iter().flat_map(children).collect();
    let shared = scene.nodes.iter().flat_map(|node| {
        let mut ids = children(node);
        ids.sort();
        ids.dedup();
        ids
    });
    let is_bad = |id: &NodeId| scene.node(*id).is_none();
    let is_matrix = |node: &Node| matches!(node.transform, Transform::Matrix(_));
    let is_matrix_where = |is_posed: bool| {
        let mut nodes = scene.nodes.iter().enumerate();
        nodes.any(|(k, node)| is_matrix(node) && posed.is_any_posed(k) == is_posed)
    };
    [
        scene.nodes.is_empty(),
        has_loop(scene),
        scene.nodes.iter().any(|node| is_any_twice(&node.children)),
        is_any_twice(&shared.filter(|id| !is_bad(id)).collect::<Vec<_>>()),
        listed.iter().any(is_bad),
        scene.roots.iter().any(is_bad),
        is_any_twice(&scene.roots),
        scene
            .roots
            .iter()
            .any(|id| !is_bad(id) && listed.contains(id)),
        answers.places.contains(&0),
        answers.parents != answers.places,
        is_matrix_where(true),
        is_matrix_where(false),
    ]
}

pub fn is_any_twice(ids: &[NodeId]) -> bool {
    let mut ids: Vec<u32> = ids.iter().map(|id| id.0).collect();
    ids.sort();
    !ids.is_sorted_by(|a, b| a < b)
}

/// Nodes with no open child are closed until nothing changes; a loop stays open.
pub fn has_loop(scene: &Scene3D) -> bool {
    let mut is_open = vec![true; scene.nodes.len()];
    loop {
        let before = is_open.clone();
        for (k, node) in scene.nodes.iter().enumerate().rev() {
            let mut children = node.children.iter();
            is_open[k] = children.any(|id| is_open.get(id.0 as usize) == Some(&true));
        }
        if is_open == before {
            return is_open.contains(&true);
        }
    }
}
