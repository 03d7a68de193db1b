//! The sorts of bakes that give a mesh.

use super::case::Case;
use oracle::{MorphTarget, NodeId, Primitive};

pub const SORTS: [&str; 13] = [
    "rigid",
    "skinned",
    "with a skin and no influences",
    "morphed",
    "with in-betweens",
    "by weights of the pose",
    "of the node",
    "of the mesh",
    "without normals",
    "without tangents",
    "of more than one primitive",
    "without vertices",
    "with turns",
];

pub fn sorts(case: &Case, node: u32) -> [bool; SORTS.len()] {
    let (Some(mesh), Some(own)) = (case.mesh(node), case.scene.node(NodeId(node))) else {
        return [false; SORTS.len()];
    };
    let has_any = |is_met: fn(&Primitive) -> bool| mesh.primitives.iter().any(is_met);
    let posed = case.pose.morph_weights[node as usize].as_deref();
    let is_own = posed.is_none() && !own.weights.is_empty();
    let weights = posed.unwrap_or(if is_own { &own.weights } else { &mesh.weights });
    let moves = |has: fn(&MorphTarget) -> bool| {
        let all = mesh.primitives.iter();
        all.flat_map(|p| p.targets.iter().zip(weights))
            .any(|(target, w)| *w != 0.0 && has(target))
    };
    let is_morphed = moves(|target| target.position.is_some());
    let skinned = own.skin.is_some();
    [
        !skinned,
        skinned && has_any(is_influenced),
        skinned && has_any(|p| !is_influenced(p)),
        is_morphed,
        moves(|target| !target.inbetweens.is_empty()),
        is_morphed && posed.is_some(),
        is_morphed && is_own,
        is_morphed && posed.is_none() && !is_own,
        has_any(|p| p.normals.is_none()),
        has_any(|p| p.tangents.is_none()),
        mesh.primitives.len() > 1,
        mesh.primitives.iter().all(|p| p.positions.is_empty()),
        case.has_turns,
    ]
}

fn is_influenced(primitive: &Primitive) -> bool {
    primitive.joints.is_some() && primitive.weights.is_some()
}
