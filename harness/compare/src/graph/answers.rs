//! What the Rust says of a scene in a pose, as the port is to leave it.

use oracle::{NodeId, Pose, Scene3D};

pub struct Answers {
    /// Codes of nodes: 0 for none, 1 for a root, p + 3 under node p.
    pub parents: Vec<u32>,
    pub places: Vec<u32>,
    /// Sixteen floats a node, zeros where it is not placed.
    pub worlds: Vec<f32>,
    pub taken: usize,
    /// Roots and all child entries.
    pub entries: usize,
}

impl Answers {
    pub fn of(scene: &Scene3D, pose: &Pose) -> Self {
        let worlds = scene.posed_node_transforms(pose);
        let places = places(scene);
        let placed = places.iter().map(|place| *place != 0);
        let is_placed_alike = worlds.iter().map(Option::is_some).eq(placed);
        assert!(is_placed_alike, "the plain walk places as the Rust does");
        let listed = |is_counted: fn(u32) -> bool| -> usize {
            let nodes = scene.nodes.iter().zip(&places);
            let counted = nodes.filter(|(_, place)| is_counted(**place));
            counted.map(|(node, _)| node.children.len()).sum()
        };
        let roots = scene.roots.len();
        Answers {
            parents: parents(scene),
            worlds: worlds
                .iter()
                .flat_map(|world| world.unwrap_or_default().concat())
                .collect(),
            taken: if places.is_empty() {
                0
            } else {
                roots + listed(|place| place != 0)
            },
            entries: roots + listed(|_| true),
            places,
        }
    }
}

/// The Rust tells roots and nodes that it does not reach alike.
fn parents(scene: &Scene3D) -> Vec<u32> {
    let code = |(id, parent): (u32, &Option<NodeId>)| match parent {
        Some(parent) => parent.0 + 3,
        None => u32::from(scene.roots.contains(&NodeId(id))),
    };
    (0..).zip(&scene.parents()).map(code).collect()
}

/// Under what each node is placed, which the Rust does not tell: depth first,
/// the first arrival places.
pub fn places(scene: &Scene3D) -> Vec<u32> {
    let mut codes = vec![0; scene.nodes.len()];
    for root in &scene.roots {
        place(scene, *root, 1, &mut codes);
    }
    codes
}

fn place(scene: &Scene3D, id: NodeId, code: u32, codes: &mut [u32]) {
    let own = id.0 as usize;
    if codes.get(own) != Some(&0) {
        return;
    }
    codes[own] = code;
    for child in &scene.nodes[own].children {
        place(scene, *child, id.0 + 3, codes);
    }
}
