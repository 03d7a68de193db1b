//! Worlds of nodes in lent slots, and the same for the Rust.

use crate::{matrices::inputs::matrix, rng::Rng};
use mesh3d::raw::Mat4;
use oracle::{Pose, Scene3D};

/// Of a node, a code that is 0 where it has no world, and sixteen floats.
pub struct Worlds {
    pub codes: Vec<u32>,
    pub slots: Vec<f32>,
    pub of_rust: Vec<Option<Mat4>>,
}

/// Slots past the nodes, each with a world.
pub const MORE_SLOTS: usize = 3;

impl Worlds {
    /// In just so many slots, with zeros where there is no world.
    pub fn of(of_rust: Vec<Option<Mat4>>) -> Self {
        let worlds = of_rust.iter();
        Worlds {
            codes: worlds.clone().map(|w| u32::from(w.is_some())).collect(),
            slots: worlds
                .flat_map(|w| w.unwrap_or_default().concat())
                .collect(),
            of_rust,
        }
    }

    /// Those of the scene at rest, or any. A slot without a world holds anything.
    pub fn random(rng: &mut Rng, scene: &Scene3D) -> Self {
        let nodes = scene.nodes.len();
        let of_rust = match rng.below(2) {
            0 => scene.posed_node_transforms(&Pose::new(nodes)),
            _ => {
                let world = |_| (rng.below(6) != 0).then(|| matrix(rng));
                (0..nodes).map(world).collect()
            }
        };
        let more = [Some(matrix(rng)); MORE_SLOTS];
        let (mut codes, mut slots) = (Vec::new(), Vec::new());
        for world in of_rust.iter().chain(&more) {
            codes.push(match world {
                None => 0,
                Some(_) => rng.one_of(&[1, 2, 3, 4, u32::MAX]),
            });
            slots.extend(world.unwrap_or_else(|| matrix(rng)).as_flattened());
        }
        Worlds {
            codes,
            slots,
            of_rust,
        }
    }
}
