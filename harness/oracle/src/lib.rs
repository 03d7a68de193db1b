//! The original's animation, pose, graph, skin, skinning and transform
//! modules, unchanged, and of its scene module what these need; `parts` has
//! three private functions of skinning once more (see build.rs).

include!(concat!(env!("OUT_DIR"), "/modules.rs"));

pub mod mesh;
mod stubs;

// The paths by which the original's modules name one another.
pub use animation::*;
pub use mesh::{InBetween, Mesh, MorphTarget, Primitive};
pub use pose::Pose;
pub use scene::*;
pub use skin::{Skeleton, Skin};
pub use stubs::{audio, camera, light, material, serde_json, texture};
