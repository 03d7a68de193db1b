//! Skins and morph weights of a scene.

use super::{Scene, Told};

/// A refusal number, or 0, and a node.
#[derive(Clone, Copy, Debug, PartialEq, Eq)]
#[repr(C)]
pub struct Root {
    /// The refusal number, or 0.
    pub number: u32,
    /// The id of the node, 0 where refused.
    pub node: u32,
}

mod foreign {
    use super::{super::Header, Root, Told};

    extern "C" {
        #[link_name = "mesh3d_joint_matrices_floats"]
        pub fn joint_matrices_floats(
            words: *const u32,
            words_len: usize,
            floats: *const f32,
            floats_len: usize,
            node_weights: *const f32,
            node_weights_len: usize,
            mesh_weights: *const f32,
            mesh_weights_len: usize,
            header: Header,
            node: u32,
            places: *const u32,
            places_len: usize,
            worlds: *const f32,
            worlds_len: usize,
            out: *mut f32,
            out_len: usize,
        ) -> Told;
        #[link_name = "mesh3d_skin_root"]
        pub fn skin_root(
            words: *const u32,
            words_len: usize,
            floats: *const f32,
            floats_len: usize,
            node_weights: *const f32,
            node_weights_len: usize,
            mesh_weights: *const f32,
            mesh_weights_len: usize,
            header: Header,
            skin: u32,
        ) -> Root;
        #[link_name = "mesh3d_effective_weights_floats"]
        pub fn effective_weights_floats(
            words: *const u32,
            words_len: usize,
            floats: *const f32,
            floats_len: usize,
            node_weights: *const f32,
            node_weights_len: usize,
            mesh_weights: *const f32,
            mesh_weights_len: usize,
            header: Header,
            node: u32,
            out: *mut f32,
            out_len: usize,
        ) -> Told;
    }
}

// The functions read and write inside the slices, whatever the header and the words say.

/// The palette of a node at the start of `out`, from a code and sixteen floats a node.
/// Answers 1, 2, 6, 7, 9, 10 or 0.
pub fn joint_matrices(
    scene: &Scene,
    node: u32,
    places: &[u32],
    worlds: &[f32],
    out: &mut [f32],
) -> Told {
    // SAFETY: see above.
    unsafe {
        call!(joint_matrices_floats, scene scene, value node, read places, read worlds,
            write out,)
    }
}

/// The root of a skin. Answers 1, 2, 11 or 0.
pub fn skin_root(scene: &Scene, skin: u32) -> Root {
    // SAFETY: see above.
    unsafe { call!(skin_root, scene scene, value skin,) }
}

/// Copies the weights of a node's mesh to the start of `out`. Answers 1, 2, 7, 10 or 0.
pub fn effective_weights(scene: &Scene, node: u32, out: &mut [f32]) -> Told {
    // SAFETY: see above.
    unsafe { call!(effective_weights_floats, scene scene, value node, write out,) }
}
