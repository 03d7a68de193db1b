//! Morph targets, added to vertices in place.

use super::{Part, Scene, Vertices};

mod foreign {
    use super::super::Header;

    extern "C" {
        #[link_name = "mesh3d_morphed_floats"]
        pub fn morphed_floats(
            words: *const u32,
            words_len: usize,
            floats: *const f32,
            floats_len: usize,
            header: Header,
            targets_at: usize,
            targets_count: usize,
            weights: *const f32,
            weights_len: usize,
            positions: *mut f32,
            positions_len: usize,
            normals: *mut f32,
            normals_len: usize,
            tangents: *mut f32,
            tangents_len: usize,
        );
    }
}

/// Adds the targets of a part of their table at these weights, up to the shorter. What
/// lies outside its slice reads as zeros or is cut off.
pub fn morphed(scene: &Scene, targets: Part, weights: &[f32], out: &mut Vertices) {
    // SAFETY: the function reads and writes inside the slices, whatever the header and
    // the words say.
    unsafe {
        call!(morphed_floats, read scene.words, read scene.floats, value scene.header,
            value targets.at, value targets.count, read weights, write out.positions,
            write out.normals, write out.tangents,)
    }
}
