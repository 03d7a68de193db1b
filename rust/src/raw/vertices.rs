//! Vertices in flat slices, moved in place.

use super::Mat4;

/// Vertices in flat slices; an attribute that is absent has length 0.
#[derive(Debug, Default)]
pub struct Vertices<'a> {
    /// Three floats a position.
    pub positions: &'a mut [f32],
    /// Three floats a normal.
    pub normals: &'a mut [f32],
    /// Four floats a tangent: the direction and the handedness.
    pub tangents: &'a mut [f32],
}

mod foreign {
    extern "C" {
        #[link_name = "mesh3d_transformed_floats"]
        pub fn transformed_floats(
            m: *const super::Mat4,
            positions: *mut f32,
            positions_len: usize,
            normals: *mut f32,
            normals_len: usize,
            tangents: *mut f32,
            tangents_len: usize,
        );
        #[link_name = "mesh3d_skinned_floats"]
        pub fn skinned_floats(
            palette: *const f32,
            palette_len: usize,
            joints: *const u32,
            joints_len: usize,
            weights: *const f32,
            weights_len: usize,
            positions: *mut f32,
            positions_len: usize,
            normals: *mut f32,
            normals_len: usize,
            tangents: *mut f32,
            tangents_len: usize,
        );
    }
}

/// Moves all vertices by a matrix.
pub fn transformed(m: &Mat4, out: &mut Vertices) {
    // SAFETY: the function reads the matrix, and writes inside the slices.
    unsafe {
        call!(transformed_floats, value m, write out.positions, write out.normals,
            write out.tangents,)
    }
}

/// Moves each vertex by its joints: sixteen floats a joint of the palette, four joints and
/// four weights a vertex. An influence counts if its weight is finite and above 0 and its
/// joint is in the palette; a vertex with none stays.
pub fn skinned(palette: &[f32], joints: &[u32], weights: &[f32], out: &mut Vertices) {
    // SAFETY: the function reads and writes inside the slices, whatever the joints say.
    unsafe {
        call!(skinned_floats, read palette, read joints, read weights, write out.positions,
            write out.normals, write out.tangents,)
    }
}
