//! The bake of one node.

use super::{Scene, Vertices};

/// A refusal number, or 0, the floats written to each output, and the entries taken.
#[derive(Clone, Copy, Debug, Default, PartialEq, Eq)]
#[repr(C)]
pub struct Baked {
    /// The refusal number, or 0.
    pub number: u32,
    /// Floats of the positions.
    pub positions: usize,
    /// Floats of the normals.
    pub normals: usize,
    /// Floats of the tangents.
    pub tangents: usize,
    /// Roots and child entries that the placing took.
    pub taken: usize,
}

/// The scratch room of a pose, a placing and a bake.
#[derive(Debug, Default)]
pub struct Scratch<'a> {
    /// Four words a node: which parts are posed.
    pub marks: &'a mut [u32],
    /// Ten floats a node: translation, rotation, scale.
    pub slots: &'a mut [f32],
    /// Two words for each root and child entry.
    pub walk: &'a mut [u32],
    /// A word a node: the code of its place.
    pub places: &'a mut [u32],
    /// Sixteen floats a node: its world, row by row.
    pub worlds: &'a mut [f32],
}

mod foreign {
    use super::{super::Header, Baked};

    extern "C" {
        #[link_name = "mesh3d_bake_floats"]
        pub fn bake_floats(
            words: *const u32,
            words_len: usize,
            floats: *const f32,
            floats_len: usize,
            node_weights: *const f32,
            node_weights_len: usize,
            mesh_weights: *const f32,
            mesh_weights_len: usize,
            header: Header,
            node: u32,
            time: f32,
            marks: *mut u32,
            marks_len: usize,
            slots: *mut f32,
            slots_len: usize,
            walk: *mut u32,
            walk_len: usize,
            places: *mut u32,
            places_len: usize,
            worlds: *mut f32,
            worlds_len: usize,
            positions: *mut f32,
            positions_len: usize,
            normals: *mut f32,
            normals_len: usize,
            tangents: *mut f32,
            tangents_len: usize,
        ) -> Baked;
    }
}

/// The mesh of a node in the world at a time. Answers 1, 2, 3, 5 to 10 or 0.
pub fn bake(
    scene: &Scene,
    node: u32,
    time: f32,
    scratch: &mut Scratch,
    out: &mut Vertices,
) -> Baked {
    // SAFETY: the function reads and writes inside the slices, whatever the header and
    // the words say.
    unsafe {
        call!(bake_floats, scene scene, value node, value time, write scratch.marks,
            write scratch.slots, write scratch.walk, write scratch.places,
            write scratch.worlds, write out.positions, write out.normals,
            write out.tangents,)
    }
}
