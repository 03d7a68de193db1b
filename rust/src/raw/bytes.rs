//! The placing and the bake of a scene in bytes: little-endian words and floats.

use super::{Baked, Header, Placed, Scratch, Vertices};

/// A scene in bytes; the places and counts of the header are in words and floats.
#[derive(Clone, Copy, Debug)]
pub struct ByteScene<'a> {
    /// Records and lists of ids.
    pub words: &'a [u8],
    /// All floats but weights.
    pub floats: &'a [u8],
    /// The morph weights of nodes.
    pub node_weights: &'a [u8],
    /// The morph weights of meshes.
    pub mesh_weights: &'a [u8],
    /// Where each table lies in the words.
    pub header: Header,
}

/// What a scene in bytes is decoded into.
#[derive(Debug)]
pub struct DecodingRoom<'a> {
    /// A word for each word.
    pub words: &'a mut [u32],
    /// A float for each float of the three slices.
    pub floats: &'a mut [f32],
}

/// What a placing writes to, in numbers and in bytes.
#[derive(Debug)]
pub struct PlacingRoom<'a> {
    /// Two words for each root and child entry.
    pub walk: &'a mut [u32],
    /// A word a node: the code of its place.
    pub codes: &'a mut [u32],
    /// Sixteen floats a node: its world.
    pub matrices: &'a mut [f32],
    /// The codes in bytes.
    pub places: &'a mut [u8],
    /// The worlds in bytes.
    pub worlds: &'a mut [u8],
}

/// The outputs of a bake in bytes.
#[derive(Debug)]
pub struct ByteVertices<'a> {
    /// Three floats a position.
    pub positions: &'a mut [u8],
    /// Three floats a normal.
    pub normals: &'a mut [u8],
    /// Four floats a tangent.
    pub tangents: &'a mut [u8],
}

mod foreign {
    use super::{Baked, Header, Placed};

    extern "C" {
        #[link_name = "mesh3d_place"]
        pub fn place(
            words: *const u8,
            words_len: usize,
            floats: *const u8,
            floats_len: usize,
            node_weights: *const u8,
            node_weights_len: usize,
            mesh_weights: *const u8,
            mesh_weights_len: usize,
            header: Header,
            word_room: *mut u32,
            word_room_len: usize,
            float_room: *mut f32,
            float_room_len: usize,
            marks: *const u32,
            marks_len: usize,
            slots: *const f32,
            slots_len: usize,
            walk: *mut u32,
            walk_len: usize,
            codes: *mut u32,
            codes_len: usize,
            matrices: *mut f32,
            matrices_len: usize,
            places: *mut u8,
            places_len: usize,
            worlds: *mut u8,
            worlds_len: usize,
        ) -> Placed;
        #[link_name = "mesh3d_bake"]
        pub fn bake(
            words: *const u8,
            words_len: usize,
            floats: *const u8,
            floats_len: usize,
            node_weights: *const u8,
            node_weights_len: usize,
            mesh_weights: *const u8,
            mesh_weights_len: usize,
            header: Header,
            node: u32,
            time: u32,
            word_room: *mut u32,
            word_room_len: usize,
            float_room: *mut f32,
            float_room_len: usize,
            marks: *mut u32,
            marks_len: usize,
            slots: *mut f32,
            slots_len: usize,
            walk: *mut u32,
            walk_len: usize,
            places: *mut u32,
            places_len: usize,
            worlds: *mut f32,
            worlds_len: usize,
            position_floats: *mut f32,
            position_floats_len: usize,
            normal_floats: *mut f32,
            normal_floats_len: usize,
            tangent_floats: *mut f32,
            tangent_floats_len: usize,
            positions: *mut u8,
            positions_len: usize,
            normals: *mut u8,
            normals_len: usize,
            tangents: *mut u8,
            tangents_len: usize,
        ) -> Baked;
    }
}

/// As `place_floats`. Answers 1, 2, 6 or 0.
pub fn place(
    scene: &ByteScene,
    decoding: &mut DecodingRoom,
    marks: &[u32],
    slots: &[f32],
    room: &mut PlacingRoom,
) -> Placed {
    // SAFETY: the function reads and writes inside the slices, whatever the header and
    // the bytes say.
    unsafe {
        call!(place, scene scene, write decoding.words, write decoding.floats, read marks,
            read slots, write room.walk, write room.codes, write room.matrices,
            write room.places, write room.worlds,)
    }
}

/// As `bake`, at the time with the given bit pattern; the mesh is written in numbers and
/// in bytes.
pub fn bake_bytes(
    scene: &ByteScene,
    (node, time): (u32, u32),
    decoding: &mut DecodingRoom,
    scratch: &mut Scratch,
    out: &mut Vertices,
    bytes: &mut ByteVertices,
) -> Baked {
    // SAFETY: as for `place`.
    unsafe {
        call!(bake, scene scene, value node, value time, write decoding.words,
            write decoding.floats, write scratch.marks, write scratch.slots,
            write scratch.walk, write scratch.places, write scratch.worlds,
            write out.positions, write out.normals, write out.tangents,
            write bytes.positions, write bytes.normals, write bytes.tangents,)
    }
}
