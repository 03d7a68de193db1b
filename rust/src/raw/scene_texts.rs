//! Scenes as bracketed text. docs/TEXT.md of the repository has the grammar.

use super::{Header, Scene};

/// A refusal number, or 0, and what was read besides the tables; all 0 where refused.
#[derive(Clone, Copy, Debug, Default, PartialEq)]
#[repr(C)]
pub struct Reading {
    /// The refusal number, or 0.
    pub number: u32,
    /// Where each table lies in the words.
    pub header: Header,
    /// The node asked for.
    pub node: u32,
    /// The time asked for.
    pub time: f32,
}

/// A refusal number, or 0, and how many entries each slice needs that a text is read into.
#[derive(Clone, Copy, Debug, Default, PartialEq, Eq)]
#[repr(C)]
pub struct Needed {
    /// The refusal number, or 0.
    pub number: u32,
    /// Words of `words`.
    pub words: usize,
    /// Floats of `floats`.
    pub floats: usize,
    /// Floats of `node_weights`.
    pub node_weights: usize,
    /// Floats of `mesh_weights`.
    pub mesh_weights: usize,
}

/// A refusal number, or 0, and the place of a byte in a text.
#[derive(Clone, Copy, Debug, Default, PartialEq, Eq)]
#[repr(C)]
pub struct Break {
    /// 13 or 0.
    pub number: u32,
    /// Where the text breaks, 0 where it does not.
    pub at: usize,
}

/// A refusal number, or 0, and how many bytes a text has.
#[derive(Clone, Copy, Debug, Default, PartialEq, Eq)]
#[repr(C)]
pub struct TextWritten {
    /// The refusal number, or 0.
    pub number: u32,
    /// Bytes of the text, 0 where refused.
    pub length: usize,
}

mod foreign {
    use super::{Break, Header, Needed, Reading, TextWritten};

    extern "C" {
        #[link_name = "mesh3d_read_scene"]
        pub fn read_scene(
            text: *const u8,
            text_len: usize,
            words: *mut u32,
            words_len: usize,
            floats: *mut f32,
            floats_len: usize,
            node_weights: *mut f32,
            node_weights_len: usize,
            mesh_weights: *mut f32,
            mesh_weights_len: usize,
        ) -> Reading;
        #[link_name = "mesh3d_text_room"]
        pub fn text_room(text: *const u8, text_len: usize) -> Needed;
        #[link_name = "mesh3d_find_break"]
        pub fn find_break(text: *const u8, text_len: usize) -> Break;
        #[link_name = "mesh3d_write_scene"]
        pub fn write_scene(
            words: *const u32,
            words_len: usize,
            floats: *const f32,
            floats_len: usize,
            node_weights: *const f32,
            node_weights_len: usize,
            mesh_weights: *const f32,
            mesh_weights_len: usize,
            header: Header,
            node: u32,
            time: f32,
            out: *mut u8,
            out_len: usize,
        ) -> TextWritten;
        #[link_name = "mesh3d_text_length"]
        pub fn text_length(
            words: *const u32,
            words_len: usize,
            floats: *const f32,
            floats_len: usize,
            node_weights: *const f32,
            node_weights_len: usize,
            mesh_weights: *const f32,
            mesh_weights_len: usize,
            header: Header,
            node: u32,
            time: f32,
        ) -> TextWritten;
    }
}

// The functions read and write inside the slices, whatever the text, the header and the
// words say.

/// Reads a scene from a text, each table to the start of its slice. Answers 13, 1, 10 or 0.
pub fn read_scene(
    text: &[u8],
    words: &mut [u32],
    floats: &mut [f32],
    node_weights: &mut [f32],
    mesh_weights: &mut [f32],
) -> Reading {
    // SAFETY: see above.
    unsafe {
        call!(read_scene, read text, write words, write floats, write node_weights,
            write mesh_weights,)
    }
}

/// How long the slices have to be that a text is read into. Answers 13, 1 or 0.
pub fn text_room(text: &[u8]) -> Needed {
    // SAFETY: see above.
    unsafe { call!(text_room, read text,) }
}

/// Where a text breaks. Answers 13 or 0.
pub fn find_break(text: &[u8]) -> Break {
    // SAFETY: see above.
    unsafe { call!(find_break, read text,) }
}

/// Writes a scene as text, with the node and the time that are asked for, to the start of
/// `out`. Answers 1, 2, 10 or 0.
pub fn write_scene(scene: &Scene, node: u32, time: f32, out: &mut [u8]) -> TextWritten {
    // SAFETY: see above.
    unsafe { call!(write_scene, scene scene, value node, value time, write out,) }
}

/// How long that text is. Answers 1, 2 or 0.
pub fn text_length(scene: &Scene, node: u32, time: f32) -> TextWritten {
    // SAFETY: see above.
    unsafe { call!(text_length, scene scene, value node, value time,) }
}
