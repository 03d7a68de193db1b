//! The C functions of include/, each safe to call: over slices, with any numbers.
//!
//! Places, counts, ids and tags may be anything: a function reads and writes inside
//! the slices that it is given, and answers a refusal number where something is wrong.
//! So a call is safe with slices that are valid for their lengths, and with no two that
//! overlap where one is written; the borrows see to both. docs/TABLES.md of the
//! repository says how a scene and a track lie in their slices.

#![allow(unsafe_code)]

/// Calls a C function. Of the arguments, `read` and `write` come before a slice, which
/// becomes a pointer and a length, `scene` before a scene, which becomes four slices
/// and a header, `track` before a track's places, and `value` before anything else.
macro_rules! call {
    ($name:ident, $($rest:tt)*) => { call!(@ $name [] $($rest)*) };
    (@ $name:ident [$($done:expr,)*]) => { foreign::$name($($done),*) };
    (@ $name:ident [$($done:expr,)*] value $v:expr, $($rest:tt)*) => {
        call!(@ $name [$($done,)* $v,] $($rest)*)
    };
    (@ $name:ident [$($done:expr,)*] read $s:expr, $($rest:tt)*) => {
        call!(@ $name [$($done,)* $s.as_ptr(), $s.len(),] $($rest)*)
    };
    (@ $name:ident [$($done:expr,)*] write $s:expr, $($rest:tt)*) => {
        call!(@ $name [$($done,)* $s.as_mut_ptr(), $s.len(),] $($rest)*)
    };
    (@ $name:ident [$($done:expr,)*] scene $s:expr, $($rest:tt)*) => {
        call!(@ $name [$($done,)*] read $s.words, read $s.floats, read $s.node_weights,
            read $s.mesh_weights, value $s.header, $($rest)*)
    };
    (@ $name:ident [$($done:expr,)*] track $t:expr, $($rest:tt)*) => {
        call!(@ $name [$($done,)*] value $t.kind, value $t.interpolation, value $t.keys_at,
            value $t.keys_count, value $t.values_at, value $t.values_count, $($rest)*)
    };
}

mod bakes;
mod bytes;
mod leaves;
mod morphs;
mod scene_texts;
mod scenes;
mod skins;
mod texts;
mod tracks;
mod vertices;

pub mod matrix;

pub use bakes::*;
pub use bytes::*;
pub use leaves::*;
pub use morphs::*;
pub use scene_texts::*;
pub use scenes::*;
pub use skins::*;
pub use texts::*;
pub use tracks::*;
pub use vertices::*;

/// Sixteen floats row by row, the translation in the fourth column.
pub type Mat4 = [[f32; 4]; 4];
/// Nine floats row by row.
pub type Mat3 = [[f32; 3]; 3];
/// x, y, z.
pub type Vec3 = [f32; 3];
/// x, y, z, w.
pub type Quat = [f32; 4];

/// A refusal number, or 0, and how many floats were written.
#[derive(Clone, Copy, Debug, PartialEq)]
#[repr(C)]
pub struct Told {
    /// The refusal number, or 0.
    pub number: u32,
    /// Floats written, 0 where refused.
    pub count: usize,
}
