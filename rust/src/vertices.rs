//! Vertices moved in place.

use crate::{
    raw,
    raw::{Mat4, Part, Scene, Vertices},
};

impl Vertices<'_> {
    /// By a matrix: positions with the perspective division, normals by the inverse
    /// transpose, tangents by the linear part; the handedness flips where the determinant is
    /// negative.
    pub fn transform(&mut self, matrix: &Mat4) {
        raw::transformed(matrix, self);
    }

    /// By the joints of a palette, sixteen floats each, with four joints and four weights a
    /// vertex. A vertex stays where no influence of it counts: none whose weight is finite
    /// and above 0, and whose joint is in the palette.
    pub fn skin(&mut self, palette: &[f32], joints: &[u32], weights: &[f32]) {
        raw::skinned(palette, joints, weights, self);
    }

    /// By morph targets of a scene, a part of their table, at these weights, up to the
    /// shorter. What lies outside its slice reads as zeros or is cut off.
    pub fn morph(&mut self, scene: &Scene, targets: Part, weights: &[f32]) {
        raw::morphed(scene, targets, weights, self);
    }
}
