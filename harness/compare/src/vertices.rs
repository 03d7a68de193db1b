//! `Primitive::transformed` and `Primitive::skinned`, on meshes whose attributes
//! are absent, shorter or longer than the positions.

pub mod meshes;
mod rigid;
pub mod skinned;
pub mod speed;

/// Of each comparison.
const MESHES: usize = 200_000;

/// Runs every comparison, even after one that differs.
pub fn compare() -> bool {
    let equal = [rigid::compare(), skinned::compare()];
    !equal.contains(&false)
}
