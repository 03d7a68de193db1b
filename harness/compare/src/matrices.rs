//! Matrices, quaternions and transforms.

pub mod inputs;
mod inverses;
mod products;
mod rust;
pub mod speed;
mod transforms;
mod vertices;

pub use inverses::nearly_affine;

use crate::tally::UNTOUCHED;
use mesh3d::raw::{Mat3, Mat4, Quat, Vec3};

/// Runs every comparison, even after one that differs.
pub fn compare() -> bool {
    let equal = [
        products::compare(),
        transforms::compare(),
        vertices::compare(),
        inverses::compare(),
    ];
    !equal.contains(&false)
}

/// Of each comparison.
const CASES: usize = 1_000_000;

// Lent to the calls that are to fill them.
const UNTOUCHED3: Vec3 = [UNTOUCHED; 3];
const UNTOUCHED4: Quat = [UNTOUCHED; 4];
const UNTOUCHED9: Mat3 = [[UNTOUCHED; 3]; 3];
const UNTOUCHED16: Mat4 = [[UNTOUCHED; 4]; 4];

/// What a call makes of `lent`.
fn filled<T>(mut lent: T, call: impl FnOnce(&mut T)) -> T {
    call(&mut lent);
    lent
}
