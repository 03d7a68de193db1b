//! The speed of calls on one matrix or transform each. Both sides pay a call
//! for each result: the port's through C, the Rust's to a function that is not
//! inlined.

use super::{inputs::unit_quaternion, rust};
use crate::{measure::side_by_side, rng::Rng};
use mesh3d::raw::{matrix, Mat4, Quat, Vec3};
use oracle::Transform;
use std::{array::from_fn, hint::black_box};

const COUNT: usize = 1024;
const ZEROS: Mat4 = [[0.0; 4]; 4];

/// A transform in every form that a side takes it in.
struct Item {
    translation: Vec3,
    rotation: Quat,
    scale: Vec3,
    transform: Transform,
    matrix: Mat4,
}

impl Item {
    fn new(rng: &mut Rng) -> Self {
        let translation = from_fn(|_| rng.signed_unit());
        let rotation = unit_quaternion(rng);
        let scale = from_fn(|_| 0.5 + rng.unit());
        let transform = Transform::Trs {
            translation,
            rotation,
            scale,
        };
        Item {
            translation,
            rotation,
            scale,
            transform,
            matrix: transform.to_matrix(),
        }
    }
}

pub fn measure() {
    let mut rng = Rng::new(1);
    let items: Vec<Item> = (0..COUNT).map(|_| Item::new(&mut rng)).collect();
    fill(
        "mat4_mul, a call each",
        &items,
        ZEROS,
        |item, out| matrix::mat4_mul(&items[0].matrix, &item.matrix, out),
        |item, out| mat4_mul(&items[0].matrix, &item.matrix, out),
    );
    fill(
        "to_matrix of parts, a call each",
        &items,
        ZEROS,
        |item, out| {
            let (t, r, s) = (&item.translation, &item.rotation, &item.scale);
            matrix::to_matrix(0, t, r, s, &ZEROS, out);
        },
        |item, out| to_matrix(&item.transform, out),
    );
    fill(
        "from_matrix, a call each",
        &items,
        ([0.0; 3], [0.0; 4], [0.0; 3]),
        |item, (t, r, s)| matrix::from_matrix(&item.matrix, t, r, s),
        |item, (t, r, s)| from_matrix(&item.matrix, t, r, s),
    );
    fill(
        "mat4_affine_inverse, a call each",
        &items,
        (0, ZEROS),
        |item, (told, out)| *told = matrix::mat4_affine_inverse(&item.matrix, out),
        |item, (told, out)| *told = mat4_affine_inverse(&item.matrix, out),
    );
}

/// Measures two ways to make a result of each item, from `start` on.
fn fill<T: Clone>(
    name: &str,
    items: &[Item],
    start: T,
    port: impl Fn(&Item, &mut T),
    rust: impl Fn(&Item, &mut T),
) {
    let (mut by_port, mut by_rust) = (vec![start.clone(); COUNT], vec![start; COUNT]);
    side_by_side(
        name,
        COUNT,
        || each(items, black_box(&mut by_port), &port),
        || each(items, black_box(&mut by_rust), &rust),
    );
}

#[inline(always)]
fn each<T>(items: &[Item], results: &mut [T], call: impl Fn(&Item, &mut T)) {
    for (item, result) in items.iter().zip(results) {
        call(item, result);
    }
}

#[inline(never)]
fn mat4_mul(a: &Mat4, b: &Mat4, out: &mut Mat4) {
    *out = rust::mat4_mul(*a, *b);
}

#[inline(never)]
fn to_matrix(transform: &Transform, out: &mut Mat4) {
    *out = transform.to_matrix();
}

#[inline(never)]
fn from_matrix(m: &Mat4, t: &mut Vec3, r: &mut Quat, s: &mut Vec3) {
    if let Transform::Trs {
        translation,
        rotation,
        scale,
    } = Transform::from_matrix(*m)
    {
        (*t, *r, *s) = (translation, rotation, scale);
    }
}

/// 1 and the inverse, or 0 with `out` as lent.
#[inline(never)]
fn mat4_affine_inverse(m: &Mat4, out: &mut Mat4) -> u32 {
    match rust::mat4_affine_inverse(*m) {
        Some(inverse) => {
            *out = inverse;
            1
        }
        None => 0,
    }
}
