//! `linear_inverse_transpose`, `mat4_affine_inverse` and `normal_matrix`.

use super::{
    inputs::{matrix, number},
    rust, CASES,
};
use crate::{
    rng::Rng,
    tally::{Met, Tally, UNTOUCHED},
};
use mesh3d::raw::{matrix, Mat4, Quat};
use std::array::from_fn;

/// How far a number of the bottom row may be from that of the identity.
const TOLERANCE: f32 = 1e-6;
const BOTTOM: Quat = [0.0, 0.0, 0.0, 1.0];

pub fn compare() -> bool {
    let (mut transposes, mut inverses, mut normals) = (Tally::new(), Tally::new(), Tally::new());
    let mut linear = Met::new([
        "inverses",
        "of determinant 0",
        "of one not finite",
        "with an entry not finite",
    ]);
    let mut affine = Met::new([
        "inverses",
        "not affine",
        "of determinant 0",
        "with an entry not finite",
        "bottom rows just within 1e-6",
        "just beyond it",
    ]);
    let mut rng = Rng::new(1);
    for _ in 0..CASES {
        let m = nearly_affine(&mut rng);
        let input = [m.as_flattened()];

        let transpose = rust::linear_inverse_transpose(&m);
        let found = by_port(|out| matrix::linear_inverse_transpose(&m, out));
        transposes.count_numbers(&input, &by_rust(transpose), &found);
        linear.count(linear_sort(&m, transpose.is_some()));

        let inverse = rust::mat4_affine_inverse(m);
        let found = by_port(|out| matrix::mat4_affine_inverse(&m, out));
        inverses.count_numbers(&input, &by_rust(inverse), &found);
        affine.count(affine_sort(&m, inverse.is_some()));
        if let Some(edge) = edge_sort(&m) {
            affine.count(edge);
        }

        let found = by_port(|out| matrix::normal_matrix(&m, out));
        normals.count_numbers(&input, &by_rust(rust::normal_matrix(m)), &found);
    }
    let equal = [
        transposes.report("linear_inverse_transpose", "cases", &linear.note()),
        linear.report(),
        inverses.report("mat4_affine_inverse", "cases", &affine.note()),
        normals.report("normal_matrix", "cases", &affine.note()),
        affine.report(),
    ];
    !equal.contains(&false)
}

/// Of any kind, mostly with the bottom row of an affine matrix or one near it,
/// and often of another size.
pub fn nearly_affine(rng: &mut Rng) -> Mat4 {
    const SIZES: [f32; 8] = [1e-39, 1e-20, 1e-14, 1e-13, 1e-12, 1e12, 1e13, 1e38];
    let mut m = matrix(rng);
    if rng.below(4) == 0 {
        let size = rng.one_of(&SIZES);
        m = m.map(|[x, y, z, w]| [size * x, size * y, size * z, w]);
    }
    if rng.below(4) == 0 {
        m[rng.below(3) as usize][3] = number(rng);
    }
    match rng.below(8) {
        0 => {}
        1 | 2 => m[3] = bottom_row_at_tolerance(rng),
        _ => m[3] = BOTTOM,
    }
    m
}

/// Each number is that of the identity, or about 1e-6 from it.
fn bottom_row_at_tolerance(rng: &mut Rng) -> Quat {
    BOTTOM.map(|x| {
        let edge = x + rng.one_of(&[TOLERANCE, -TOLERANCE]);
        rng.one_of(&[x, x, x, edge, edge.next_up(), edge.next_down()])
    })
}

/// The number that tells the case, and what stands in the array.
fn told<const N: usize>(case: u32, out: &[[f32; N]]) -> Vec<f32> {
    [&[case as f32], out.as_flattened()].concat()
}

fn by_rust<const N: usize, const ROWS: usize>(result: Option<[[f32; N]; ROWS]>) -> Vec<f32> {
    match result {
        Some(found) => told(1, &found),
        None => told(0, &[[UNTOUCHED; N]; ROWS]),
    }
}

fn by_port<const N: usize, const ROWS: usize>(
    call: impl FnOnce(&mut [[f32; N]; ROWS]) -> u32,
) -> Vec<f32> {
    let mut out = [[UNTOUCHED; N]; ROWS];
    let case = call(&mut out);
    told(case, &out)
}

/// Why there is no inverse transpose, or 0.
fn linear_sort(m: &Mat4, is_some: bool) -> usize {
    match rust::linear_det(m) {
        _ if is_some => 0,
        0.0 => 1,
        det if !det.is_finite() => 2,
        _ => 3,
    }
}

/// Why there is no inverse, or 0. A determinant in f64 is always finite.
fn affine_sort(m: &Mat4, is_some: bool) -> usize {
    let finite = m.as_flattened().iter().all(|x| x.is_finite());
    match rust::mat3_det_of_world(*m) {
        _ if is_some => 0,
        _ if !finite || !is_affine(&m[3]) => 1,
        0.0 => 2,
        _ => 3,
    }
}

fn is_affine(bottom: &Quat) -> bool {
    let mut pairs = bottom.iter().zip(BOTTOM);
    pairs.all(|(x, affine)| (x - affine).abs() <= TOLERANCE)
}

/// Whether the bottom row is affine but not after a step outward of every
/// number, or not affine but after a step inward.
fn edge_sort(m: &Mat4) -> Option<usize> {
    let row = m[3];
    let moved = |outward: bool| -> Quat {
        from_fn(|k| {
            if (row[k] > BOTTOM[k]) == outward {
                row[k].next_up()
            } else {
                row[k].next_down()
            }
        })
    };
    if is_affine(&row) {
        (!is_affine(&moved(true))).then_some(4)
    } else {
        is_affine(&moved(false)).then_some(5)
    }
}
