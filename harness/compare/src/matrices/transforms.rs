//! `vec3_len`, `trs_to_matrix`, `to_matrix`, `rot_matrix_to_quat` and
//! `from_matrix`.

use super::{
    filled,
    inputs::{matrix, quaternion, vector},
    rust, CASES, UNTOUCHED16, UNTOUCHED3, UNTOUCHED4,
};
use crate::{
    rng::Rng,
    tally::{Met, Tally},
};
use mesh3d::raw::{matrix, Mat4, Vec3};
use oracle::Transform;

pub fn compare() -> bool {
    let equal = [
        compare_lengths(),
        compare_to_matrix(),
        compare_rotations(),
        compare_from_matrix(),
    ];
    !equal.contains(&false)
}

fn compare_lengths() -> bool {
    let mut tally = Tally::new();
    let mut rng = Rng::new(1);
    for _ in 0..CASES {
        let v = vector(&mut rng);
        tally.count_numbers(&[&v], &[rust::vec3_len(v)], &[matrix::vec3_len(&v)]);
    }
    tally.report("vec3_len", "cases", "")
}

/// `trs_to_matrix`, and `to_matrix` of the same parts or of a matrix.
fn compare_to_matrix() -> bool {
    let (mut of_parts, mut of_either) = (Tally::new(), Tally::new());
    let mut met = Met::new(["parts", "matrices"]);
    let mut rng = Rng::new(1);
    for _ in 0..CASES {
        let (t, r, s) = (vector(&mut rng), quaternion(&mut rng), vector(&mut rng));
        let found = filled(UNTOUCHED16, |out| matrix::trs_to_matrix(&t, &r, &s, out));
        let expected = rust::trs_to_matrix(t, r, s);
        of_parts.count_numbers(&[&t, &r, &s], expected.as_flattened(), found.as_flattened());

        let (m, mark) = (matrix(&mut rng), rng.one_of(&[0, 0, 1, u32::MAX]));
        let found = filled(UNTOUCHED16, |out| {
            matrix::to_matrix(mark, &t, &r, &s, &m, out)
        });
        let transform = if mark == 0 {
            Transform::Trs {
                translation: t,
                rotation: r,
                scale: s,
            }
        } else {
            Transform::Matrix(m)
        };
        let expected = transform.to_matrix();
        let input: [&[f32]; 4] = [&t, &r, &s, m.as_flattened()];
        of_either.count_numbers(&input, expected.as_flattened(), found.as_flattened());
        met.count(usize::from(mark != 0));
    }
    let equal = [
        of_parts.report("trs_to_matrix", "cases", ""),
        of_either.report("to_matrix", "cases", &met.note()),
        met.report(),
    ];
    !equal.contains(&false)
}

fn compare_rotations() -> bool {
    let mut tally = Tally::new();
    let mut met = Met::new(["by w", "by x", "by y", "by z"]);
    let mut rng = Rng::new(1);
    for _ in 0..CASES {
        let rows = rotation(&mut rng);
        let [a, b, c]: [Vec3; 3] = std::array::from_fn(|j| rows.map(|row| row[j]));
        let found = filled(UNTOUCHED4, |out| {
            matrix::rot_matrix_to_quat(&a, &b, &c, out)
        });
        tally.count_numbers(&[&a, &b, &c], &rust::rot_matrix_to_quat(rows), &found);
        met.count(branch(rows));
    }
    let equal = tally.report("rot_matrix_to_quat", "cases", &met.note());
    met.report() && equal
}

/// The linear part of a matrix of any kind.
fn rotation(rng: &mut Rng) -> [Vec3; 3] {
    let m = matrix(rng);
    std::array::from_fn(|i| [m[i][0], m[i][1], m[i][2]])
}

/// Which component `rot_matrix_to_quat` takes from the diagonal: w, x, y or z.
fn branch(m: [Vec3; 3]) -> usize {
    let [x, y, z] = [m[0][0], m[1][1], m[2][2]];
    if x + y + z > 0.0 {
        0
    } else if x > y && x > z {
        1
    } else if y > z {
        2
    } else {
        3
    }
}

fn compare_from_matrix() -> bool {
    let mut tally = Tally::new();
    let mut met = Met::new(["lengths just below EPSILON", "at it", "just above it"]);
    let mut rng = Rng::new(1);
    for _ in 0..CASES {
        let m = matrix(&mut rng);
        let (mut t, mut r, mut s) = (UNTOUCHED3, UNTOUCHED4, UNTOUCHED3);
        matrix::from_matrix(&m, &mut t, &mut r, &mut s);
        let expected = from_matrix(m);
        tally.count_numbers(&[m.as_flattened()], &expected, &[&t[..], &r, &s].concat());
        for length in &expected[7..] {
            let steps = length.to_bits().wrapping_sub(f32::EPSILON.to_bits() - 1);
            if steps < 3 {
                met.count(steps as usize);
            }
        }
    }
    let equal = tally.report("from_matrix", "cases", &met.note());
    met.report() && equal
}

/// Translation, rotation and scale in a row.
fn from_matrix(m: Mat4) -> Vec<f32> {
    match Transform::from_matrix(m) {
        Transform::Trs {
            translation,
            rotation,
            scale,
        } => [&translation[..], &rotation, &scale].concat(),
        other => panic!("a matrix was split into {other:?}"),
    }
}
