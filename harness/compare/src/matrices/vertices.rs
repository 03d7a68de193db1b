//! `normalize3`; `transform_point`; `linear_part` with `mul3`; `mat4_madd` with
//! `affine_point`; and tangents, which take `linear_part`, `mul3`, `normalize3`
//! and `linear_det` together.

use super::{
    filled,
    inputs::{matrix, number, vector},
    rust, CASES, UNTOUCHED16, UNTOUCHED3, UNTOUCHED9,
};
use crate::{
    rng::Rng,
    tally::{Met, Tally},
};
use mesh3d::raw::{matrix, Mat4, Quat, Vec3};

pub fn compare() -> bool {
    let equal = [compare_directions(), compare_rigid(), compare_skinned()];
    !equal.contains(&false)
}

fn compare_directions() -> bool {
    let mut tally = Tally::new();
    let mut met = Met::new(["of length 0", "of a length not finite", "with a direction"]);
    let mut rng = Rng::new(1);
    for _ in 0..CASES {
        let v = vector(&mut rng);
        let expected = match rust::normalize3(v) {
            Some(unit) => told(1, unit),
            None => told(0, UNTOUCHED3),
        };
        let mut unit = UNTOUCHED3;
        let case = matrix::normalize3(&v, &mut unit);
        tally.count_numbers(&[&v], &expected, &told(case, unit));

        let length = rust::vec3_len(v);
        met.count(match length {
            0.0 => 0,
            _ => 1 + usize::from(length.is_finite()),
        });
    }
    let equal = tally.report("normalize3", "cases", &met.note());
    met.report() && equal
}

/// The number that tells the case, and what stands in the array.
fn told(case: u32, [x, y, z]: Vec3) -> [f32; 4] {
    [case as f32, x, y, z]
}

fn compare_rigid() -> bool {
    let (mut points, mut turned, mut tangents) = (Tally::new(), Tally::new(), Tally::new());
    let mut met = Met::new(["w of 0", "1", "infinity", "NaN", "others"]);
    let mut rng = Rng::new(1);
    for _ in 0..CASES {
        let m = matrix(&mut rng);
        let (p, d, t) = (vector(&mut rng), vector(&mut rng), tangent(&mut rng));
        let in_m = m.as_flattened();
        let rust = rust::rigid(m, p, d, t);

        let found = filled(UNTOUCHED3, |out| matrix::transform_point(&m, &p, out));
        points.count_numbers(&[in_m, &p], &rust.point, &found);
        met.count(sort_of_w(&m, &p));

        turned.count_numbers(&[in_m, &d], &rust.turned, &turn(&m, &d));
        tangents.count_numbers(&[in_m, &t], &rust.tangent, &turn_tangent(&m, t));
    }
    let equal = [
        points.report("transform_point", "cases", &met.note()),
        met.report(),
        turned.report("linear_part, mul3", "cases", ""),
        tangents.report("tangents", "cases", ""),
    ];
    !equal.contains(&false)
}

fn sort_of_w(m: &Mat4, p: &Vec3) -> usize {
    let [a, b, c, d] = m[3];
    match a * p[0] + b * p[1] + c * p[2] + d {
        0.0 => 0,
        1.0 => 1,
        w if w.is_infinite() => 2,
        w if w.is_nan() => 3,
        _ => 4,
    }
}

fn compare_skinned() -> bool {
    let (mut points, mut tangents) = (Tally::new(), Tally::new());
    let mut rng = Rng::new(1);
    for _ in 0..CASES {
        let (a, b) = (matrix(&mut rng), matrix(&mut rng));
        let weights = [weight(&mut rng), weight(&mut rng)];
        let (p, t) = (vector(&mut rng), tangent(&mut rng));
        let (point, tangent) = rust::skinned([a, b], weights, p, t);

        let m = blend(&a, &b, weights);
        let (in_a, in_b) = (a.as_flattened(), b.as_flattened());
        let found = filled(UNTOUCHED3, |out| matrix::affine_point(&m, &p, out));
        points.count_numbers(&[in_a, in_b, &weights, &p], &point, &found);
        let found = turn_tangent(&m, t);
        tangents.count_numbers(&[in_a, in_b, &weights, &t], &tangent, &found);
    }
    let equal = [
        points.report("mat4_madd, affine_point", "cases", ""),
        tangents.report("skinned tangents", "cases", ""),
    ];
    !equal.contains(&false)
}

fn tangent(rng: &mut Rng) -> Quat {
    let [x, y, z] = vector(rng);
    [x, y, z, rng.one_of(&[1.0, -1.0, 0.0, f32::NAN])]
}

/// Finite and above 0.
fn weight(rng: &mut Rng) -> f32 {
    let any = number(rng).abs();
    if any > 0.0 && any.is_finite() {
        any
    } else {
        1.0
    }
}

fn blend(a: &Mat4, b: &Mat4, [of_a, of_b]: [f32; 2]) -> Mat4 {
    let zeros = [[0.0; 4]; 4];
    let first = filled(UNTOUCHED16, |out| matrix::mat4_madd(&zeros, of_a, a, out));
    filled(UNTOUCHED16, |out| matrix::mat4_madd(&first, of_b, b, out))
}

fn turn(m: &Mat4, v: &Vec3) -> Vec3 {
    let linear = filled(UNTOUCHED9, |out| matrix::linear_part(m, out));
    filled(UNTOUCHED3, |out| matrix::mul3(&linear, v, out))
}

/// The direction stays as it was where it has no length.
fn turn_tangent(m: &Mat4, [x, y, z, w]: Quat) -> Quat {
    let mut unit = [x, y, z];
    matrix::normalize3(&turn(m, &[x, y, z]), &mut unit);
    let [x, y, z] = unit;
    let mirrors = matrix::linear_det(m) < 0.0;
    [x, y, z, if mirrors { -w } else { w }]
}
