//! Numbers, vectors, quaternions and matrices to compare on.

use crate::rng::Rng;
use mesh3d::raw::{Mat4, Quat, Vec3};
use oracle::scene::trs_to_matrix;
use std::array::from_fn;

const SMALLEST: f32 = f32::from_bits(1);
const LARGEST_SUBNORMAL: f32 = f32::from_bits(0x007f_ffff);

const SPECIAL: [f32; 18] = [
    0.0,
    -0.0,
    1.0,
    -1.0,
    SMALLEST,
    -SMALLEST,
    LARGEST_SUBNORMAL,
    f32::MIN_POSITIVE,
    f32::EPSILON,
    1e-20,
    -1e20,
    1e20,
    f32::MAX,
    f32::MIN,
    f32::INFINITY,
    f32::NEG_INFINITY,
    f32::NAN,
    -f32::NAN,
];

/// A number of the unit range, a special one, or any bit pattern.
pub fn number(rng: &mut Rng) -> f32 {
    match rng.below(4) {
        0 => rng.one_of(&SPECIAL),
        1 => any_bits(rng),
        _ => rng.signed_unit(),
    }
}

fn any_bits(rng: &mut Rng) -> f32 {
    f32::from_bits(rng.bits() as u32)
}

/// 2^k for some k over the whole range.
fn power_of_two(rng: &mut Rng) -> f32 {
    2f64.powi(rng.below(277) as i32 - 149) as f32
}

fn units<const N: usize>(rng: &mut Rng) -> [f32; N] {
    from_fn(|_| rng.signed_unit())
}

/// `v` brought to a length; NaN where it is 0.
fn resized<const N: usize>(v: [f32; N], length: f32) -> [f32; N] {
    let square: f64 = v.iter().map(|x| f64::from(*x) * f64::from(*x)).sum();
    let factor = f64::from(length) / square.sqrt();
    v.map(|x| (f64::from(x) * factor) as f32)
}

pub fn vector(rng: &mut Rng) -> Vec3 {
    match rng.below(5) {
        0 => from_fn(|_| number(rng)),
        1 => from_fn(|_| any_bits(rng)),
        2 => {
            let size = power_of_two(rng);
            units(rng).map(|x: f32| size * x)
        }
        3 => near_epsilon(rng),
        _ => units(rng),
    }
}

/// Of a length some steps from EPSILON, or at it.
fn near_epsilon(rng: &mut Rng) -> Vec3 {
    let length = f32::from_bits(f32::EPSILON.to_bits() - 3 + rng.below(7));
    if rng.below(2) == 0 {
        return resized(units(rng), length);
    }
    let mut v = [0.0, -0.0, 0.0];
    v[rng.below(3) as usize] = rng.one_of(&[length, -length]);
    v
}

pub fn quaternion(rng: &mut Rng) -> Quat {
    match rng.below(4) {
        0 => from_fn(|_| number(rng)),
        1 => units(rng),
        2 => half_turn(rng),
        _ => unit_quaternion(rng),
    }
}

pub fn unit_quaternion(rng: &mut Rng) -> Quat {
    resized(units(rng), 1.0)
}

/// A turn by 180 degrees, or nearly so: about an axis, a diagonal, or anything.
fn half_turn(rng: &mut Rng) -> Quat {
    let axis: Vec3 = match rng.below(4) {
        0 => units(rng),
        1 => from_fn(|_| rng.one_of(&[-1.0, 0.0, 1.0])),
        _ => {
            let along = rng.below(3) as usize;
            from_fn(|c| if c == along { 1.0 } else { 0.0 })
        }
    };
    let [x, y, z] = axis;
    let w = rng.one_of(&[0.0, 1e-8, -1e-4, 1e-2]);
    resized([x, y, z, w], 1.0)
}

/// The kinds of matrices.
const KINDS: [fn(&mut Rng) -> Mat4; 10] = [
    |rng| from_fn(|_| units(rng)),
    |rng| each(|| any_bits(rng)),
    |rng| each(|| number(rng)),
    |rng| each(|| rng.one_of(&[-1.0, -0.0, 0.0, 1.0])),
    one_special,
    |rng| trs_to_matrix(units(rng), quaternion(rng), units(rng)),
    |rng| trs_to_matrix(vector(rng), half_turn(rng), [1.0; 3]),
    mirrored,
    nearly_singular,
    |rng| {
        with_columns(
            [near_epsilon(rng), near_epsilon(rng), vector(rng)],
            units(rng),
        )
    },
];

/// Of any kind, with any bottom row or its own.
pub fn matrix(rng: &mut Rng) -> Mat4 {
    let kind = rng.one_of(&KINDS);
    let mut m = kind(rng);
    if rng.below(2) == 0 {
        m[3] = bottom_row(rng);
    }
    m
}

fn each(mut number: impl FnMut() -> f32) -> Mat4 {
    from_fn(|_| from_fn(|_| number()))
}

fn one_special(rng: &mut Rng) -> Mat4 {
    let mut m = from_fn(|_| units(rng));
    m[rng.below(4) as usize][rng.below(4) as usize] = rng.one_of(&SPECIAL);
    m
}

/// A rotation with columns that are turned round or 0.
fn mirrored(rng: &mut Rng) -> Mat4 {
    let scale = from_fn(|_| rng.one_of(&[-1.0, -0.5, -0.0, 0.0, 1.0, 3.0]));
    trs_to_matrix(units(rng), unit_quaternion(rng), scale)
}

/// The third column is a sum of multiples of the others, or a step away from
/// it in one number.
fn nearly_singular(rng: &mut Rng) -> Mat4 {
    let (a, b): (Vec3, Vec3) = (units(rng), units(rng));
    let (s, t) = (rng.signed_unit(), rng.signed_unit());
    let mut c: Vec3 = from_fn(|k| s * a[k] + t * b[k]);
    let changed = &mut c[rng.below(3) as usize];
    *changed = rng.one_of(&[*changed, changed.next_up(), *changed + 1e-6]);
    with_columns([a, b, c], units(rng))
}

fn with_columns([a, b, c]: [Vec3; 3], translation: Vec3) -> Mat4 {
    let row = |k: usize| [a[k], b[k], c[k], translation[k]];
    [row(0), row(1), row(2), [0.0, 0.0, 0.0, 1.0]]
}

/// For all sorts of w.
fn bottom_row(rng: &mut Rng) -> [f32; 4] {
    match rng.below(4) {
        0 => units(rng),
        1 => from_fn(|_| number(rng)),
        2 => from_fn(|_| rng.one_of(&[0.0, -0.0, 1e-6, -1e-6])),
        _ => [0.0, 0.0, 0.0, number(rng)],
    }
}
