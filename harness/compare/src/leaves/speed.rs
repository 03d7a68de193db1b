//! The leaves' speed, each beside the loop that the Rust would run.

use crate::{measure::side_by_side, rng::Rng};
use mesh3d::raw;
use std::hint::black_box;

const COUNT: usize = 4096;

pub fn measure() {
    let mut rng = Rng::new(1);
    let normals: Vec<f32> = (0..COUNT).map(|_| 1000.0 * rng.unit() + 1.0).collect();
    let subnormals: Vec<f32> = (0..COUNT)
        .map(|_| f32::from_bits(1 + rng.below(0x7f_ffff)))
        .collect();
    measure_roots("root, Rust in lanes", &normals, roots);
    measure_roots("root, Rust one by one", &normals, roots_one_by_one);
    measure_roots("subnormal root, Rust in lanes", &subnormals, roots);
    measure_roots(
        "subnormal root, Rust one by one",
        &subnormals,
        roots_one_by_one,
    );
    let ones: Vec<f32> = (0..COUNT)
        .map(|_| f32::from_bits(1f32.to_bits() - 8 + rng.below(17)))
        .collect();
    measure_blocks("roots of blocks, Rust in lanes", &normals);
    measure_blocks("roots of blocks near 1", &ones);
    measure_narrowings(&mut rng);
    measure_turn_weights(&mut rng);
}

/// Measures two ways to fill a slice with `COUNT` results.
fn fill(name: &str, port: impl Fn(&mut [f32]), rust: impl Fn(&mut [f32])) {
    let (mut by_port, mut by_rust) = ([0.0; COUNT], [0.0; COUNT]);
    side_by_side(
        name,
        COUNT,
        || port(black_box(&mut by_port)),
        || rust(black_box(&mut by_rust)),
    );
}

fn measure_roots(name: &str, xs: &[f32], rust: fn(&[f32], &mut [f32])) {
    let port = |out: &mut [f32]| {
        raw::sqrt_all(xs, out);
    };
    fill(name, port, |out| rust(xs, out));
}

fn measure_blocks(name: &str, xs: &[f32]) {
    let (xs, _) = xs.as_chunks();
    let port = |out: &mut [f32]| {
        for (xs, out) in xs.iter().zip(out.as_chunks_mut().0) {
            raw::sqrt_block(xs, out);
        }
    };
    fill(name, port, |out| roots(xs.as_flattened(), out));
}

fn measure_narrowings(rng: &mut Rng) {
    let xs: Vec<f64> = (0..COUNT)
        .map(|_| f64::from(rng.signed_unit()) + f64::from(rng.unit()) / 1e8)
        .collect();
    let port = |out: &mut [f32]| {
        raw::narrow_all(&xs, out);
    };
    fill("narrowing, Rust in lanes", port, |out| narrowings(&xs, out));
}

fn measure_turn_weights(rng: &mut Rng) {
    let us: Vec<f32> = (0..COUNT).map(|_| rng.unit()).collect();
    let cs: Vec<f32> = (0..COUNT).map(|_| rng.unit()).collect();
    let port = |out: &mut [f32]| {
        raw::turn_weight_all(&us, &cs, out);
    };
    fill("turn weight", port, |out| turn_weights(&us, &cs, out));

    let rests: Vec<f32> = us.iter().map(|u| 1.0 - u).collect();
    let port = |out: &mut [f32]| {
        let (of_rests, of_us) = out.split_at_mut(COUNT / 2);
        raw::turn_weight_all(&rests, &cs, of_rests);
        raw::turn_weight_all(&us, &cs, of_us);
    };
    let rust = |out: &mut [f32]| turn_weight_pairs(&us, &cs, out);
    fill("turn weight, two for each angle", port, rust);
}

/// Becomes a loop of `sqrtps`, four roots at a time.
#[inline(never)]
fn roots(xs: &[f32], out: &mut [f32]) {
    for (x, out) in xs.iter().zip(out) {
        *out = x.sqrt();
    }
}

/// A way out that depends on the data keeps the loop at `sqrtss`.
#[inline(never)]
fn roots_one_by_one(xs: &[f32], out: &mut [f32]) {
    for (x, out) in xs.iter().zip(out) {
        if x.is_nan() {
            return;
        }
        *out = x.sqrt();
    }
}

/// Becomes a loop of `cvtpd2ps`, two values at a time.
#[inline(never)]
fn narrowings(xs: &[f64], out: &mut [f32]) {
    for (x, out) in xs.iter().zip(out) {
        *out = *x as f32;
    }
}

#[inline(never)]
fn turn_weights(us: &[f32], cs: &[f32], out: &mut [f32]) {
    for ((u, c), out) in us.iter().zip(cs).zip(out) {
        let angle = c.acos();
        *out = (u * angle).sin() / angle.sin();
    }
}

/// As slerp has it: the angle and its sine serve both weights.
#[inline(never)]
fn turn_weight_pairs(us: &[f32], cs: &[f32], out: &mut [f32]) {
    let (of_rests, of_us) = out.split_at_mut(out.len() / 2);
    for ((u, c), (of_rest, of_u)) in us.iter().zip(cs).zip(of_rests.iter_mut().zip(of_us)) {
        let angle = c.acos();
        let sine = angle.sin();
        *of_rest = ((1.0 - u) * angle).sin() / sine;
        *of_u = (u * angle).sin() / sine;
    }
}
