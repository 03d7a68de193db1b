//! The speed of `sample`. The port checks the keys at each call, which the Rust
//! does not: it is measured alone, and once more with the check that its track
//! builders make.

use super::tracks::{factor, keys_in_line, Track};
use crate::{matrices::inputs::unit_quaternion, measure::side_by_side, rng::Rng};
use mesh3d::raw::{self, Quat};
use oracle::{AnimationSampler, AnimationValues, Interpolation, SampledValue};
use std::{array::from_fn, hint::black_box, iter::repeat_with};

const WEIGHTS: usize = 64;

/// Keys of a track, and how many times it is sampled at in one go.
const LENGTHS: [(usize, usize); 2] = [(64, 1024), (65_535, 16)];

pub type Maker = fn(&mut Rng, usize) -> AnimationValues;

const SORTS: [(&str, Interpolation, Maker); 3] = [
    ("vec3 Linear", Interpolation::Linear, vectors),
    ("quat Linear", Interpolation::Linear, turns),
    ("64 weights Cubic", Interpolation::CubicSpline, weights),
];

pub fn measure() {
    for (keys, times) in LENGTHS {
        for (name, interpolation, values) in SORTS {
            let mut rng = Rng::new(1);
            let sampler = AnimationSampler {
                keyframes: (0..keys).map(|k| k as f32 / 32.0).collect(),
                values: values(&mut rng, keys * factor(interpolation)),
                interpolation,
            };
            let track = Track::new(sampler, &mut rng);
            let end = (keys - 1) as f32 / 32.0;
            let times: Vec<f32> = repeat_with(|| end * rng.unit()).take(times).collect();
            measure_track(&format!("{keys} keys, {name}"), &track, &times);
            measure_bytes("  on bytes, beside the Rust", &track, &times);
        }
        measure_keys(keys);
    }
}

fn measure_track(name: &str, track: &Track, times: &[f32]) {
    let lent = track.of_port();
    let (mut value, mut out) = ([0.0; 4], [0.0; WEIGHTS]);
    for time in times {
        let told = raw::sample(&lent, *time, &mut value, &mut out);
        assert_eq!(told.number, 0, "{name}: the speed of a refusal");
    }
    let mut by_port = || {
        for time in times {
            black_box(raw::sample(
                &lent,
                *time,
                black_box(&mut value),
                black_box(&mut out),
            ));
        }
    };
    side_by_side(name, times.len(), &mut by_port, || {
        for time in times {
            black_box(sample(&track.sampler, *time));
        }
    });
    side_by_side(
        "  and the Rust checks the keys",
        times.len(),
        by_port,
        || {
            for time in times {
                black_box(checked_sample(&track.sampler, *time));
            }
        },
    );
}

fn measure_bytes(name: &str, track: &Track, times: &[f32]) {
    let lent = track.of_port();
    let table: Vec<u8> = lent.floats.iter().flat_map(|x| x.to_le_bytes()).collect();
    let mut room = vec![0.0; lent.floats.len()];
    let (mut value, mut out) = ([0; 16], [0; 4 * WEIGHTS]);
    let time = times[0].to_bits();
    let told = raw::sample_bytes(&lent, &table, time, &mut room, &mut value, &mut out);
    assert_eq!(told.number, 0, "{name}: the speed of a refusal");
    side_by_side(
        name,
        times.len(),
        || {
            for time in times {
                let time = time.to_bits();
                let (value, out) = (black_box(&mut value), black_box(&mut out[..]));
                let room = black_box(&mut room);
                black_box(raw::sample_bytes(&lent, &table, time, room, value, out));
            }
        },
        || {
            for time in times {
                black_box(sample(&track.sampler, *time));
            }
        },
    );
}

fn measure_keys(count: usize) {
    let keys: Vec<f32> = (0..count).map(|k| k as f32 / 32.0).collect();
    side_by_side(
        &format!("keys_in_line, {count} keys, per key"),
        count,
        || {
            black_box(raw::keys_in_line(black_box(&keys)));
        },
        || {
            black_box(keys_in_line(black_box(&keys)));
        },
    );
}

#[inline(never)]
fn sample(sampler: &AnimationSampler, time: f32) -> Option<SampledValue> {
    sampler.sample(time)
}

#[inline(never)]
fn checked_sample(sampler: &AnimationSampler, time: f32) -> Option<SampledValue> {
    if !keys_in_line(black_box(&sampler.keyframes)) {
        return None;
    }
    sampler.sample(time)
}

pub fn vectors(rng: &mut Rng, count: usize) -> AnimationValues {
    let vector = || from_fn(|_| rng.signed_unit());
    AnimationValues::Vec3(repeat_with(vector).take(count).collect())
}

pub fn turns(rng: &mut Rng, count: usize) -> AnimationValues {
    let turns: Vec<Quat> = repeat_with(|| unit_quaternion(rng)).take(count).collect();
    AnimationValues::Quat(turns)
}

fn weights(rng: &mut Rng, count: usize) -> AnimationValues {
    let weight = || rng.signed_unit();
    AnimationValues::Scalar(repeat_with(weight).take(WEIGHTS * count).collect())
}
