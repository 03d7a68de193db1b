//! Tracks to compare on: as the Rust's sampler, and as a table of floats that
//! the port is handed.

use super::{bits, KEY_LIMIT, WEIGHT_LIMIT};
use crate::{
    matrices::inputs::{number, quaternion, unit_quaternion, vector},
    rng::Rng,
    tally::UNTOUCHED,
};
use mesh3d::raw::{self, Quat};
use oracle::{AnimationSampler, AnimationValues, Interpolation};
use std::iter::repeat_with;

#[derive(Clone, Copy, Debug, PartialEq)]
pub enum Kind {
    Vec3,
    Quat,
    Scalar,
}

pub const KINDS: [Kind; 3] = [Kind::Vec3, Kind::Quat, Kind::Scalar];

pub const INTERPOLATIONS: [Interpolation; 3] = [
    Interpolation::Step,
    Interpolation::Linear,
    Interpolation::CubicSpline,
];

/// Rows for a key.
pub fn factor(interpolation: Interpolation) -> usize {
    match interpolation {
        Interpolation::CubicSpline => 3,
        _ => 1,
    }
}

pub struct Track {
    pub kind: Kind,
    pub sampler: AnimationSampler,
    floats: Vec<f32>,
    keys_at: usize,
    values_at: usize,
}

impl Track {
    pub fn new(sampler: AnimationSampler, rng: &mut Rng) -> Self {
        let kind = match sampler.values {
            AnimationValues::Vec3(_) => Kind::Vec3,
            AnimationValues::Quat(_) => Kind::Quat,
            AnimationValues::Scalar(_) => Kind::Scalar,
        };
        let (first, second) = (&sampler.keyframes[..], flat(&sampler.values));
        let keys_first = rng.below(2) == 0;
        let (first, second) = if keys_first {
            (first, second)
        } else {
            (second, first)
        };
        let gaps = [rng.below(3), rng.below(3), rng.below(3)].map(|n| n as usize);
        let first_at = gaps[0];
        let second_at = first_at + first.len() + gaps[1];
        let mut floats = vec![UNTOUCHED; second_at + second.len() + gaps[2]];
        floats[first_at..][..first.len()].copy_from_slice(first);
        floats[second_at..][..second.len()].copy_from_slice(second);
        let (keys_at, values_at) = if keys_first {
            (first_at, second_at)
        } else {
            (second_at, first_at)
        };
        Track {
            kind,
            sampler,
            floats,
            keys_at,
            values_at,
        }
    }

    pub fn of_port(&self) -> raw::Track<'_> {
        raw::Track {
            floats: &self.floats,
            kind: self.kind as u32,
            interpolation: self.interpolation() as u32,
            keys_at: self.keys_at,
            keys_count: self.keys().len(),
            values_at: self.values_at,
            values_count: self.sampler.values.len(),
        }
    }

    pub fn interpolation(&self) -> Interpolation {
        self.sampler.interpolation
    }

    pub fn keys(&self) -> &[f32] {
        &self.sampler.keyframes
    }

    /// One after the other, whatever the kind.
    pub fn values(&self) -> &[f32] {
        flat(&self.sampler.values)
    }

    /// The track in words, its floats as bits.
    pub fn told(&self) -> String {
        let (keys, values) = (bits(self.keys()), bits(self.values()));
        let (kind, interpolation) = (self.kind, self.interpolation());
        format!("{kind:?} {interpolation:?}, keys {keys:08x?}, values {values:08x?}")
    }

    /// Whether the Rust's sampler has a value: it asks no more than the
    /// counts. The keys are replaced, since it may fail where they do not rise.
    pub fn is_even(&self) -> bool {
        let keyframes = (0..self.keys().len()).map(|k| k as f32).collect();
        let rising = AnimationSampler {
            keyframes,
            ..self.sampler.clone()
        };
        rising.sample(0.0).is_some()
    }

    /// Entries of an even track for each row that a key has.
    pub fn entries_per_row(&self) -> usize {
        self.sampler.values.len() / (self.keys().len() * factor(self.interpolation()))
    }

    /// Weights per frame of a scalar track.
    pub fn stride(&self) -> usize {
        self.sampler.morph_weight_stride().unwrap_or(0)
    }

    pub fn is_over_limit(&self) -> bool {
        self.keys().len() > KEY_LIMIT || self.stride() > WEIGHT_LIMIT
    }

    /// As the Rust asks of the keys that a sampler is built from.
    pub fn has_keys_in_line(&self) -> bool {
        keys_in_line(self.keys())
    }
}

pub fn keys_in_line(keys: &[f32]) -> bool {
    let mut last = f32::NEG_INFINITY;
    for key in keys {
        if !key.is_finite() || *key <= last {
            return false;
        }
        last = *key;
    }
    true
}

fn flat(values: &AnimationValues) -> &[f32] {
    match values {
        AnimationValues::Vec3(rows) => rows.as_flattened(),
        AnimationValues::Quat(rows) => rows.as_flattened(),
        AnimationValues::Scalar(weights) => weights,
    }
}

/// Of any kind, with few keys and mostly few values.
pub fn small(rng: &mut Rng) -> Track {
    let keys = match rng.below(32) {
        0 => 0,
        1 => 64,
        2..6 => 1,
        6..16 => 2,
        16..26 => 3,
        _ => 4 + rng.below(5) as usize,
    };
    any(rng, keys)
}

/// With so many keys, of any kind and layout.
pub fn any(rng: &mut Rng, keys: usize) -> Track {
    let (kind, interpolation) = (rng.one_of(&KINDS), rng.one_of(&INTERPOLATIONS));
    of_sort(rng, kind, interpolation, keys)
}

pub fn of_sort(rng: &mut Rng, kind: Kind, interpolation: Interpolation, keys: usize) -> Track {
    let keyframes = keyframes(rng, keys);
    let count = value_count(rng, kind, keys * factor(interpolation));
    let sampler = AnimationSampler {
        keyframes,
        values: values(rng, kind, count),
        interpolation,
    };
    Track::new(sampler, rng)
}

/// An even layout with its least count or a larger one, or one that is not.
fn value_count(rng: &mut Rng, kind: Kind, rows: usize) -> usize {
    let stride = match (kind, rng.below(16)) {
        (_, 0) => 2,
        (_, 1) => 3,
        (Kind::Scalar, 2) if rows <= 64 => 64 + rng.below(2) as usize,
        (Kind::Scalar, 3) if rows <= 64 => 1 + rng.below(64) as usize,
        (Kind::Scalar, 4..8) => 1 + rng.below(4) as usize,
        _ => 1,
    };
    let even = rows * stride;
    match rng.below(16) {
        0 => even + 1,
        1 => even.saturating_sub(1),
        2 => rng.below(8) as usize,
        _ => even,
    }
}

fn values(rng: &mut Rng, kind: Kind, count: usize) -> AnimationValues {
    match kind {
        Kind::Vec3 => AnimationValues::Vec3(repeat_with(|| vector(rng)).take(count).collect()),
        Kind::Quat => AnimationValues::Quat(quaternions(rng, count)),
        Kind::Scalar => AnimationValues::Scalar(repeat_with(|| number(rng)).take(count).collect()),
    }
}

/// Any, or each close to the one before or to its negative, so that the way is
/// straight or the second is negated.
fn quaternions(rng: &mut Rng, count: usize) -> Vec<Quat> {
    let any = rng.below(3) == 0;
    let mut last = unit_quaternion(rng);
    repeat_with(|| {
        last = match rng.below(4) {
            _ if any => quaternion(rng),
            0 => last.map(|x| -x),
            1 => {
                let distance = 2f32.powi(-(rng.below(24) as i32));
                last.map(|x| (x + distance * rng.signed_unit()).clamp(-1.0, 1.0))
            }
            2 => last,
            _ => unit_quaternion(rng),
        };
        last
    })
    .take(count)
    .collect()
}

/// Keys in line of some scale, or out of line at one place.
fn keyframes(rng: &mut Rng, count: usize) -> Vec<f32> {
    let mut keys = match rng.below(8) {
        0 => over_all_floats(rng, count),
        1 => neighbours(rng, count),
        2 => from_end_to_end(count),
        _ => steps(rng, count),
    };
    if count > 0 && rng.below(8) == 0 {
        break_line(rng, &mut keys);
    }
    keys
}

/// Uneven steps from some start, 0 among them.
fn steps(rng: &mut Rng, count: usize) -> Vec<f32> {
    let scale = rng.one_of(&[1.0, 1.0, 1.0 / 64.0, 1e-30, 1e30]);
    let mut at: f64 = rng.one_of(&[0.0, 0.0, -1.0, 0.5, -3.25]);
    repeat_with(|| {
        let key = (at * scale) as f32;
        at += f64::from(1 + rng.below(4)) / 4.0;
        key
    })
    .take(count)
    .collect()
}

/// Finite floats in order, from the least to the greatest.
fn over_all_floats(rng: &mut Rng, count: usize) -> Vec<f32> {
    let mut keys: Vec<f32> = repeat_with(|| f32::from_bits(rng.bits() as u32))
        .map(|key| if key.is_finite() { key } else { f32::MAX })
        .take(count)
        .collect();
    keys.sort_by(f32::total_cmp);
    keys
}

/// From the least finite float to the greatest in even steps; a single step is
/// longer than any float.
fn from_end_to_end(count: usize) -> Vec<f32> {
    let (first, last) = (f64::from(f32::MIN), f64::from(f32::MAX));
    let step = (last - first) / (count.max(2) - 1) as f64;
    (0..count)
        .map(|k| (first + k as f64 * step) as f32)
        .collect()
}

/// One float after the other.
fn neighbours(rng: &mut Rng, count: usize) -> Vec<f32> {
    let mut key = rng.one_of(&[-0.0, 0.0, 1.0, -1.0, 1e-40, f32::MIN, 255.0]);
    repeat_with(|| {
        let this = key;
        key = key.next_up();
        this
    })
    .take(count)
    .collect()
}

fn break_line(rng: &mut Rng, keys: &mut [f32]) {
    let k = rng.below(keys.len() as u32) as usize;
    let before = keys[k.saturating_sub(1)];
    keys[k] = match rng.below(6) {
        0 => f32::NAN,
        1 => f32::INFINITY,
        2 => f32::NEG_INFINITY,
        3 => before,
        4 => before.next_down(),
        _ => -before,
    };
}

/// On keys, beside them, between, outside, and special ones.
pub fn time(rng: &mut Rng, keys: &[f32]) -> f32 {
    if keys.is_empty() || rng.below(8) == 0 {
        return number(rng);
    }
    let k = rng.below(keys.len() as u32) as usize;
    let (key, next) = (keys[k], keys[(k + 1).min(keys.len() - 1)]);
    match rng.below(12) {
        0 => key,
        1 => -key,
        2 => key.next_up(),
        3 => key.next_down(),
        4 => keys[0] - rng.unit(),
        5 => keys[keys.len() - 1] + rng.unit(),
        6 => rng.one_of(&[0.0, -0.0, f32::INFINITY, f32::NEG_INFINITY, f32::NAN]),
        _ => (f64::from(key) + f64::from(rng.unit()) * (f64::from(next) - f64::from(key))) as f32,
    }
}
