//! One keyframe track in a slice of floats.

use crate::{
    raw,
    raw::Part,
    refusal::{accepted, Refusal},
};

/// What the values of a track are.
#[derive(Clone, Copy, Debug, Default, PartialEq, Eq, Hash)]
pub enum Kind {
    /// x, y, z.
    #[default]
    Vec3,
    /// x, y, z, w.
    Quat,
    /// Morph weights, so many a frame.
    Scalar,
}

/// How a value between two keys is found.
#[derive(Clone, Copy, Debug, Default, PartialEq, Eq, Hash)]
pub enum Interpolation {
    /// That of the key before.
    Step,
    /// On the line, or the turn, from one to the other.
    #[default]
    Linear,
    /// By Hermite splines: each key has an in-tangent, a value and an out-tangent.
    CubicSpline,
}

/// A track: keys and values that lie in one slice.
#[derive(Clone, Copy, Debug)]
pub struct Track<'a> {
    /// What keys and values lie in.
    pub floats: &'a [f32],
    /// What the values are.
    pub kind: Kind,
    /// How a value between two keys is found.
    pub interpolation: Interpolation,
    /// Where the keys start, and how many there are.
    pub keys: Part,
    /// Where the values start, and how many there are, in entries of the kind.
    pub values: Part,
}

/// The value of a track at a time.
#[derive(Clone, Copy, Debug, PartialEq)]
pub enum Value {
    /// Of a track of Vec3.
    Vec3([f32; 3]),
    /// Of a track of Quat.
    Quat([f32; 4]),
    /// How many weights were written to the output.
    Weights(usize),
}

impl Track<'_> {
    /// The value at a time; weights are written to the start of `out`, which may be empty
    /// for a track of another kind.
    pub fn sample(&self, time: f32, out: &mut [f32]) -> Result<Value, Refusal> {
        let mut value = [0.0; 4];
        let told = raw::sample(&self.raw(), time, &mut value, out);
        accepted(told.number)?;
        let [x, y, z, _] = value;
        Ok(match self.kind {
            Kind::Vec3 => Value::Vec3([x, y, z]),
            Kind::Quat => Value::Quat(value),
            Kind::Scalar => Value::Weights(told.count),
        })
    }

    /// Copies the weights of frame `k` to the start of `out`; answers how many.
    pub fn frame(&self, k: usize, out: &mut [f32]) -> Result<usize, Refusal> {
        self.rows(false, k, out)
    }

    /// Copies the in-tangents, weights and out-tangents of frame `k` of a CubicSpline track
    /// to the start of `out`; answers how many floats.
    pub fn cubic_frame(&self, k: usize, out: &mut [f32]) -> Result<usize, Refusal> {
        self.rows(true, k, out)
    }

    fn rows(&self, all: bool, k: usize, out: &mut [f32]) -> Result<usize, Refusal> {
        let told = raw::frame(&self.raw(), all, k, out);
        accepted(told.number).map(|()| told.count)
    }

    /// The weights per frame of an even scalar track, and 0 of any other.
    pub fn stride(&self) -> usize {
        raw::stride(&self.raw())
    }

    fn raw(&self) -> raw::Track<'_> {
        raw::Track {
            floats: self.floats,
            kind: self.kind as u32,
            interpolation: self.interpolation as u32,
            keys_at: self.keys.at,
            keys_count: self.keys.count,
            values_at: self.values.at,
            values_count: self.values.count,
        }
    }
}

/// Whether every key is finite and above the one before.
pub fn are_keys_in_line(keys: &[f32]) -> bool {
    raw::keys_in_line(keys)
}
