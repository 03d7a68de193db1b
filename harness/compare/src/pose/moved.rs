//! An animation of a scene, with what becomes of its channels at a time.

use super::{FLOATS, WORDS};
use crate::{
    rng::Rng,
    sampling::{
        same_bits,
        tracks::{time, Track},
    },
};
use oracle::{
    Animation, AnimationChannel, AnimationProperty, AnimationValues, SampledValue, Scene3D,
};

/// Aims a channel at a property of its kind.
pub fn fit(channel: &mut AnimationChannel) {
    let property = &mut channel.target.property;
    *property = match (&channel.sampler.values, *property) {
        (AnimationValues::Quat(_), _) => AnimationProperty::Rotation,
        (AnimationValues::Scalar(_), _) => AnimationProperty::MorphWeights,
        (AnimationValues::Vec3(_), AnimationProperty::Scale) => AnimationProperty::Scale,
        (AnimationValues::Vec3(_), _) => AnimationProperty::Translation,
    };
}

/// A scene's animation.
pub struct Moved {
    pub nodes: usize,
    pub animation: Animation,
    /// Of each channel.
    pub tracks: Vec<Track>,
    /// The keys of every even track that is aimed at a node.
    are_keys_in_line: bool,
}

/// What becomes of a channel, the first of these that applies.
#[derive(Clone, Copy, PartialEq, PartialOrd)]
pub enum Fate {
    AimedPastNodes,
    Uneven,
    OfAnotherKind,
    WithoutLength,
    Given,
}

impl Moved {
    pub fn new(scene: &Scene3D, animation: Animation, rng: &mut Rng) -> Self {
        let nodes = scene.nodes.len();
        let channels = animation.channels.iter();
        let tracks: Vec<Track> = channels
            .map(|channel| Track::new(channel.sampler.clone(), rng))
            .collect();
        let mut pairs = animation.channels.iter().zip(&tracks);
        let are_keys_in_line = pairs.all(|(channel, track)| {
            node_of(channel) >= nodes || !track.is_even() || track.has_keys_in_line()
        });
        Moved {
            nodes,
            animation,
            tracks,
            are_keys_in_line,
        }
    }

    pub fn time(&self, rng: &mut Rng) -> f32 {
        let keys = match self.tracks.len() {
            0 => &[],
            count => self.tracks[rng.below(count as u32) as usize].keys(),
        };
        time(rng, keys)
    }

    pub fn number(&self, time: f32, marks: usize, slots: usize) -> u32 {
        if time.is_nan() {
            3
        } else if !self.are_keys_in_line {
            5
        } else if (marks / WORDS).min(slots / FLOATS) < self.nodes {
            6
        } else {
            0
        }
    }

    /// What the port is to leave of the Rust's pose, where there is room for it.
    pub fn put_rust_pose(&self, time: f32, marks: &mut [u32], slots: &mut [f32]) {
        let pose = self.animation.sample_pose(time, self.nodes);
        for (node, word) in self.standing(time).into_iter().enumerate() {
            let (t, r, s) = (
                pose.translations[node],
                pose.rotations[node],
                pose.scales[node],
            );
            let is_posed = [t.is_some(), r.is_some(), s.is_some()];
            marks[WORDS * node..][..3].copy_from_slice(&is_posed.map(u32::from));
            marks[WORDS * node + 3] = word;
            let floats = &mut slots[FLOATS * node..][..FLOATS];
            floats[..3].copy_from_slice(&t.unwrap_or_default());
            floats[3..7].copy_from_slice(&r.unwrap_or_default());
            floats[7..].copy_from_slice(&s.unwrap_or_default());
        }
    }

    /// Of each node, 1 + the channel whose morph weights stand, or 0.
    fn standing(&self, time: f32) -> Vec<u32> {
        let mut standing = vec![0; self.nodes];
        for (k, channel) in (1..).zip(&self.animation.channels) {
            let is_of_weights = channel.target.property == AnimationProperty::MorphWeights;
            if is_of_weights && self.fate(channel, time) == Fate::Given {
                standing[node_of(channel)] = k;
            }
        }
        standing
    }

    pub fn fate(&self, channel: &AnimationChannel, time: f32) -> Fate {
        if node_of(channel) >= self.nodes {
            return Fate::AimedPastNodes;
        }
        match (channel.target.property, channel.sampler.sample(time)) {
            (_, None) => Fate::Uneven,
            (AnimationProperty::Rotation, Some(SampledValue::Quat([x, y, z, w]))) => {
                let length = (x * x + y * y + z * z + w * w).sqrt();
                if length.is_finite() && length > 0.0 {
                    Fate::Given
                } else {
                    Fate::WithoutLength
                }
            }
            (AnimationProperty::MorphWeights, Some(SampledValue::Scalar(_)))
            | (AnimationProperty::Translation, Some(SampledValue::Vec3(_)))
            | (AnimationProperty::Scale, Some(SampledValue::Vec3(_))) => Fate::Given,
            _ => Fate::OfAnotherKind,
        }
    }

    /// Whether the Rust's weights of a node are those of the channel that the
    /// word names.
    pub fn has_weights(&self, weights: &Option<Vec<f32>>, word: u32, time: f32) -> bool {
        let Some(channel) = (word as usize).checked_sub(1) else {
            return weights.is_none();
        };
        let channel = self.animation.channels.get(channel);
        match (
            weights,
            channel.and_then(|channel| channel.sampler.sample(time)),
        ) {
            (Some(weights), Some(SampledValue::Scalar(sampled))) => same_bits(weights, &sampled),
            _ => false,
        }
    }
}

pub fn node_of(channel: &AnimationChannel) -> usize {
    channel.target.node.0 as usize
}
