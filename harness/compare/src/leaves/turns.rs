//! Turns by `turn_weight_all` against the Rust's slerp, for quaternions with no
//! component above 1 in size.

use crate::{
    rng::Rng,
    tally::{in_batches, Tally, BATCH},
};
use mesh3d::raw;
use oracle::animation::{AnimationSampler, AnimationValues, Interpolation, SampledValue};

pub type Quat = [f32; 4];

/// How far a component may be from the Rust's: 2^-19.
const LIMIT: f64 = 1.0 / (1 << 19) as f64;
const TURNS_OF_EACH_KIND: usize = 200_000;
const LARGEST_BELOW_ONE: f32 = 1.0f32.next_down();
const SMALLEST: f32 = f32::from_bits(1);
/// The smallest f32 is 2^-149.
const SMALLEST_POWER: u32 = 149;

/// The Rust's slerp, which is private: it is what a Linear track of two
/// quaternions gives strictly between its keys. On a key the track hands back
/// the key's value instead, so for 0 and 1 the keys and the time are such that
/// u is rounded to them.
pub fn slerp(from: Quat, to: Quat, u: f32) -> Quat {
    let (keys, time) = if u == 0.0 {
        ([0.0, f32::MAX], SMALLEST)
    } else if u == 1.0 {
        ([-1.0, 1.0], LARGEST_BELOW_ONE)
    } else {
        ([0.0, 1.0], u)
    };
    let track = AnimationSampler {
        keyframes: keys.to_vec(),
        values: AnimationValues::Quat(vec![from, to]),
        interpolation: Interpolation::Linear,
    };
    match track.sample(time) {
        Some(SampledValue::Quat(q)) => q,
        other => panic!("a track of quaternions gave {other:?}"),
    }
}

struct Turn {
    from: Quat,
    to: Quat,
    u: f32,
    /// `to`, or its negative, whichever has the dot product with `from` that is
    /// not below zero; and that dot product, cut off at 1.
    nearer: Quat,
    cosine: f32,
}

impl Turn {
    fn new(from: Quat, to: Quat, u: f32) -> Self {
        let dot = dot(from, to);
        let (nearer, cosine) = if dot < 0.0 {
            (to.map(|x| -x), -dot)
        } else {
            (to, dot)
        };
        Turn {
            from,
            to,
            u,
            nearer,
            cosine: cosine.min(1.0),
        }
    }

    fn bits(&self) -> [u32; 9] {
        let mut bits = [self.u.to_bits(); 9];
        for c in 0..4 {
            bits[c] = self.from[c].to_bits();
            bits[4 + c] = self.to[c].to_bits();
        }
        bits
    }

    fn by_weights(&self, rest: f32, done: f32) -> Quat {
        std::array::from_fn(|c| rest * self.from[c] + done * self.nearer[c])
    }
}

/// In the Rust's order.
fn dot(a: Quat, b: Quat) -> f32 {
    a[0] * b[0] + a[1] * b[1] + a[2] * b[2] + a[3] * b[3]
}

pub fn compare() -> bool {
    let mut tally = Tally::new();
    let mut widest = 0.0f64;
    // A cosine of 1 is the Rust's lerp, which has no weights.
    let turns = gate_turns().filter(|turn| turn.cosine < 1.0);
    in_batches(turns, |turns| {
        let (rests, dones) = weights(turns);
        for (turn, (rest, done)) in turns.iter().zip(rests.into_iter().zip(dones)) {
            let rust = slerp(turn.from, turn.to, turn.u);
            let port = turn.by_weights(rest, done);
            let gaps: [f64; 4] =
                std::array::from_fn(|c| (f64::from(port[c]) - f64::from(rust[c])).abs());
            widest = gaps.into_iter().fold(widest, f64::max);
            let near = gaps.iter().all(|gap| *gap <= LIMIT);
            tally.count(turn.bits(), near, |bits| {
                let [rust, port] = [rust, port].map(|q| q.map(f32::to_bits));
                format!("from, to, u {bits:08x?}, Rust {rust:08x?}, port {port:08x?}")
            });
        }
    });
    let note = format!(" by more than 2^-19, worst gap 2^{:.2}", widest.log2());
    tally.report("turn", "turns", &note)
}

/// The port's weights of each turn.
fn weights(turns: &[Turn]) -> ([f32; BATCH], [f32; BATCH]) {
    let cosines: Vec<f32> = turns.iter().map(|turn| turn.cosine).collect();
    let of = |portions: Vec<f32>| {
        let mut weights = [f32::NAN; BATCH];
        raw::turn_weight_all(&portions, &cosines, &mut weights);
        weights
    };
    let rest = of(turns.iter().map(|turn| 1.0 - turn.u).collect());
    (rest, of(turns.iter().map(|turn| turn.u).collect()))
}

/// A NaN in either argument gives NaN.
pub fn compare_nan() -> bool {
    const PLAIN: [f32; 9] = [
        0.0,
        -0.0,
        SMALLEST,
        0.5,
        1.0,
        -1.0,
        f32::MAX,
        f32::INFINITY,
        f32::NEG_INFINITY,
    ];
    const NANS: [u32; 5] = [0x7fc0_0000, 0xffc0_0000, 0x7f80_0001, 0xff80_0001, !0];
    let nans = NANS.map(f32::from_bits);
    let all = [&PLAIN[..], &nans].concat();
    let (mut vs, mut cs) = (Vec::new(), Vec::new());
    for nan in nans {
        for x in &all {
            vs.extend([nan, *x]);
            cs.extend([*x, nan]);
        }
    }
    let mut found = vec![0.0; vs.len()];
    raw::turn_weight_all(&vs, &cs, &mut found);
    let mut tally = Tally::new();
    for ((v, c), weight) in vs.iter().zip(&cs).zip(found) {
        let input = u64::from(v.to_bits()) << 32 | u64::from(c.to_bits());
        tally.count_answer(input, f32::NAN, weight);
    }
    tally.report("turn weight of NaN", "pairs", "")
}

type Pair = (Quat, Quat);

/// The kinds of pairs that are turned between.
const KINDS: [fn(&mut Rng) -> Pair; 9] = [
    |rng| (unit_quat(rng), unit_quat(rng)),
    |rng| close(rng, 1.0),
    |rng| close(rng, -1.0),
    nearly_perpendicular,
    with_cosine_near_one,
    with_cosine_near_zero,
    scaled_down,
    |rng| (in_cube(rng), in_cube(rng)),
    |rng| (on_grid(rng), on_grid(rng)),
];

fn gate_turns() -> impl Iterator<Item = Turn> {
    KINDS.into_iter().zip(1..).flat_map(|(kind, seed)| {
        let mut rng = Rng::new(seed);
        let turns = std::iter::repeat_with(move || {
            let (from, to) = kind(&mut rng);
            let within_one = |q: Quat| q.map(|x| x.clamp(-1.0, 1.0));
            Turn::new(within_one(from), within_one(to), portion(&mut rng))
        });
        turns.take(TURNS_OF_EACH_KIND)
    })
}

/// How far to turn: 0, 1, tiny, close to 1, or anything between.
fn portion(rng: &mut Rng) -> f32 {
    match rng.below(8) {
        0 => 0.0,
        1 => 1.0,
        2 => power_of_two(rng, SMALLEST_POWER),
        3 => 1.0 - rng.below(64) as f32 / (1 << 24) as f32,
        _ => rng.unit(),
    }
}

/// 2^-k for some k up to `most`.
fn power_of_two(rng: &mut Rng, most: u32) -> f32 {
    2f64.powi(-(rng.below(most + 1) as i32)) as f32
}

fn in_cube(rng: &mut Rng) -> Quat {
    std::array::from_fn(|_| rng.signed_unit())
}

fn on_grid(rng: &mut Rng) -> Quat {
    std::array::from_fn(|_| rng.one_of(&[-1.0, -0.5, -SMALLEST, -0.0, 0.0, SMALLEST, 0.5, 1.0]))
}

fn unit_quat(rng: &mut Rng) -> Quat {
    unit_or(in_cube(rng), [0.0, 0.0, 0.0, 1.0])
}

/// `q` divided by its length, or `other` where that cannot be done.
fn unit_or(q: Quat, other: Quat) -> Quat {
    let length = dot(q, q).sqrt();
    if length > 0.0 {
        q.map(|x| x / length)
    } else {
        other
    }
}

/// Two unit quaternions that are close to each other, or to opposite ones.
fn close(rng: &mut Rng, sign: f32) -> Pair {
    let (from, away) = (unit_quat(rng), in_cube(rng));
    let distance = power_of_two(rng, 12);
    let to = std::array::from_fn(|c| from[c] + distance * away[c]);
    (from, unit_or(to, from).map(|x| sign * x))
}

fn nearly_perpendicular(rng: &mut Rng) -> Pair {
    let (from, any) = (unit_quat(rng), unit_quat(rng));
    let along = dot(from, any);
    let to = std::array::from_fn(|c| any[c] - along * from[c]);
    (from, unit_or(to, any))
}

fn with_cosine_near_one(rng: &mut Rng) -> Pair {
    let steps = 1 + rng.below(1 << 12);
    with_cosine(rng, 1.0 - steps as f32 / (1 << 24) as f32)
}

fn with_cosine_near_zero(rng: &mut Rng) -> Pair {
    let cosine = power_of_two(rng, SMALLEST_POWER);
    with_cosine(rng, cosine)
}

/// A pair whose dot product is exactly `cosine`, or its negative.
fn with_cosine(rng: &mut Rng, cosine: f32) -> Pair {
    let mut to = in_cube(rng);
    to[3] = rng.one_of(&[cosine, -cosine]);
    ([0.0, 0.0, 0.0, 1.0], to)
}

fn scaled_down(rng: &mut Rng) -> Pair {
    let (from, to) = (unit_quat(rng), unit_quat(rng));
    let (of_from, of_to) = (
        power_of_two(rng, SMALLEST_POWER),
        power_of_two(rng, SMALLEST_POWER),
    );
    (from.map(|x| x * of_from), to.map(|x| x * of_to))
}

#[cfg(test)]
mod tests {
    use super::*;

    /// A turn by more than a right angle ends at the second key's negative;
    /// the track itself would give that key.
    #[test]
    fn slerp_reaches_its_ends() {
        let (from, to) = ([1.0, 0.0, 0.0, 0.0], [-0.5, 0.5, 0.5, 0.5]);
        assert_eq!(slerp(from, to, 0.0), from);
        assert_eq!(slerp(from, to, 1.0), to.map(|x| -x));
    }
}
