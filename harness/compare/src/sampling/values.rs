//! `sample` at times on, between and outside the keys.
//!
//! The Rust's None is the port's 4. Where the port refuses with 2, 3, 5 or 10
//! (over size, a time that is NaN, keys out of line, short room), the number
//! alone is expected, and all that is lent unchanged: what the Rust answers
//! there is outside the comparison. Bits are equal, but for a Linear turn between
//! keys that are not alike (`slerp` with sines there, with turn weights here):
//! within 2^-19 where no component of the two keys exceeds 1 in size, and
//! otherwise not compared.

use super::{
    bits, on_bytes, same_bits,
    tracks::{any, small, time, Kind, Track},
};
use crate::{
    rng::Rng,
    tally::{Met, Tally, UNTOUCHED},
};
use mesh3d::raw::{self, Quat, Told};
use oracle::{AnimationValues, Interpolation, SampledValue};

const SMALL_TRACKS: usize = 250_000;
const TIMES: usize = 8;
/// Beside the small ones, with fewer tracks.
const LENGTHS: [usize; 6] = [100, 1_000, 4_097, 65_534, 65_535, 65_536];
const TRACKS_OF_EACH_LENGTH: usize = 60;

const TURN_BOUND: f64 = 1.0 / (1 << 19) as f64;

pub fn compare() -> bool {
    let mut comparison = Comparison::new();
    let mut rng = Rng::new(1);
    for _ in 0..SMALL_TRACKS {
        let track = small(&mut rng);
        comparison.count_times(&track, &mut rng);
    }
    for length in LENGTHS {
        for _ in 0..TRACKS_OF_EACH_LENGTH {
            let track = any(&mut rng, length);
            comparison.count_times(&track, &mut rng);
        }
    }
    comparison.on_bytes.count_long();
    comparison.report()
}

/// What a call answers, and leaves in what it is lent.
struct Answer {
    told: Told,
    value: Quat,
    out: Vec<f32>,
}

impl Answer {
    fn refused(number: u32, room: usize) -> Self {
        Answer {
            told: Told { number, count: 0 },
            value: [UNTOUCHED; 4],
            out: vec![UNTOUCHED; room],
        }
    }

    fn of_port(track: &Track, time: f32, room: usize) -> Self {
        let mut answer = Answer::refused(0, room);
        let track = track.of_port();
        answer.told = raw::sample(&track, time, &mut answer.value, &mut answer.out);
        answer
    }

    fn of_rust(sampled: &SampledValue, room: usize) -> Self {
        let mut answer = Answer::refused(0, room);
        match sampled {
            SampledValue::Vec3(v) => answer.value[..3].copy_from_slice(v),
            SampledValue::Quat(q) => answer.value = *q,
            SampledValue::Scalar(weights) => {
                answer.told.count = weights.len();
                answer.out[..weights.len()].copy_from_slice(weights);
            }
        }
        answer
    }

    fn same_beside_value(&self, other: &Self) -> bool {
        self.told == other.told && same_bits(&self.out, &other.out)
    }
}

/// How a value is compared.
#[derive(Clone, Copy, PartialEq)]
pub enum Rule {
    EqualBits,
    Turn,
    NotCompared,
}

impl Rule {
    pub fn allows(self, rust: &Quat, port: &Quat) -> bool {
        match self {
            Rule::EqualBits => same_bits(rust, port),
            Rule::Turn => rust.iter().zip(port).all(|(a, b)| is_near(*a, *b)),
            Rule::NotCompared => true,
        }
    }
}

fn is_near(a: f32, b: f32) -> bool {
    a.is_nan() && b.is_nan() || (f64::from(a) - f64::from(b)).abs() <= TURN_BOUND
}

/// Where a time lies among keys that are in line.
#[derive(Clone, Copy, PartialEq)]
pub enum Place {
    Before,
    On,
    Between(usize),
    After,
}

pub fn place_of(keys: &[f32], time: f32) -> Place {
    let above = keys.partition_point(|key| *key <= time);
    if above == 0 {
        Place::Before
    } else if keys[above - 1] == time {
        Place::On
    } else if above == keys.len() {
        Place::After
    } else {
        Place::Between(above - 1)
    }
}

/// A Linear turn, between two quaternions.
pub struct Turn {
    ends: [Quat; 2],
    dot: f32,
}

impl Turn {
    pub fn of(track: &Track, place: Place) -> Option<Self> {
        match (&track.sampler.values, track.interpolation(), place) {
            (AnimationValues::Quat(rows), Interpolation::Linear, Place::Between(k)) => {
                let (a, b) = (rows[k], rows[k + 1]);
                let dot = a[0] * b[0] + a[1] * b[1] + a[2] * b[2] + a[3] * b[3];
                let ends = [a, b];
                Some(Turn { ends, dot })
            }
            _ => None,
        }
    }

    pub fn rule(&self) -> Rule {
        let exceeds_one = self.ends.as_flattened().iter().any(|x| x.abs() > 1.0);
        match self.dot.abs() >= 1.0 {
            true => Rule::EqualBits,
            false if exceeds_one => Rule::NotCompared,
            false => Rule::Turn,
        }
    }
}

/// Whether both have an answer to compare, None included, in room enough.
pub fn is_compared(track: &Track, time: f32) -> bool {
    match early_numbers(track).with(track, time, track.stride()) {
        0 => {
            let turn = Turn::of(track, place_of(track.keys(), time));
            turn.is_none_or(|turn| turn.rule() != Rule::NotCompared)
        }
        number => number == 4,
    }
}

struct Comparison {
    tally: Tally<(usize, u32)>,
    /// Between keys, by kind and interpolation.
    between: Met<9>,
    places: Met<7>,
    turns: Met<4>,
    layouts: Met<3>,
    refused: Met<5>,
    on_bytes: on_bytes::Comparison,
}

impl Comparison {
    fn new() -> Self {
        Comparison {
            tally: Tally::new(),
            between: Met::new([
                "Vec3 Step",
                "Vec3 Linear",
                "Vec3 CubicSpline",
                "Quat Step",
                "Quat Linear",
                "Quat CubicSpline",
                "weights Step",
                "weights Linear",
                "weights CubicSpline",
            ]),
            places: Met::new([
                "before the first key",
                "on a key",
                "between",
                "after the last",
                "at -0",
                "infinite times",
                "keys too far apart",
            ]),
            turns: Met::new(["straight turns", "turns", "left to the proof", "negated"]),
            layouts: Met::new(["larger multiples", "64 weights", "1 key"]),
            refused: Met::new(["with 2", "with 3", "with 4", "with 5", "with 10"]),
            on_bytes: on_bytes::Comparison::new(),
        }
    }

    fn count_times(&mut self, track: &Track, rng: &mut Rng) {
        let early = early_numbers(track);
        for turn in 0..TIMES {
            let time = time(rng, track.keys());
            let room = room(track, rng);
            self.count(track, early, time, room);
            if turn == 0 {
                self.on_bytes.count(&track.of_port(), time, room);
            }
        }
    }

    fn count(&mut self, track: &Track, early: EarlyNumbers, time: f32, room: usize) {
        let number = early.with(track, time, room);
        let (rust, rule) = if number == 0 {
            self.met_value(track, time);
            let sampled = track.sampler.sample(time).expect("an even track");
            let turn = Turn::of(track, place_of(track.keys(), time));
            let rule = turn.map_or(Rule::EqualBits, |turn| self.met_turn(&turn));
            (Answer::of_rust(&sampled, room), rule)
        } else {
            self.met_refusal(number);
            (Answer::refused(number, room), Rule::EqualBits)
        };
        let port = Answer::of_port(track, time, room);
        let equal = rust.same_beside_value(&port) && rule.allows(&rust.value, &port.value);
        let size = track.keys().len() + track.sampler.values.len();
        self.tally.count((size, time.to_bits()), equal, |_| {
            let (rust, port) = (told(&rust), told(&port));
            let time = time.to_bits();
            format!(
                "{}, time {time:08x}, Rust {rust}, port {port}",
                track.told()
            )
        });
    }

    fn met_value(&mut self, track: &Track, time: f32) {
        self.met_place(track, place_of(track.keys(), time));
        if time.to_bits() == (-0f32).to_bits() {
            self.places.count(4);
        }
        if time.is_infinite() {
            self.places.count(5);
        }
        if track.kind != Kind::Scalar && track.entries_per_row() > 1 {
            self.layouts.count(0);
        }
        if track.stride() == 64 {
            self.layouts.count(1);
        }
        if track.keys().len() == 1 {
            self.layouts.count(2);
        }
    }

    fn met_place(&mut self, track: &Track, place: Place) {
        self.places.count(match place {
            Place::Before => 0,
            Place::On => 1,
            Place::Between(_) => 2,
            Place::After => 3,
        });
        if let Place::Between(k) = place {
            let (kind, interpolation) = (track.kind as usize, track.interpolation() as usize);
            self.between.count(3 * kind + interpolation);
            if (track.keys()[k + 1] - track.keys()[k]).is_infinite() {
                self.places.count(6);
            }
        }
    }

    fn met_turn(&mut self, turn: &Turn) -> Rule {
        let rule = turn.rule();
        self.turns.count(rule as usize);
        if turn.dot < 0.0 {
            self.turns.count(3);
        }
        rule
    }

    fn met_refusal(&mut self, number: u32) {
        self.refused.count(match number {
            10 => 4,
            _ => number as usize - 2,
        });
    }

    fn report(&self) -> bool {
        let met = [
            self.places.report(),
            self.between.report(),
            self.turns.report(),
            self.layouts.report(),
            self.refused.report(),
        ];
        let note = [
            self.places.note(),
            self.layouts.note(),
            String::from("; between keys"),
            self.between.note(),
            self.turns.note(),
            String::from("; refused"),
            self.refused.note(),
        ];
        let equal = [
            self.tally.report("sample", "cases", &note.concat()),
            self.on_bytes.report(),
        ];
        !equal.contains(&false) && !met.contains(&false)
    }
}

/// The numbers that depend on the track alone, 0 where none of them applies.
#[derive(Clone, Copy)]
struct EarlyNumbers {
    before_time: u32,
    after_time: u32,
}

fn early_numbers(track: &Track) -> EarlyNumbers {
    let after_time = if !track.is_even() {
        4
    } else if !track.has_keys_in_line() {
        5
    } else {
        0
    };
    EarlyNumbers {
        before_time: if track.is_over_limit() { 2 } else { 0 },
        after_time,
    }
}

impl EarlyNumbers {
    /// The lowest that applies.
    fn with(self, track: &Track, time: f32, room: usize) -> u32 {
        if self.before_time != 0 {
            return self.before_time;
        }
        if time.is_nan() {
            return 3;
        }
        if self.after_time == 0 && room < track.stride() {
            return 10;
        }
        self.after_time
    }
}

/// Mostly with room to spare, or just enough, or too little.
fn room(track: &Track, rng: &mut Rng) -> usize {
    let stride = track.stride();
    match rng.below(16) {
        0 => stride.saturating_sub(1),
        1 => 0,
        2 => stride,
        _ => stride + 2,
    }
}

fn told(answer: &Answer) -> String {
    let Told { number, count } = answer.told;
    let (value, out) = (bits(&answer.value), bits(&answer.out));
    format!("({number}, {count}, {value:08x?}, {out:08x?})")
}
