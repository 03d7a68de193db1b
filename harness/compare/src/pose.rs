//! `sample_pose` on scenes lent in both layouts. Where the port refuses, the
//! number alone is expected, and both slices as lent. Otherwise the slots are
//! those of the Rust's pose by bits, but for a rotation that stands by a Linear
//! turn between keys that are not alike: it is compared by the rule of `sample`
//! (sampling/values.rs). Where that rule compares nothing, either side may find
//! the turn without length.

mod moved;
mod passed_over;
pub mod speed;

pub use moved::{fit, Moved};

use crate::{
    rng::Rng,
    sampling::{
        bits, same_bits,
        tracks::Track,
        values::{place_of, Rule, Turn},
    },
    tables::{
        build::lend,
        generate::{scene, Sizes, SMALL},
        layout::{Layout, Lent},
        numbers::number,
    },
    tally::{Met, Tally, UNTOUCHED},
};
use mesh3d::raw;
use moved::{node_of, Fate};
use oracle::{AnimationProperty, AnimationTarget};
use std::array::from_fn;

const SCENES: usize = 50_000;
const TIMES: usize = 5;
/// Few nodes, so that channels meet.
const SIZES: Sizes = Sizes {
    nodes: 3,
    channels: 6,
    meshes: 1,
    primitives: 1,
    ..SMALL
};

/// Of a node.
const WORDS: usize = 4;
const FLOATS: usize = 10;
const LENT_WORD: u32 = 0xa5a5_a5a5;

pub fn compare() -> bool {
    let mut comparison = Comparison::new();
    let mut rng = Rng::new(6);
    let mut scenes = 0;
    while scenes < SCENES {
        let (scene, mut animation) = scene(&mut rng, &SIZES);
        if rng.below(3) > 0 {
            animation.channels.iter_mut().for_each(fit);
        }
        let spread = Layout::Spread(Rng::new(rng.bits()));
        let lent =
            [Layout::Compact, spread].map(|mut layout| lend(&scene, &animation, &mut layout));
        if lent.iter().all(|lent| number(&lent.of_port()) == 0) {
            comparison.count_times(&Moved::new(&scene, animation, &mut rng), &lent, &mut rng);
            scenes += 1;
        }
    }
    comparison.report()
}

/// What a call answers, and leaves in what it is lent.
struct Answer {
    number: u32,
    marks: Vec<u32>,
    slots: Vec<f32>,
}

impl Answer {
    fn refused(number: u32, marks: usize, slots: usize) -> Self {
        Answer {
            number,
            marks: vec![LENT_WORD; marks],
            slots: vec![UNTOUCHED; slots],
        }
    }

    fn of_port(lent: &Lent, time: f32, marks: usize, slots: usize) -> Self {
        let mut answer = Answer::refused(0, marks, slots);
        let (marks, slots) = (&mut answer.marks, &mut answer.slots);
        answer.number = raw::sample_pose(&lent.of_port(), time, marks, slots);
        answer
    }

    /// Takes over a node's rotation as far as the rule allows.
    fn take_rotation(&mut self, node: usize, rule: Rule, port: &Self) {
        let (mark, at) = (WORDS * node + 1, FLOATS * node + 3);
        if rule == Rule::NotCompared {
            self.marks[mark] = port.marks[mark];
        }
        let rotation = |answer: &Self| from_fn(|k| answer.slots[at + k]);
        let (own, ports) = (rotation(self), rotation(port));
        if rule.allows(&own, &ports) {
            self.slots[at..][..4].copy_from_slice(&ports);
        }
    }

    fn is_same(&self, other: &Self) -> bool {
        (self.number, &self.marks) == (other.number, &other.marks)
            && same_bits(&self.slots, &other.slots)
    }

    fn told(&self) -> String {
        let (number, marks, slots) = (self.number, &self.marks, bits(&self.slots));
        format!("({number}, {marks:x?}, {slots:08x?})")
    }
}

struct Comparison {
    tally: Tally<(usize, usize, u32)>,
    channels: Met<5>,
    given: Met<5>,
    turns: Met<3>,
    rooms: Met<3>,
    refused: Met<3>,
    passed_over: passed_over::Comparison,
}

impl Comparison {
    fn new() -> Self {
        Comparison {
            tally: Tally::new(),
            channels: Met::new([
                "aimed past the nodes",
                "uneven",
                "of another kind",
                "rotations without length",
                "given",
            ]),
            given: Met::new([
                "translations",
                "rotations",
                "scales",
                "weights",
                "over an earlier channel",
            ]),
            turns: Met::new(["straight turns", "turns", "left to the proof"]),
            rooms: Met::new(["more than the nodes", "short words", "short floats"]),
            refused: Met::new(["with 3", "with 5", "with 6"]),
            passed_over: passed_over::Comparison::new(),
        }
    }

    fn count_times(&mut self, moved: &Moved, lent: &[Lent], rng: &mut Rng) {
        for _ in 0..TIMES {
            let time = moved.time(rng);
            let marks = self.room(WORDS, moved.nodes, 1, rng);
            let slots = self.room(FLOATS, moved.nodes, 2, rng);
            let number = moved.number(time, marks, slots);
            for lent in lent {
                let port = Answer::of_port(lent, time, marks, slots);
                let rust = Answer::refused(number, marks, slots);
                self.count(moved, time, rust, &port);
                self.passed_over.count(moved, lent, time);
            }
        }
    }

    /// With the number and the room that are expected.
    fn count(&mut self, moved: &Moved, time: f32, mut rust: Answer, port: &Answer) {
        let names_weights = match rust.number {
            0 => self.put_pose(&mut rust, moved, time, port),
            number => {
                self.refused.count(number as usize / 2 - 1);
                true
            }
        };
        let channels = &moved.animation.channels;
        let size = (channels.len(), moved.nodes, time.to_bits());
        let equal = names_weights && rust.is_same(port);
        self.tally.count(size, equal, |(_, nodes, time)| {
            let targets: Vec<_> = channels.iter().map(|channel| channel.target).collect();
            let tracks: Vec<String> = moved.tracks.iter().map(Track::told).collect();
            let (rust, port) = (rust.told(), port.told());
            format!(
                "{nodes} nodes, {targets:?}, {tracks:?}, time {time:08x}, Rust {rust}, port {port}"
            )
        });
    }

    /// Entries of a slice: mostly for each node and some more.
    fn room(&mut self, width: usize, nodes: usize, short: usize, rng: &mut Rng) -> usize {
        let enough = width * nodes;
        match rng.below(16) {
            0 if nodes > 0 => {
                self.rooms.count(short);
                enough - 1 - rng.below(width as u32) as usize
            }
            1..4 => enough,
            _ => {
                self.rooms.count(0);
                enough + 1 + rng.below(2 * width as u32) as usize
            }
        }
    }

    /// The Rust's pose, with what the rules leave to the port; false where the
    /// port names other weights.
    fn put_pose(&mut self, rust: &mut Answer, moved: &Moved, time: f32, port: &Answer) -> bool {
        let pose = moved.animation.sample_pose(time, moved.nodes);
        let mut rules = vec![Rule::EqualBits; moved.nodes];
        let mut given = Vec::new();
        for (channel, track) in moved.animation.channels.iter().zip(&moved.tracks) {
            let (node, property) = (node_of(channel), channel.target.property);
            let fate = moved.fate(channel, time);
            self.channels.count(fate as usize);
            if property == AnimationProperty::Rotation && fate >= Fate::WithoutLength {
                let rule = self.rule(track, time);
                if fate == Fate::Given || rule == Rule::NotCompared {
                    rules[node] = rule;
                }
            }
            if fate == Fate::Given {
                self.met_given(channel.target, &mut given);
            }
        }
        moved.put_rust_pose(time, &mut rust.marks, &mut rust.slots);
        for (node, rule) in rules.into_iter().enumerate() {
            rust.take_rotation(node, rule, port);
        }
        let words = port.marks.iter().skip(3).step_by(WORDS);
        let mut weights = pose.morph_weights.iter().zip(words);
        weights.all(|(weights, word)| moved.has_weights(weights, *word, time))
    }

    fn rule(&mut self, track: &Track, time: f32) -> Rule {
        let Some(turn) = Turn::of(track, place_of(track.keys(), time)) else {
            return Rule::EqualBits;
        };
        let rule = turn.rule();
        self.turns.count(rule as usize);
        rule
    }

    fn met_given(&mut self, target: AnimationTarget, given: &mut Vec<AnimationTarget>) {
        self.given.count(target.property as usize);
        if given.contains(&target) {
            self.given.count(4);
        }
        given.push(target);
    }

    fn report(&self) -> bool {
        let note = [
            self.rooms.note(),
            String::from("; channels"),
            self.channels.note(),
            self.given.note(),
            self.turns.note(),
            String::from("; refused"),
            self.refused.note(),
        ];
        let equal = [
            self.tally.report("sample_pose", "cases", &note.concat()),
            self.rooms.report(),
            self.channels.report(),
            self.given.report(),
            self.turns.report(),
            self.refused.report(),
            self.passed_over.report(),
        ];
        !equal.contains(&false)
    }
}
