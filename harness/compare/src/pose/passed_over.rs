//! The channels that a pose passes over, asked for one after the other, beside
//! what becomes of each channel in the Rust. Where the rule of `sample`
//! compares nothing of a turn, either side may find it without length.

use super::{moved::Fate, Moved, FLOATS, WORDS};
use crate::{
    sampling::{
        tracks::Track,
        values::{place_of, Rule, Turn},
    },
    tables::layout::Lent,
    tally::{Met, Tally},
};
use mesh3d::raw::{self, PassedOver};

const NO_LENGTH: u32 = Fate::WithoutLength as u32 + 1;

/// The number, and of each channel the reason or 0.
type Told = (u32, Vec<u32>);

pub struct Comparison {
    tally: Tally<(usize, usize, u32)>,
    reasons: Met<5>,
    refused: Met<2>,
}

impl Comparison {
    pub fn new() -> Self {
        Comparison {
            tally: Tally::new(),
            reasons: Met::new([
                "give a value",
                "no such node",
                "uneven",
                "kind does not fit",
                "no length",
            ]),
            refused: Met::new(["with 3", "with 5"]),
        }
    }

    pub fn count(&mut self, moved: &Moved, lent: &Lent, time: f32) {
        let (rust, port) = (of_rust(moved, time), of_port(moved, lent, time));
        match rust.0 {
            0 => { rust.1.iter() }.for_each(|reason| self.reasons.count(*reason as usize)),
            number => self.refused.count(number as usize / 2 - 1),
        }
        let equal = port.as_ref().is_some_and(|port| {
            let mut channels = rust.1.iter().zip(&port.1).zip(&moved.tracks);
            (rust.0, rust.1.len()) == (port.0, port.1.len())
                && channels.all(|((rust, port), track)| {
                    rust == port || is_open(track, time) && rust.abs_diff(*port) == NO_LENGTH
                })
        });
        let size = (moved.tracks.len(), moved.nodes, time.to_bits());
        self.tally.count(size, equal, |(_, nodes, time)| {
            let tracks: Vec<String> = moved.tracks.iter().map(Track::told).collect();
            format!("{nodes} nodes, {tracks:?}, time {time:08x}, Rust {rust:?}, port {port:?}")
        });
    }

    pub fn report(&self) -> bool {
        let refused = ["; refused", &self.refused.note()[..]].concat();
        let note = [self.reasons.note(), refused].concat();
        let equal = [
            self.tally.report("channels passed over", "cases", &note),
            self.reasons.report(),
            self.refused.report(),
        ];
        !equal.contains(&false)
    }
}

fn of_rust(moved: &Moved, time: f32) -> Told {
    let number = moved.number(time, WORDS * moved.nodes, FLOATS * moved.nodes);
    let channels = moved.animation.channels.iter();
    let reasons = channels.map(|channel| match moved.fate(channel, time) {
        Fate::Given => 0,
        fate => fate as u32 + 1,
    });
    (
        number,
        if number == 0 {
            reasons.collect()
        } else {
            Vec::new()
        },
    )
}

/// None where a channel is told that was not asked for.
fn of_port(moved: &Moved, lent: &Lent, time: f32) -> Option<Told> {
    let mut reasons = vec![0; moved.tracks.len()];
    let mut from = 0;
    loop {
        let found = raw::find_passed_over(&lent.of_port(), time, from);
        match found {
            PassedOver {
                number: 0,
                reason: 0,
                channel: 0,
            } => return Some((0, reasons)),
            PassedOver {
                number: 0,
                reason,
                channel,
            } if reason > 0 && channel >= from => {
                *reasons.get_mut(channel)? = reason;
                from = channel + 1;
            }
            PassedOver {
                number,
                reason: 0,
                channel: 0,
            } => return Some((number, Vec::new())),
            _ => return None,
        }
    }
}

fn is_open(track: &Track, time: f32) -> bool {
    let turn = Turn::of(track, place_of(track.keys(), time));
    turn.is_some_and(|turn| turn.rule() == Rule::NotCompared)
}
