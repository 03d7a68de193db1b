//! One scene as it is lent, in a pose: the calls, what they are to leave, and
//! what is too short for them.

use super::{answers::Answers, poses::Posed};
use crate::tally::{one_nan_bits, UNTOUCHED};
use mesh3d::raw::{self, Placed, Scene};

/// What is lent to `place_floats` beside the tables.
pub const LENT: [&str; 5] = ["walk room", "pose marks", "pose floats", "places", "worlds"];

const SHORT_SCRATCH: u32 = 6;
const SHORT_OUTPUT: u32 = 10;

pub struct Case<'a> {
    pub lent: Scene<'a>,
    pub posed: &'a Posed,
    pub answers: &'a Answers,
}

/// What `place_floats` writes to, floats as their bits with all NaNs one.
#[derive(Debug, PartialEq)]
pub struct Room {
    pub walk: Vec<u32>,
    pub places: Vec<u32>,
    pub worlds: Vec<u32>,
}

impl Case<'_> {
    pub fn nodes(&self) -> usize {
        self.answers.places.len()
    }

    pub fn size(&self) -> (usize, usize) {
        (self.nodes(), self.answers.entries)
    }

    /// With so many slots more than nodes.
    pub fn run_parents(&self, more: usize) -> (u32, Vec<u32>) {
        let mut out = filled(self.nodes() + more);
        (raw::parents(&self.lent, &mut out), out)
    }

    pub fn is_parents_equal(&self, more: usize) -> bool {
        let mut left = filled(self.nodes() + more);
        left[..self.nodes()].copy_from_slice(&self.answers.parents);
        self.run_parents(more) == (0, left)
    }

    /// With one slot too few, where there can be.
    pub fn is_short_parents_refused(&self) -> Option<bool> {
        let slots = self.nodes().checked_sub(1)?;
        Some(self.is_parents_refused(SHORT_OUTPUT, slots))
    }

    fn is_parents_refused(&self, number: u32, slots: usize) -> bool {
        let mut out = filled(slots);
        raw::parents(&self.lent, &mut out) == number && out == filled(slots)
    }

    /// The lengths that suffice.
    pub fn lens(&self) -> [usize; LENT.len()] {
        let nodes = self.nodes();
        let entries = self.answers.entries;
        [2 * entries, 4 * nodes, 10 * nodes, nodes, 16 * nodes]
    }

    pub fn run_places(&self, lens: [usize; LENT.len()]) -> (Placed, Room) {
        let [walk, marks, slots, places, worlds] = lens;
        let (marks, slots) = (&self.posed.marks[..marks], &self.posed.slots[..slots]);
        let (mut walk, mut places) = (filled(walk), filled(places));
        let mut worlds = vec![UNTOUCHED; worlds];
        let answer = raw::place_floats(
            &self.lent,
            marks,
            slots,
            &mut walk,
            &mut places,
            &mut worlds,
        );
        let worlds = bits(&worlds);
        let room = Room {
            walk,
            places,
            worlds,
        };
        (answer, room)
    }

    /// With more than suffices.
    pub fn is_places_equal(&self, more: [usize; LENT.len()]) -> bool {
        let lens = self.more_lens(more);
        let mut left = Room::as_lent(lens);
        left.walk.fill(0);
        left.places[..self.nodes()].copy_from_slice(&self.answers.places);
        left.worlds[..16 * self.nodes()].copy_from_slice(&bits(&self.answers.worlds));
        let answer = Placed {
            number: 0,
            taken: self.answers.taken,
        };
        self.run_places(lens) == (answer, left)
    }

    pub fn told_places(&self, more: [usize; LENT.len()]) -> String {
        let Answers { places, worlds, .. } = self.answers;
        let (taken, worlds) = (self.answers.taken, bits(worlds));
        let port = self.run_places(self.more_lens(more));
        format!("Rust {taken} {places:?} {worlds:x?}, port {port:x?}")
    }

    pub fn more_lens(&self, more: [usize; LENT.len()]) -> [usize; LENT.len()] {
        let mut lens = self.lens();
        lens.iter_mut()
            .zip(more)
            .for_each(|(len, more)| *len += more);
        lens
    }

    /// With one word or float too few of one thing lent, where there can be.
    pub fn is_short_places_refused(&self, of: usize) -> Option<bool> {
        let mut lens = self.lens();
        lens[of] = lens[of].checked_sub(1)?;
        Some(self.is_places_refused(SHORT_SCRATCH, lens))
    }

    fn is_places_refused(&self, number: u32, lens: [usize; LENT.len()]) -> bool {
        self.run_places(lens) == (Placed { number, taken: 0 }, Room::as_lent(lens))
    }

    /// With what the tables draw, whether or not there is room.
    pub fn is_refused(&self, drawn: u32) -> bool {
        let none = [0; LENT.len()];
        self.is_parents_refused(drawn, self.nodes())
            && self.is_parents_refused(drawn, 0)
            && self.is_places_refused(drawn, self.lens())
            && self.is_places_refused(drawn, none)
    }
}

impl Room {
    fn as_lent([walk, _, _, places, worlds]: [usize; LENT.len()]) -> Self {
        Room {
            walk: filled(walk),
            places: filled(places),
            worlds: vec![UNTOUCHED.to_bits(); worlds],
        }
    }
}

/// Words of which each is another, and none a code.
pub fn filled(len: usize) -> Vec<u32> {
    (0xdead_0000..).take(len).collect()
}

fn bits(floats: &[f32]) -> Vec<u32> {
    floats.iter().map(|x| one_nan_bits(*x)).collect()
}
