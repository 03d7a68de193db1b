//! `place` on bytes, compared with what `place_floats` gives on the words and
//! floats in them: whatever the decoding room, 1 and 2 stay, and a short one
//! draws 6. NaN is written 7fc00000; there are as many world slots as both the
//! numbers and the bytes have. Bytes past the last whole word of a slice count
//! for nothing, and all that is not written stays as lent.

use super::case::{filled, Case, Room, LENT};
use crate::{
    in_bytes::{in_long_slices, put, Encoded, LENT_BYTE},
    rng::Rng,
    rooms::{Decoding, PlaceRoom},
    tally::{one_nan_bits, Met, Tally, UNTOUCHED},
};
use mesh3d::raw::Placed;
use std::array::from_fn;

const SHORT_SCRATCH: u32 = 6;

pub struct Comparison {
    tally: Tally<(usize, usize)>,
    met: Met<5>,
}

/// What is lent to a call beside the scene and the pose: world slots in more
/// numbers or more bytes than in the other.
struct Lent {
    decoding: Decoding,
    walk: usize,
    numbers: [usize; 2],
    bytes: [usize; 2],
}

impl Comparison {
    pub fn new() -> Self {
        Comparison {
            tally: Tally::new(),
            met: Met::new([
                "placed",
                "NaN",
                "refused",
                "short decoding room",
                "lower than 6 with one",
            ]),
        }
    }

    /// With so many words and floats lent.
    pub fn count(&mut self, case: &Case, lens: [usize; LENT.len()], rng: &mut Rng) {
        let odd = from_fn(|_| rng.below(4) as usize);
        let lent = Lent::new(case, lens, rng);
        let floats = of_floats(case, lens, &lent);
        let bytes = of_bytes(case, lens, &lent, odd);
        self.met_answer(&floats, lent.decoding.is_short(&case.lent));
        self.tally.count(case.size(), floats == bytes, |_| {
            format!("from floats {floats:02x?}, from bytes {bytes:02x?}")
        });
    }

    /// Each slice of the scene longer than it need be.
    pub fn count_in_long_slices(&mut self, case: &Case, rng: &mut Rng) {
        in_long_slices(case.lent, |lent| {
            let case = Case { lent, ..*case };
            self.count(&case, case.lens(), rng);
        });
    }

    fn met_answer(&mut self, answer: &Answer, is_short: bool) {
        let number = answer.told.number;
        self.met.count(if number == 0 { 0 } else { 2 });
        let nan = 0x7fc0_0000u32.to_le_bytes();
        let has_nan = answer.worlds.chunks(4).any(|bytes| bytes == nan);
        let is_lower = is_short && number < SHORT_SCRATCH;
        self.met
            .count_all(&[false, has_nan, false, is_short, is_lower]);
    }

    pub fn report(&self) -> bool {
        let equal = self
            .tally
            .report("place on bytes", "cases", &self.met.note());
        self.met.report() && equal
    }
}

impl Lent {
    /// Where there are as many world slots as `lens` says.
    fn new(case: &Case, lens: [usize; LENT.len()], rng: &mut Rng) -> Self {
        let decoding = Decoding::lent(&case.lent, rng);
        let more: [usize; 2] = from_fn(|_| rng.below(3) as usize);
        let is_of_numbers = rng.below(2) == 0;
        let len = |k: usize, is_longer: bool| lens[3 + k] + if is_longer { more[k] } else { 0 };
        Lent {
            decoding,
            walk: lens[0],
            numbers: from_fn(|k| len(k, is_of_numbers)),
            bytes: from_fn(|k| 4 * len(k, !is_of_numbers) + rng.below(4) as usize),
        }
    }

    fn room(&self) -> PlaceRoom {
        PlaceRoom {
            walk: filled(self.walk),
            codes: filled(self.numbers[0]),
            matrices: vec![UNTOUCHED; self.numbers[1]],
            places: vec![LENT_BYTE; self.bytes[0]],
            worlds: vec![LENT_BYTE; self.bytes[1]],
        }
    }
}

/// What a call answers, and the bits in all that it is lent, all NaNs being one.
#[derive(Debug, PartialEq)]
struct Answer {
    told: Placed,
    decoding: [Vec<u32>; 2],
    walk: Vec<u32>,
    codes: Vec<u32>,
    matrices: Vec<u32>,
    places: Vec<u8>,
    worlds: Vec<u8>,
}

impl Answer {
    fn of(told: Placed, decoding: &Decoding, room: PlaceRoom) -> Self {
        Answer {
            told,
            decoding: decoding.bits(),
            walk: room.walk,
            codes: room.codes,
            matrices: room.matrices.iter().map(|x| one_nan_bits(*x)).collect(),
            places: room.places,
            worlds: room.worlds,
        }
    }
}

fn of_floats(case: &Case, lens: [usize; LENT.len()], lent: &Lent) -> Answer {
    let (mut told, left) = case.run_places(lens);
    if lent.decoding.is_short(&case.lent) && told.number == 0 {
        told = Placed {
            number: SHORT_SCRATCH,
            taken: 0,
        };
    }
    let mut decoding = lent.decoding.clone();
    let mut answer = Answer::of(told, &decoding, lent.room());
    if told.number == 0 {
        let Room {
            walk,
            places,
            worlds,
        } = left;
        let nodes = case.nodes();
        decoding.put(&case.lent);
        answer.decoding = decoding.bits();
        answer.walk = walk;
        answer.codes[..nodes].copy_from_slice(&places[..nodes]);
        answer.matrices[..16 * nodes].copy_from_slice(&worlds[..16 * nodes]);
        put(&places[..nodes], &mut answer.places);
        put(&worlds[..16 * nodes], &mut answer.worlds);
    }
    answer
}

fn of_bytes(case: &Case, lens: [usize; LENT.len()], lent: &Lent, odd: [usize; 4]) -> Answer {
    let scene = Encoded::of(&case.lent, odd);
    let mut decoding = lent.decoding.clone();
    let mut room = lent.room();
    let told = room.place(
        &scene.lent(),
        &mut decoding,
        &case.posed.marks[..lens[1]],
        &case.posed.slots[..lens[2]],
    );
    Answer::of(told, &decoding, room)
}
