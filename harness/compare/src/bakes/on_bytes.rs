//! `bake` on bytes, compared with what `bake_floats` gives on the words and
//! floats in them: whatever the decoding room, 1 to 6 stay, and a short one draws
//! 6. Past 7 it holds the scene, and is otherwise as lent. An output has as much
//! room as both its floats and its bytes have, and bytes past the last whole word
//! of a slice count for nothing.

use super::{
    case::{bits_of, room, Case, Lens, LENT, SCRATCH},
    NUMBERS,
};
use crate::{
    in_bytes::{in_long_slices, put, Encoded, LENT_BYTE},
    rng::Rng,
    rooms::{BakeRoom, ByteOutputs, Decoding},
    tally::{one_nan_bits, Met, Tally},
};
use mesh3d::raw::Baked;
use std::array::from_fn;

/// Of the cases that are refused, one in so many.
const EVERY: u64 = 64;
const CASES: u64 = 20_000;
const SHORT_SCRATCH: u32 = 6;
/// The first number after which the scratch room is changed.
const UNPLACED: u32 = 8;

pub struct Comparison {
    tally: Tally<(usize, usize)>,
    rng: Rng,
    refused: u64,
    compared: Met<1>,
    numbers: Met<{ NUMBERS.len() }>,
    met: Met<6>,
}

/// What is lent to a call beside the scene: outputs in more floats or more bytes
/// than in the other.
struct Lent {
    decoding: Decoding,
    floats: [usize; 3],
    bytes: [usize; 3],
}

/// What a call answers, and the bits in all that it is lent, all NaNs being one.
#[derive(Debug, PartialEq)]
struct Left {
    told: Baked,
    decoding: [Vec<u32>; 2],
    room: [Vec<u32>; LENT.len()],
    outputs: ByteOutputs,
}

impl Comparison {
    pub fn new() -> Self {
        Comparison {
            tally: Tally::new(),
            rng: Rng::new(13),
            refused: 0,
            compared: Met::new(["compared"]),
            numbers: Met::new(["1", "2", "3", "5", "6", "7", "8", "9", "10"]),
            met: Met::new([
                "baked",
                "NaN",
                "short decoding room",
                "lower than 6 with one",
                "more floats",
                "more bytes",
            ]),
        }
    }

    /// Takes some of these.
    pub fn count_refused(&mut self, case: &Case, node: u32, lens: Lens) {
        self.refused += 1;
        if self.refused.is_multiple_of(EVERY) {
            self.count(case, node, lens);
        }
    }

    pub fn count(&mut self, case: &Case, node: u32, lens: Lens) {
        let odd = from_fn(|_| self.rng.below(4) as usize);
        let lent = Lent::new(case, lens, &mut self.rng);
        let floats = of_floats(case, node, lens, &lent);
        let bytes = of_bytes(case, node, lens, &lent, odd);
        self.meet(&floats, &lent, case);
        self.tally.count(case.size(), floats == bytes, |_| {
            let asked = format!("node {node} with {lens:?} and {odd:?}");
            format!("{asked}, from floats {floats:02x?}, from bytes {bytes:02x?}")
        });
    }

    /// Each slice of the scene longer than it need be, and more room than is used.
    pub fn count_in_long_slices(&mut self, case: &Case, node: u32) {
        let lens = case.lens(node).map(|len| len + 70_000);
        in_long_slices(case.lent, |lent| {
            let case = Case::new(case.scene, case.moved, lent, case.time);
            self.count(&case, node, lens);
        });
    }

    fn meet(&mut self, left: &Left, lent: &Lent, case: &Case) {
        self.compared.count(0);
        let number = left.told.number;
        match NUMBERS.iter().position(|known| *known == number) {
            Some(k) => self.numbers.count(k),
            None => self.met.count(0),
        }
        let nan = 0x7fc0_0000u32.to_le_bytes();
        let has_nan = left.outputs.positions.chunks(4).any(|bytes| bytes == nan);
        let is_short = lent.decoding.is_short(&case.lent);
        self.met.count_all(&[
            false,
            has_nan,
            is_short,
            is_short && number < SHORT_SCRATCH,
            lent.floats.iter().zip(lent.bytes).any(|(n, m)| *n > m / 4),
            lent.floats.iter().zip(lent.bytes).any(|(n, m)| *n < m / 4),
        ]);
    }

    pub fn report(&self) -> bool {
        let note = [
            self.met.note(),
            String::from("; refused with"),
            self.numbers.note(),
        ];
        let all = [
            self.tally.report("bake on bytes", "cases", &note.concat()),
            self.compared.report_least(CASES),
            self.met.report(),
            self.numbers.report(),
        ];
        !all.contains(&false)
    }
}

impl Lent {
    /// Where the outputs have as much room as `lens` says.
    fn new(case: &Case, lens: Lens, rng: &mut Rng) -> Self {
        let decoding = Decoding::lent(&case.lent, rng);
        let more: [usize; 3] = from_fn(|_| rng.below(3) as usize);
        let is_of_floats = rng.below(2) == 0;
        let len =
            |k: usize, is_longer: bool| lens[SCRATCH + k] + if is_longer { more[k] } else { 0 };
        Lent {
            decoding,
            floats: from_fn(|k| len(k, is_of_floats)),
            bytes: from_fn(|k| 4 * len(k, !is_of_floats) + rng.below(4) as usize),
        }
    }

    fn lens(&self, lens: Lens) -> Lens {
        from_fn(|k| {
            if k < SCRATCH {
                lens[k]
            } else {
                self.floats[k - SCRATCH]
            }
        })
    }

    fn outputs(&self) -> ByteOutputs {
        let [positions, normals, tangents] = self.bytes.map(|len| vec![LENT_BYTE; len]);
        ByteOutputs {
            positions,
            normals,
            tangents,
        }
    }
}

fn of_floats(case: &Case, node: u32, lens: Lens, lent: &Lent) -> Left {
    let mut left = room(lens);
    let mut told = left.bake(&case.lent, node, case.time);
    let is_early = (1..=SHORT_SCRATCH).contains(&told.number);
    if lent.decoding.is_short(&case.lent) && !is_early {
        told = Baked {
            number: SHORT_SCRATCH,
            ..Baked::default()
        };
    }
    let mut decoding = lent.decoding.clone();
    let mut whole = room(lent.lens(lens));
    let mut outputs = lent.outputs();
    if told.number == 0 || told.number >= UNPLACED {
        decoding.put(&case.lent);
        put_room(&left, &mut whole);
        put(
            &one_nan(&left.positions[..told.positions]),
            &mut outputs.positions,
        );
        put(
            &one_nan(&left.normals[..told.normals]),
            &mut outputs.normals,
        );
        put(
            &one_nan(&left.tangents[..told.tangents]),
            &mut outputs.tangents,
        );
    }
    Left {
        told,
        decoding: decoding.bits(),
        room: bits_of(&whole),
        outputs,
    }
}

/// Whether a bake on bytes with just enough room is accepted.
pub fn is_baked(case: &Case, node: u32, lens: Lens) -> bool {
    let lent = Lent {
        decoding: Decoding::enough(&case.lent),
        floats: from_fn(|k| lens[SCRATCH + k]),
        bytes: from_fn(|k| 4 * lens[SCRATCH + k]),
    };
    of_bytes(case, node, lens, &lent, [0; 4]).told.number == 0
}

/// The outputs may be longer.
fn put_room(left: &BakeRoom, whole: &mut BakeRoom) {
    whole.walk.copy_from_slice(&left.walk);
    whole.marks.copy_from_slice(&left.marks);
    whole.slots.copy_from_slice(&left.slots);
    whole.places.copy_from_slice(&left.places);
    whole.worlds.copy_from_slice(&left.worlds);
    whole.positions[..left.positions.len()].copy_from_slice(&left.positions);
    whole.normals[..left.normals.len()].copy_from_slice(&left.normals);
    whole.tangents[..left.tangents.len()].copy_from_slice(&left.tangents);
}

fn one_nan(floats: &[f32]) -> Vec<u32> {
    floats.iter().map(|x| one_nan_bits(*x)).collect()
}

fn of_bytes(case: &Case, node: u32, lens: Lens, lent: &Lent, odd: [usize; 4]) -> Left {
    let scene = Encoded::of(&case.lent, odd);
    let mut decoding = lent.decoding.clone();
    let mut room = room(lent.lens(lens));
    let mut outputs = lent.outputs();
    let asked = (node, case.time.to_bits());
    let told = room.bake_bytes(&scene.lent(), asked, &mut decoding, &mut outputs);
    Left {
        told,
        decoding: decoding.bits(),
        room: bits_of(&room),
        outputs,
    }
}
