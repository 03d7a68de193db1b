//! `sample` on bytes, compared with what `sample_floats` gives on the floats in
//! them: whatever the decoding room, 1 to 5 stay, and a short one draws 6; after 0
//! and 10 it holds the floats. NaN is written 7fc00000; bytes past the last whole
//! float of a slice count for nothing, and all that is not written stays as lent.

use crate::{
    rng::Rng,
    tally::{one_nan_bits, Met, Tally, UNTOUCHED},
};
use mesh3d::raw::{self, Told, Track};

/// The floats of a long table.
const LONG_TABLE: usize = 70_000;
const LENT: u8 = 0xa5;
const SHORT_SCRATCH: u32 = 6;
const SHORT_OUTPUT: u32 = 10;

pub struct Comparison {
    tally: Tally<(usize, u32)>,
    met: Met<9>,
    rng: Rng,
}

impl Comparison {
    pub fn new() -> Self {
        Comparison {
            tally: Tally::new(),
            met: Met::new([
                "values",
                "weights",
                "NaN",
                "refused",
                "long tables",
                "odd tables",
                "odd rooms",
                "short decoding room",
                "lower than 6 with one",
            ]),
            rng: Rng::new(5),
        }
    }

    pub fn count(&mut self, track: &Track, time: f32, room: usize) {
        let (table_odd, room_odd) = (self.rng.below(4) as usize, self.rng.below(4) as usize);
        let len = 4 * room + room_odd;
        let mut table = vec![LENT; 4 * track.floats.len() + table_odd];
        for (bytes, x) in table.chunks_exact_mut(4).zip(track.floats) {
            bytes.copy_from_slice(&x.to_le_bytes());
        }
        let decoding = match self.rng.below(8) {
            0 => track.floats.len().saturating_sub(1),
            more => track.floats.len() + more as usize - 1,
        };
        let floats = Answer::of_floats(track, time, len, decoding);
        let bytes = Answer::of_bytes(track, &table, time, len, decoding);
        self.met_answer(track, &floats);
        if table_odd > 0 {
            self.met.count(5);
        }
        if room_odd > 0 {
            self.met.count(6);
        }
        let input = (table.len(), time.to_bits());
        self.tally.count(input, floats == bytes, |(len, time)| {
            format!("table of {len} bytes, time {time:08x}, from floats {floats:02x?}, from bytes {bytes:02x?}")
        });
    }

    /// Of a long table: keys and values at its ends, or one float past them.
    pub fn count_long(&mut self) {
        let len = LONG_TABLE;
        for (keys_at, values_at) in [(0, len - 3), (len, 0), (0, len - 2)] {
            let track = Track {
                floats: &vec![0.5; len],
                kind: 0,
                interpolation: 0,
                keys_at,
                keys_count: 1,
                values_at,
                values_count: 1,
            };
            for time in [0.5, 0.75, f32::NAN] {
                self.count(&track, time, 0);
            }
        }
    }

    fn met_answer(&mut self, track: &Track, answer: &Answer) {
        match answer.told {
            Told { number: 0, count } => self.met.count(usize::from(count > 0)),
            _ => self.met.count(3),
        }
        if answer.has_nan() {
            self.met.count(2);
        }
        if track.floats.len() == LONG_TABLE {
            self.met.count(4);
        }
        if answer.decoding.len() < track.floats.len() {
            self.met.count(7);
            if answer.told.number < SHORT_SCRATCH {
                self.met.count(8);
            }
        }
    }

    pub fn report(&self) -> bool {
        let equal = self
            .tally
            .report("sample on bytes", "cases", &self.met.note());
        self.met.report() && equal
    }
}

/// What a call answers, and leaves in what it is lent, all NaNs being one.
#[derive(Debug, PartialEq)]
struct Answer {
    told: Told,
    decoding: Vec<u32>,
    value: [u8; 16],
    out: Vec<u8>,
}

impl Answer {
    fn refused(number: u32, len: usize, decoding: usize) -> Self {
        Answer {
            told: Told { number, count: 0 },
            decoding: vec![UNTOUCHED.to_bits(); decoding],
            value: [LENT; 16],
            out: vec![LENT; len],
        }
    }

    fn of_floats(track: &Track, time: f32, len: usize, decoding: usize) -> Self {
        let (mut value, mut out) = ([UNTOUCHED; 4], vec![UNTOUCHED; len / 4]);
        let told = raw::sample(track, time, &mut value, &mut out);
        let is_early = (1..SHORT_SCRATCH).contains(&told.number);
        if decoding < track.floats.len() && !is_early {
            return Answer::refused(SHORT_SCRATCH, len, decoding);
        }
        let mut answer = Answer::refused(told.number, len, decoding);
        answer.told.count = told.count;
        if told.number == 0 || told.number == SHORT_OUTPUT {
            let floats = track.floats.iter().map(|x| one_nan_bits(*x));
            answer
                .decoding
                .iter_mut()
                .zip(floats)
                .for_each(|(bits, x)| *bits = x);
        }
        let numbers = match (told.number, track.kind) {
            (0, 0) => 3,
            (0, 1) => 4,
            _ => 0,
        };
        put(&value[..numbers], &mut answer.value);
        put(&out[..told.count], &mut answer.out);
        answer
    }

    fn of_bytes(track: &Track, table: &[u8], time: f32, len: usize, decoding: usize) -> Self {
        let mut answer = Answer::refused(0, len, decoding);
        let mut room = vec![UNTOUCHED; decoding];
        answer.told = raw::sample_bytes(
            track,
            table,
            time.to_bits(),
            &mut room,
            &mut answer.value,
            &mut answer.out,
        );
        answer.decoding = room.iter().map(|x| one_nan_bits(*x)).collect();
        answer
    }

    fn has_nan(&self) -> bool {
        let nan = 0x7fc0_0000u32.to_le_bytes();
        let mut floats = self.value.chunks(4).chain(self.out.chunks(4));
        floats.any(|bytes| bytes == nan)
    }
}

fn put(floats: &[f32], bytes: &mut [u8]) {
    for (bytes, x) in bytes.chunks_exact_mut(4).zip(floats) {
        bytes.copy_from_slice(&one_nan_bits(*x).to_le_bytes());
    }
}
