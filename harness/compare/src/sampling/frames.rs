//! `morph_weight_frame`, `morph_weight_cubic_frame` and `morph_weight_stride`. The
//! Rust's None is 4 where the layout is not even, and otherwise 12, or a stride
//! of 0; its three rows are one part here. Keys are not looked at. An output that
//! is shorter than the frame draws 10, and stays as lent.

use super::{
    bits, same_bits,
    tracks::{small, Track},
};
use crate::{
    rng::Rng,
    tally::{Met, Tally, UNTOUCHED},
};
use mesh3d::raw::{self, Told};

const TRACKS: usize = 200_000;
/// Past the end of a frame.
const SPARE: usize = 2;
const SHORT_OUTPUT: u32 = 10;

pub fn compare() -> bool {
    let mut comparison = Comparison::new();
    let mut rng = Rng::new(2);
    for _ in 0..TRACKS {
        let track = small(&mut rng);
        comparison.count_stride(&track);
        let keys = track.keys().len();
        let beyond = rng.below(1 << 20) as usize;
        for k in [0, keys / 2, keys.wrapping_sub(1), keys, keys + beyond] {
            comparison.count(&track, false, k);
            comparison.count(&track, true, k);
        }
    }
    comparison.report()
}

struct Comparison {
    frames: Tally<(usize, usize)>,
    strides: Tally<usize>,
    met: Met<6>,
    rooms: Met<4>,
}

impl Comparison {
    fn new() -> Self {
        Comparison {
            frames: Tally::new(),
            strides: Tally::new(),
            met: Met::new([
                "weights",
                "three rows",
                "with keys out of line",
                "refused with 2",
                "with 4",
                "with 12",
            ]),
            rooms: Met::new(["to spare", "just enough", "one short", "empty"]),
        }
    }

    /// With room to spare, just enough, one float short, and none.
    fn count(&mut self, track: &Track, rows: bool, k: usize) {
        let part = rust_frame(track, rows, k);
        let number = number(track, &part);
        let part = part.filter(|_| number == 0).unwrap_or_default();
        self.met_frame(track, rows, number);
        let len = part.len();
        for room in [len + SPARE, len, len.saturating_sub(1), 0] {
            self.met_room(len, room);
            let number = if room < len { SHORT_OUTPUT } else { number };
            self.count_with(track, (rows, k), (number, &part), room);
        }
    }

    /// Of a frame, whose number and floats are expected, with so much room.
    fn count_with(
        &mut self,
        track: &Track,
        (rows, k): (bool, usize),
        (number, part): (u32, &[f32]),
        room: usize,
    ) {
        let written = if number == 0 { part } else { &[] };
        let mut expected = written.to_vec();
        expected.resize(room, UNTOUCHED);
        let mut out = vec![UNTOUCHED; room];
        let told = raw::frame(&track.of_port(), rows, k, &mut out);
        let count = written.len();
        let equal = told == Told { number, count } && same_bits(&expected, &out);
        self.frames.count((track.keys().len(), k), equal, |_| {
            let (track, rust, port) = (track.told(), bits(&expected), bits(&out));
            format!("{track}, frame {k}, rows {rows}, Rust {number} {rust:08x?}, port {told:?} {port:08x?}")
        });
    }

    fn met_room(&mut self, len: usize, room: usize) {
        self.rooms.count_all(&[
            room > len,
            room == len && len > 0,
            room + 1 == len,
            room == 0 && len > 0,
        ]);
    }

    fn count_stride(&mut self, track: &Track) {
        if track.is_over_limit() {
            return;
        }
        let (rust, port) = (track.stride(), raw::stride(&track.of_port()));
        self.strides.count(track.keys().len(), port == rust, |_| {
            format!("{}, Rust {rust}, port {port}", track.told())
        });
    }

    fn met_frame(&mut self, track: &Track, rows: bool, number: u32) {
        self.met.count(match number {
            0 => usize::from(rows),
            2 => 3,
            4 => 4,
            _ => 5,
        });
        if number == 0 && !track.has_keys_in_line() {
            self.met.count(2);
        }
    }

    fn report(&self) -> bool {
        let note = format!("{}; room{}", self.met.note(), self.rooms.note());
        let equal = [
            self.frames.report("morph frames", "cases", &note),
            self.met.report(),
            self.rooms.report(),
            self.strides.report("morph_weight_stride", "tracks", ""),
        ];
        !equal.contains(&false)
    }
}

fn rust_frame(track: &Track, rows: bool, k: usize) -> Option<Vec<f32>> {
    if rows {
        let (a, v, b) = track.sampler.morph_weight_cubic_frame(k)?;
        return Some([a, v, b].concat());
    }
    track.sampler.morph_weight_frame(k).map(<[f32]>::to_vec)
}

fn number(track: &Track, part: &Option<Vec<f32>>) -> u32 {
    match part {
        _ if track.is_over_limit() => 2,
        Some(_) => 0,
        None if track.is_even() => 12,
        None => 4,
    }
}
