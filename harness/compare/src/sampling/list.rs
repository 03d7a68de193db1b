//! A fixed list of the Rust's samples, which a program replays against the port
//! without Rust. A line has 41 fields of eight hexadecimal digits, each with a
//! blank or the line's end behind it:
//!
//! ```text
//! 0, 1    kind (0 Vec3, 1 Quat, 2 scalars) and interpolation (0 Step, 1 Linear, 2 CubicSpline)
//! 2, 3    how many keys and values there are
//! 4       the bits of the time
//! 5, 6    4 for the Rust's None, else 0, and how many numbers it gave
//! 7..11   the bits of these, zeros behind them
//! 11..41  the bits of the keys, then of the values, zeros behind them
//! ```
//!
//! NaN is written 7fc00000. The turns come from the C library's `acosf` and
//! `sinf`, so that another C library may give other last digits.

use super::{
    tracks::{of_sort, time, Track, INTERPOLATIONS, KINDS},
    values::is_compared,
};
use crate::{rng::Rng, tally::one_nan_bits};
use oracle::SampledValue;
use std::io::{self, BufWriter, Write};

const LINES_OF_EACH_SORT: usize = 64;
const NUMBERS: usize = 4;
const FLOATS: usize = 30;

pub fn write(out: &mut impl Write) -> io::Result<()> {
    let mut out = BufWriter::new(out);
    let mut rng = Rng::new(3);
    for kind in KINDS {
        for interpolation in INTERPOLATIONS {
            for _ in 0..LINES_OF_EACH_SORT {
                let (track, time) = loop {
                    let keys = rng.one_of(&[0, 1, 2, 2, 2, 3, 3, 3]);
                    let track = of_sort(&mut rng, kind, interpolation, keys);
                    let time = time(&mut rng, track.keys());
                    if fits(&track, time) {
                        break (track, time);
                    }
                };
                write_line(&mut out, &track, time)?;
            }
        }
    }
    out.flush()
}

fn fits(track: &Track, time: f32) -> bool {
    let floats = track.keys().len() + track.values().len();
    floats <= FLOATS && track.stride() <= NUMBERS && is_compared(track, time)
}

fn write_line(out: &mut impl Write, track: &Track, time: f32) -> io::Result<()> {
    let sampled = track.sampler.sample(time);
    let number = if sampled.is_some() { 0 } else { 4 };
    let mut numbers = match sampled {
        None => Vec::new(),
        Some(SampledValue::Vec3(v)) => v.to_vec(),
        Some(SampledValue::Quat(q)) => q.to_vec(),
        Some(SampledValue::Scalar(weights)) => weights,
    };
    let lent = track.of_port();
    let head = [
        lent.kind,
        lent.interpolation,
        lent.keys_count as u32,
        lent.values_count as u32,
        one_nan_bits(time),
        number,
        numbers.len() as u32,
    ];
    numbers.resize(NUMBERS, 0.0);
    let mut floats = [track.keys(), track.values()].concat();
    floats.resize(FLOATS, 0.0);
    let bits = numbers.iter().chain(&floats).map(|x| one_nan_bits(*x));
    let fields: Vec<String> = head
        .into_iter()
        .chain(bits)
        .map(|field| format!("{field:08x}"))
        .collect();
    writeln!(out, "{}", fields.join(" "))
}
