//! Tracks that every call refuses, whatever else applies, and leaves what it is
//! lent: offsets and counts that leave the table draw 1, a kind or interpolation
//! that names nothing 2, unless the track leaves the table too. The Rust knows no
//! such thing.

use super::tracks::small;
use crate::{
    rng::Rng,
    tally::{Met, Tally, UNTOUCHED},
};
use mesh3d::raw::{self, Told};

const TRACKS: usize = 100_000;

pub fn compare() -> bool {
    let equal = [compare_places(), compare_names()];
    !equal.contains(&false)
}

fn compare_places() -> bool {
    let mut tally = Tally::new();
    let mut met = Met::new([
        "keys' start",
        "keys' count",
        "values' start",
        "values' count",
    ]);
    let mut rng = Rng::new(4);
    for _ in 0..TRACKS {
        let whole = small(&mut rng);
        let mut track = whole.of_port();
        let changed = leave(&mut rng, &mut track);
        met.count(changed);
        let equal = is_refused(&track, 1, &mut rng);
        tally.count(track.floats.len(), equal, |_| whole.told());
    }
    let equal = tally.report("out of the table", "tracks", &met.note());
    met.report() && equal
}

fn compare_names() -> bool {
    let mut tally = Tally::new();
    let mut met = Met::new(["kind", "interpolation", "both", "out of the table too"]);
    let mut rng = Rng::new(6);
    for _ in 0..TRACKS {
        let whole = small(&mut rng);
        let mut track = whole.of_port();
        let changed = rng.below(3) as usize;
        if changed != 1 {
            track.kind = nameless(&mut rng);
        }
        if changed != 0 {
            track.interpolation = nameless(&mut rng);
        }
        met.count(changed);
        let leaves = rng.below(4) == 0;
        if leaves {
            leave(&mut rng, &mut track);
            met.count(3);
        }
        let number = if leaves { 1 } else { 2 };
        let equal = is_refused(&track, number, &mut rng);
        tally.count(track.floats.len(), equal, |_| {
            let (kind, interpolation) = (track.kind, track.interpolation);
            let track = whole.told();
            format!("not {number}: kind {kind}, interpolation {interpolation}, {track}")
        });
    }
    let equal = tally.report("nameless kinds", "tracks", &met.note());
    met.report() && equal
}

/// A number above those that name a kind or an interpolation.
fn nameless(rng: &mut Rng) -> u32 {
    rng.one_of(&[3, 4, 1 << 16, 1 << 31, u32::MAX])
}

/// Sets one of the four places and counts past the table, and tells which.
fn leave(rng: &mut Rng, track: &mut raw::Track) -> usize {
    let past = past(rng, track.floats.len());
    let changed = rng.below(4) as usize;
    *match changed {
        0 => &mut track.keys_at,
        1 => &mut track.keys_count,
        2 => &mut track.values_at,
        _ => &mut track.values_count,
    } = past;
    changed
}

/// Just past the end, or so far that a product or a sum would wrap.
fn past(rng: &mut Rng, len: usize) -> usize {
    const FAR: usize = usize::MAX;
    rng.one_of(&[
        len + 1,
        len + 2,
        FAR,
        FAR - len,
        FAR / 2 + 1,
        FAR / 3 + 1,
        FAR / 4 + 1,
    ])
}

/// By each call, on floats and on bytes, at any time and with any room; without
/// any to decode into.
fn is_refused(track: &raw::Track, number: u32, rng: &mut Rng) -> bool {
    let time = rng.one_of(&[0.0, 0.5, f32::NAN]);
    let (mut value, mut out) = ([UNTOUCHED; 4], vec![UNTOUCHED; rng.below(9) as usize]);
    let told = [
        raw::sample(track, time, &mut value, &mut out),
        raw::frame(track, false, 0, &mut out),
        raw::frame(track, true, 0, &mut out),
    ];
    let number_alone = Told { number, count: 0 };
    let untouched = |x: &f32| x.to_bits() == UNTOUCHED.to_bits();
    told == [number_alone; 3]
        && raw::stride(track) == 0
        && value.iter().chain(&out).all(untouched)
        && is_refused_in_bytes(track, number_alone, time, out.len())
}

fn is_refused_in_bytes(track: &raw::Track, number_alone: Told, time: f32, room: usize) -> bool {
    const LENT: u8 = 0xa5;
    let table: Vec<u8> = track.floats.iter().flat_map(|x| x.to_le_bytes()).collect();
    let (mut value, mut out) = ([LENT; 16], vec![LENT; 4 * room]);
    let told = raw::sample_bytes(track, &table, time.to_bits(), &mut [], &mut value, &mut out);
    told == number_alone && value.iter().chain(&out).all(|x| *x == LENT)
}
