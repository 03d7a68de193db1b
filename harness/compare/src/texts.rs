//! Scenes as bracketed text: the reader and the writer beside plain ones, which
//! are written from docs/TEXT.md and docs/TABLES.md, not from the code.

mod breaks;
mod damages;
mod example;
mod hostile;
mod items;
mod reader;
mod round_trip;
mod samples;
mod scenes;
mod schema;
mod slices;
mod sorts;
pub mod speed;
mod writer;

const SCENES: usize = 10_000;
const DAMAGED: usize = 100_000;
/// Of the long run, which has other scenes.
const LONG_SCENES: usize = 100_000;
const LONG_DAMAGED: usize = 1_000_000;

pub fn compare() -> bool {
    compare_texts(SCENES, DAMAGED, 10)
}

pub fn compare_long() -> bool {
    compare_texts(LONG_SCENES, LONG_DAMAGED, 11)
}

/// Runs every comparison, even after one that differs.
fn compare_texts(scenes: usize, damaged: usize, seed: u64) -> bool {
    let equal = [
        example::compare(),
        samples::compare(),
        round_trip::compare(scenes, seed),
        hostile::compare(damaged, seed),
    ];
    !equal.contains(&false)
}
