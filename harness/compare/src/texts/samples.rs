//! The two published samples of crates/samples/stdin (list/published.rs): each is
//! baked from its tables and, for each time that is asked, from its text.

use super::{
    round_trip::{bake, bake_lens, write_in},
    slices::Slices,
};
use crate::{
    tables::layout::{tables_of, Lent},
    tally::Tally,
};
use mesh3d::raw::{self, Header};
use std::fs;

const LIST: &str = concat!(env!("CARGO_MANIFEST_DIR"), "/../../crates/samples/stdin");
const SAMPLES: usize = 2;
/// The number, three lengths and the entries taken.
const ANSWER: usize = 5;

pub fn compare() -> bool {
    let list = fs::read_to_string(LIST).unwrap_or_else(|e| panic!("{LIST}: {e}"));
    let fields = list.split_ascii_whitespace();
    let field = |digits| u32::from_str_radix(digits, 16).expect("eight digits");
    let mut fields = Fields(fields.map(field).collect(), 0);
    let mut tally = Tally::new();
    for _ in 0..SAMPLES {
        let sample = fields.scene();
        for _ in 0..fields.next() {
            let asked = fields.asked();
            let length = raw::text_length(&sample.of_port(), asked.0, asked.1).length;
            let equal = is_same_bake(&sample, asked, length);
            tally.count(length, equal, |_| format!("{asked:?}"));
        }
    }
    let is_whole = fields.1 == fields.0.len();
    tally.report("published samples through text", "bakes", "") && is_whole
}

fn is_same_bake(sample: &Lent, asked: (u32, f32), length: usize) -> bool {
    let lent = sample.of_port();
    let (_, text) = write_in(&lent, asked.0, asked.1, length);
    let (slices, reading) = Slices::of(&text);
    let back = slices.scene(reading.header);
    let lens = bake_lens(&lent, asked.0);
    let bakes = [
        bake(&lent, asked, lens),
        bake(&back, (reading.node, reading.time), lens),
    ];
    let baked = &bakes[0].0;
    baked.number == 0 && baked.positions > 0 && bakes[0] == bakes[1]
}

/// Those of the list, and how many were read (list/fields.rs).
struct Fields(Vec<u32>, usize);

impl Fields {
    fn next(&mut self) -> u32 {
        self.1 += 1;
        self.0[self.1 - 1]
    }

    fn list(&mut self) -> Vec<u32> {
        let count = self.next() as usize;
        self.1 += count;
        self.0[self.1 - count..self.1].to_vec()
    }

    fn floats(&mut self) -> Vec<f32> {
        self.list().into_iter().map(f32::from_bits).collect()
    }

    fn scene(&mut self) -> Lent {
        let mut header = Header::default();
        for table in tables_of(&mut header) {
            (table.at, table.count) = (self.next() as usize, self.next() as usize);
        }
        Lent {
            words: self.list(),
            floats: self.floats(),
            node_weights: self.floats(),
            mesh_weights: self.floats(),
            header,
        }
    }

    /// The node and the time of a bake; all else of it is passed over.
    fn asked(&mut self) -> (u32, f32) {
        let pass_lists =
            |fields: &mut Self, lists: usize| (0..lists).for_each(|_| drop(fields.list()));
        pass_lists(self, 3);
        let (node, time) = (self.next(), f32::from_bits(self.next()));
        self.next();
        pass_lists(self, 1);
        self.1 += ANSWER;
        pass_lists(self, 3);
        self.next();
        (node, time)
    }
}
