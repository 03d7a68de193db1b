//! Generated scenes, lent in both layouts: written, read back, and baked from
//! what was read.

use super::{
    reader::{self, Read},
    scenes::{largest, lent_scene},
    slices::{expected, lens_of, needed, of_port, Slices, SLICES},
    sorts::{sorts, SORTS},
    writer,
};
use crate::{
    bakes::case::{bits_of, room, Lens, LENT},
    in_bytes::LENT_BYTE,
    rng::Rng,
    tables::{
        generate::{Sizes, SMALL},
        numbers::number,
    },
    tally::{one_nan_bits, Met, Tally},
};
use mesh3d::raw::{self, Baked, Scene, TextWritten};
use std::fmt::Display;

/// One scene in so many is large.
const LARGE_ONE_IN: u32 = 500;
const LARGE: Sizes = Sizes {
    nodes: 300,
    children: 8,
    roots: 60,
    channels: 20,
    keys: 40,
    vertices: 60,
    ..SMALL
};
/// Of a scene, beside the one that is asked for.
const BAKED_NODES: usize = 8;
/// What a bake with enough room answers.
const BAKE_NUMBERS: [u32; 6] = [0, 3, 5, 7, 8, 9];
const SHORT_OUTPUT: u32 = 10;
/// The word of a node that marks its mesh.
const MESH_MARK: usize = 4;
/// The word of a node that counts its children.
const CHILDREN: usize = 3;

pub fn compare(scenes: usize, seed: u64) -> bool {
    let mut comparison = Comparison::new();
    let mut rng = Rng::new(seed);
    for _ in 0..scenes {
        let sizes = match rng.below(LARGE_ONE_IN) {
            0 => LARGE,
            _ => SMALL,
        };
        let (lent, time) = lent_scene(&sizes, &mut rng);
        comparison.count(&lent.of_port(), time, &mut rng);
    }
    comparison.count(&largest().of_port(), 0.5, &mut rng);
    comparison.report()
}

struct Comparison {
    tally: Tally<usize>,
    sorts: Met<{ SORTS.len() }>,
    short: Met<{ SLICES.len() }>,
    baked: Met<{ BAKE_NUMBERS.len() }>,
    refused: Met<2>,
}

impl Comparison {
    fn new() -> Self {
        Comparison {
            tally: Tally::new(),
            sorts: Met::new(SORTS),
            short: Met::new(SLICES),
            baked: Met::new(["accepted", "3", "5", "7", "8", "9"]),
            refused: Met::new(["1", "2"]),
        }
    }

    fn count(&mut self, lent: &Scene, time: f32, rng: &mut Rng) {
        let node = asked_node(lent, rng);
        let text = writer::write(lent, node, time);
        self.sorts.count_all(&sorts(lent, &text));
        let read = reader::read(&text);
        let checks = [
            ("written", is_written(lent, node, time, &text)),
            ("refused", self.is_refused(lent, node, time, rng)),
            ("needed", raw::text_room(&text) == needed(&read)),
            ("read", self.is_read(&text, &read, rng)),
            ("baked", self.is_baked(lent, (node, time), &text)),
        ];
        let failed: Vec<&str> = checks.iter().filter(|c| !c.1).map(|c| c.0).collect();
        self.tally.count(text.len(), failed.is_empty(), |_| {
            format!("not {failed:?}: {}", shown(&text))
        });
    }

    /// With roots past the words, and with a mark above 1.
    fn is_refused(&mut self, lent: &Scene, node: u32, time: f32, rng: &mut Rng) -> bool {
        let mut faulty = *lent;
        let mut words = lent.words.to_vec();
        let nodes = lent.header.graph.nodes;
        if nodes.count == 0 || rng.below(2) == 0 {
            faulty.header.graph.roots.at = words.len() + 1;
            self.refused.count(0);
        } else {
            words[nodes.at + MESH_MARK] = 2;
            faulty.words = &words;
            self.refused.count(1);
        }
        let number = number(&faulty);
        let refused = TextWritten { number, length: 0 };
        let (answer, out) = write_in(&faulty, node, time, rng.below(2_000) as usize);
        let is_kept = out.iter().all(|byte| *byte == LENT_BYTE);
        number != 0 && is_kept && [answer, raw::text_length(&faulty, node, time)] == [refused; 2]
    }

    /// In slices of just the length, in longer ones, and with each one short.
    fn is_read(&mut self, text: &[u8], read: &Result<Read, u32>, rng: &mut Rng) -> bool {
        let Ok(tables) = read else {
            return false;
        };
        let enough = lens_of(tables);
        let longer = enough.map(|len| len + rng.below(4) as usize);
        let mut lent = vec![enough, longer];
        for (of, len) in enough.into_iter().enumerate() {
            if let Some(less) = len.checked_sub(1) {
                let mut lens = if rng.below(2) == 0 { enough } else { longer };
                lens[of] = less;
                self.short.count(of);
                lent.push(lens);
            }
        }
        lent.into_iter()
            .all(|lens| of_port(text, lens) == expected(read, lens))
    }

    /// The node and the time are those that were written; the tables draw no
    /// number, and bakes of that node and some others are the same from both.
    fn is_baked(&mut self, lent: &Scene, asked: (u32, f32), text: &[u8]) -> bool {
        let (slices, reading) = Slices::of(text);
        let back = slices.scene(reading.header);
        let (node, time) = asked;
        let is_asked = (reading.node, reading.time.to_bits()) == (node, one_nan_bits(time));
        let drawn = [number(&back), raw::tables_number(&back)];
        let mut nodes = (0..lent.header.graph.nodes.count as u32).take(BAKED_NODES);
        is_asked
            && drawn == [0; 2]
            && self.is_same_bake(lent, &back, asked)
            && nodes.all(|node| self.is_same_bake(lent, &back, (node, time)))
    }

    fn is_same_bake(&mut self, lent: &Scene, back: &Scene, asked: (u32, f32)) -> bool {
        let lens = bake_lens(lent, asked.0);
        let bakes = [bake(lent, asked, lens), bake(back, asked, lens)];
        let number = bakes[0].0.number;
        self.baked
            .count_all(&BAKE_NUMBERS.map(|listed| listed == number));
        lens == bake_lens(back, asked.0) && bakes[0] == bakes[1]
    }

    fn report(&self) -> bool {
        let note = [
            &self.sorts.note()[..],
            "; one short",
            &self.short.note(),
            "; bakes",
            &self.baked.note(),
            "; not written for",
            &self.refused.note(),
        ];
        let all = [
            self.tally
                .report("scenes as text", "scenes", &note.concat()),
            self.sorts.report(),
            self.short.report(),
            self.baked.report(),
            self.refused.report(),
        ];
        !all.contains(&false)
    }
}

/// The start of a text.
pub fn shown(text: &[u8]) -> impl Display + '_ {
    const SHOWN: usize = 4_000;
    text[..text.len().min(SHOWN)].escape_ascii()
}

/// One that is there as a rule.
fn asked_node(lent: &Scene, rng: &mut Rng) -> u32 {
    match (rng.below(8), lent.header.graph.nodes.count as u32) {
        (0, _) | (_, 0) => rng.bits() as u32,
        (_, nodes) => rng.below(nodes),
    }
}

/// In an output of just the length, in a longer one, and in one that is one
/// byte short.
fn is_written(lent: &Scene, node: u32, time: f32, text: &[u8]) -> bool {
    let length = text.len();
    let told = TextWritten { number: 0, length };
    let short = TextWritten {
        number: SHORT_OUTPUT,
        length: 0,
    };
    let with_rest = [text, &[LENT_BYTE; 9]].concat();
    raw::text_length(lent, node, time) == told
        && write_in(lent, node, time, length) == (told, text.to_vec())
        && write_in(lent, node, time, length + 9) == (told, with_rest)
        && write_in(lent, node, time, length - 1) == (short, vec![LENT_BYTE; length - 1])
}

/// What is answered, and what is left in an output of so many bytes.
pub fn write_in(lent: &Scene, node: u32, time: f32, room: usize) -> (TextWritten, Vec<u8>) {
    let mut out = vec![LENT_BYTE; room];
    let written = raw::write_scene(lent, node, time, &mut out);
    (written, out)
}

pub fn bake(lent: &Scene, asked: (u32, f32), lens: Lens) -> (Baked, [Vec<u32>; LENT.len()]) {
    let mut room = room(lens);
    let baked = room.bake(lent, asked.0, asked.1);
    (baked, bits_of(&room))
}

/// The lengths that suffice for a bake; outputs of none where it has no mesh.
pub fn bake_lens(lent: &Scene, node: u32) -> Lens {
    let graph = lent.header.graph;
    let nodes = graph.nodes.count;
    let records = lent.words[graph.nodes.at..].chunks_exact(16).take(nodes);
    let children: usize = records.map(|record| record[CHILDREN] as usize).sum();
    let walk = 2 * (graph.roots.count + children);
    let needed = raw::bake_room(lent, node);
    [
        walk,
        4 * nodes,
        10 * nodes,
        nodes,
        16 * nodes,
        needed.positions,
        needed.normals,
        needed.tangents,
    ]
}
