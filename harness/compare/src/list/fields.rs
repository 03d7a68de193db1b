//! What lists of scenes are written in: fields of eight hexadecimal digits with a
//! blank or a line's end behind each.
//!
//! ```text
//! list    its count, and its entries: words, or the bits of floats, NaN as 7fc00000
//! scene   at and count of the nine tables in the header's order (docs/TABLES.md), and
//!         the lists words, floats, node weights, mesh weights
//! bake    the lists positions, normals, tangents as they are lent;
//!         node, time, 1 where a Linear turn is between its keys and otherwise 0;
//!         the list of the walk room as it is lent;
//!         the answer: number, floats of positions, normals and tangents, entries taken;
//!         the lists positions, normals, tangents as they are left
//! ```

use crate::{rooms::BakeRoom, tables::layout::tables_of, tally::one_nan_bits};
use mesh3d::raw::{Baked, Scene};
use std::io::{self, Write};

/// Fields, one after the other.
pub struct Line(Vec<u32>);

impl Line {
    pub fn of(numbers: &[u32]) -> Self {
        Line(numbers.to_vec())
    }

    pub fn scene(lent: &Scene) -> Self {
        let mut header = lent.header;
        let tables = tables_of(&mut header);
        let parts = tables.map(|part| [part.at as u32, part.count as u32]);
        Line::of(parts.as_flattened())
            .words(lent.words)
            .floats(lent.floats)
            .floats(lent.node_weights)
            .floats(lent.mesh_weights)
    }

    pub fn numbers(mut self, numbers: &[u32]) -> Self {
        self.0.extend(numbers);
        self
    }

    pub fn time(self, time: f32) -> Self {
        self.numbers(&[one_nan_bits(time)])
    }

    pub fn words(self, words: &[u32]) -> Self {
        self.numbers(&[words.len() as u32]).numbers(words)
    }

    pub fn floats(self, floats: &[f32]) -> Self {
        let bits: Vec<u32> = floats.iter().map(|x| one_nan_bits(*x)).collect();
        self.words(&bits)
    }

    pub fn bake(self, asked: &Asked, lent: &BakeRoom, baked: &Baked, left: [&[u32]; 3]) -> Self {
        let lengths = [baked.positions, baked.normals, baked.tangents, baked.taken];
        let [positions, normals, tangents] = left;
        self.floats(&lent.positions)
            .floats(&lent.normals)
            .floats(&lent.tangents)
            .numbers(&[asked.node])
            .time(asked.time)
            .numbers(&[asked.turns.into()])
            .words(&lent.walk)
            .numbers(&[baked.number])
            .numbers(&lengths.map(|length| length as u32))
            .words(positions)
            .words(normals)
            .words(tangents)
    }

    pub fn write(&self, out: &mut impl Write) -> io::Result<()> {
        let fields: Vec<String> = self.0.iter().map(|f| format!("{f:08x}")).collect();
        writeln!(out, "{}", fields.join(" "))
    }
}

/// What a bake is asked for.
pub struct Asked {
    pub node: u32,
    pub time: f32,
    /// Whether a Linear turn is between its keys.
    pub turns: bool,
}
