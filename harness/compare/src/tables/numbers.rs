//! The number that tables draw, and where: a plain reading of docs/TABLES.md,
//! "What the tables draw" and "Where the fault is".

use mesh3d::raw::{Fault, Part, Scene};

/// In place of a word: the table itself.
const ITSELF: u32 = 16;
const NO_LIMIT: usize = usize::MAX;

const NODE_LIMIT: usize = 1_024;
const ROOT_LIMIT: usize = 1_024;
const CHANNEL_LIMIT: usize = 1_024;
const CHILD_ENTRY_LIMIT: u64 = 8_192;
const KEY_LIMIT: u32 = 65_535;
const WEIGHT_LIMIT: u64 = 64;
const JOINT_LIMIT: u32 = 256;
const PRIMITIVE_LIMIT: u32 = 64;
const VERTEX_LIMIT: u32 = 65_535;
const TARGET_LIMIT: u32 = 64;
const IN_BETWEEN_LIMIT: u32 = 16;

/// The number that the tables draw, 0 where they draw none.
pub fn number(lent: &Scene) -> u32 {
    fault(lent).number
}

/// The first place that draws the lowest number, all zeros where there is none.
pub fn fault(lent: &Scene) -> Fault {
    let mut found = Found::default();
    found.nodes(lent);
    let roots = lent.header.graph.roots;
    found.table(1, lent, roots, 1, ROOT_LIMIT);
    found.channels(lent);
    found.meshes(lent);
    found.primitives(lent);
    found.targets(lent);
    found.in_betweens(lent);
    found.skins(lent);
    found.skeletons(lent);
    found.leaving.or(found.over_limit).unwrap_or_default()
}

/// The records of a table that lies in the words.
fn records<'a, const WIDTH: usize>(lent: &Scene<'a>, table: Part) -> &'a [[u32; WIDTH]] {
    let words = &lent.words[table.at..][..table.count * WIDTH];
    words.as_chunks().0
}

/// The first fault of each number, tables, records and words being read in the
/// order of docs/TABLES.md.
#[derive(Default)]
struct Found {
    /// Where the reading is.
    table: u32,
    record: usize,
    leaving: Option<Fault>,
    over_limit: Option<Fault>,
}

impl Found {
    fn at(&self, number: u32, word: u32) -> Fault {
        Fault {
            number,
            table: self.table,
            record: self.record,
            word,
        }
    }

    fn leaves(&mut self, word: u32, leaves: bool) {
        let fault = self.at(1, word);
        if leaves {
            self.leaving.get_or_insert(fault);
        }
    }

    fn limit<T: PartialOrd>(&mut self, word: u32, count: T, limit: T) {
        let fault = self.at(2, word);
        if count > limit {
            self.over_limit.get_or_insert(fault);
        }
    }

    /// A table itself; answers whether it has its records.
    fn table(&mut self, table: u32, lent: &Scene, part: Part, width: u128, limit: usize) -> bool {
        (self.table, self.record) = (table, 0);
        let end = part.at as u128 + part.count as u128 * width;
        let leaves = end > lent.words.len() as u128;
        self.leaves(ITSELF, leaves);
        self.limit(ITSELF, part.count, limit);
        !leaves
    }

    /// A table itself, then its records one by one.
    fn each<const WIDTH: usize>(
        &mut self,
        table: u32,
        lent: &Scene,
        part: Part,
        limit: usize,
        mut read: impl FnMut(&mut Self, [u32; WIDTH]),
    ) {
        if self.table(table, lent, part, WIDTH as u128, limit) {
            for (record, words) in records(lent, part).iter().enumerate() {
                self.record = record;
                read(self, *words);
            }
        }
    }

    /// `count` entries of so many floats or words in a slice of `len`, or
    /// records in a table, that start where word `word` says.
    fn part(&mut self, word: u32, len: usize, at: u32, count: u32, width: u64) {
        let end = u64::from(at) + u64::from(count) * width;
        self.leaves(word, end > len as u64);
    }

    fn is_present(&mut self, word: u32, mark: u32) -> bool {
        self.limit(word, mark, 1);
        mark != 0
    }

    /// An attribute or a delta slot that is present.
    fn vertices(&mut self, word: u32, len: usize, at: u32, count: u32, width: u64) {
        self.part(word, len, at, count, width);
        self.limit(word + 1, count, VERTEX_LIMIT);
    }

    fn slot(&mut self, word: u32, len: usize, words: &[u32], width: u64) {
        let [mark, at, count] = words[word as usize..][..3] else {
            unreachable!("three words")
        };
        if self.is_present(word, mark) {
            self.vertices(word + 1, len, at, count, width);
        }
    }

    fn nodes(&mut self, lent: &Scene) {
        let mut child_entries = 0;
        let nodes = lent.header.graph.nodes;
        self.each(0, lent, nodes, NODE_LIMIT, |found, node: [u32; 16]| {
            let [form, base, children, child_count, mesh, _, skin, _, weights, at, count, ..] =
                node;
            let base_floats = if form == 0 { 10 } else { 16 };
            found.limit(0, form, 1);
            found.part(1, lent.floats.len(), base, 1, base_floats);
            found.part(2, lent.words.len(), children, child_count, 1);
            child_entries += u64::from(child_count);
            found.limit(3, child_entries, CHILD_ENTRY_LIMIT);
            found.limit(4, mesh, 1);
            found.limit(6, skin, 1);
            if found.is_present(8, weights) {
                found.part(9, lent.node_weights.len(), at, count, 1);
            }
        });
    }

    fn channels(&mut self, lent: &Scene) {
        let (floats, channels) = (lent.floats.len(), lent.header.channels);
        self.each(
            2,
            lent,
            channels,
            CHANNEL_LIMIT,
            |found, channel: [u32; 8]| {
                let [_, property, kind, interpolation, keys, key_count, values, value_count] =
                    channel;
                found.limit(1, property, 3);
                found.limit(2, kind, 2);
                found.limit(3, interpolation, 2);
                found.part(4, floats, keys, key_count, 1);
                found.limit(5, key_count, KEY_LIMIT);
                let floats_each = match kind {
                    0 => 3,
                    1 => 4,
                    _ => 1,
                };
                found.part(6, floats, values, value_count, floats_each);
                if kind == 2 {
                    found.weights_a_frame(interpolation, key_count, value_count);
                }
            },
        );
    }

    /// Of a track that is not even no limit is asked.
    fn weights_a_frame(&mut self, interpolation: u32, keys: u32, values: u32) {
        let rows_a_key = if interpolation == 2 { 3 } else { 1 };
        let rows = u64::from(keys) * rows_a_key;
        let values = u64::from(values);
        if rows > 0 && values % rows == 0 {
            self.limit(7, values / rows, WEIGHT_LIMIT);
        }
    }

    fn meshes(&mut self, lent: &Scene) {
        let (meshes, primitives) = (lent.header.meshes.meshes, lent.header.meshes.primitives);
        self.each(3, lent, meshes, NO_LIMIT, |found, mesh: [u32; 4]| {
            let [first, count, weights, weight_count] = mesh;
            found.part(0, primitives.count, first, count, 1);
            found.limit(1, count, PRIMITIVE_LIMIT);
            found.part(2, lent.mesh_weights.len(), weights, weight_count, 1);
        });
    }

    fn primitives(&mut self, lent: &Scene) {
        let (floats, words) = (lent.floats.len(), lent.words.len());
        let (primitives, targets) = (lent.header.meshes.primitives, lent.header.meshes.targets);
        self.each(4, lent, primitives, NO_LIMIT, |found, row: [u32; 16]| {
            found.vertices(0, floats, row[0], row[1], 3);
            found.slot(2, floats, &row, 3);
            found.slot(5, floats, &row, 4);
            found.slot(8, words, &row, 4);
            found.slot(11, floats, &row, 4);
            found.part(14, targets.count, row[14], row[15], 1);
            found.limit(15, row[15], TARGET_LIMIT);
        });
    }

    fn targets(&mut self, lent: &Scene) {
        let floats = lent.floats.len();
        let (targets, in_betweens) = (lent.header.meshes.targets, lent.header.meshes.in_betweens);
        self.each(5, lent, targets, NO_LIMIT, |found, row: [u32; 12]| {
            found.slot(0, floats, &row, 3);
            found.slot(3, floats, &row, 3);
            found.slot(6, floats, &row, 3);
            found.part(9, in_betweens.count, row[9], row[10], 1);
            found.limit(10, row[10], IN_BETWEEN_LIMIT);
        });
    }

    fn in_betweens(&mut self, lent: &Scene) {
        let (floats, in_betweens) = (lent.floats.len(), lent.header.meshes.in_betweens);
        self.each(6, lent, in_betweens, NO_LIMIT, |found, row: [u32; 8]| {
            found.part(0, floats, row[0], 1, 1);
            found.slot(1, floats, &row, 3);
            found.slot(4, floats, &row, 3);
        });
    }

    fn skins(&mut self, lent: &Scene) {
        let skins = lent.header.skins.skins;
        self.each(7, lent, skins, NO_LIMIT, |found, skin: [u32; 4]| {
            found.limit(1, skin[1], 1);
        });
    }

    fn skeletons(&mut self, lent: &Scene) {
        let skeletons = lent.header.skins.skeletons;
        self.each(8, lent, skeletons, NO_LIMIT, |found, skeleton: [u32; 4]| {
            let [joints, joint_count, binds, bind_count] = skeleton;
            found.part(0, lent.words.len(), joints, joint_count, 1);
            found.limit(1, joint_count, JOINT_LIMIT);
            found.part(2, lent.floats.len(), binds, bind_count, 16);
        });
    }
}
