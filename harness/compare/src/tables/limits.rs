//! Each limit, tag, mark and end of a part that docs/TABLES.md names: below it,
//! at it and above it, with the number that is to be drawn.

use super::{
    fields::{Listed, Table, LISTED, TABLES},
    numbers::number,
    zeros::{Zeros, LAST_RECORD, ROOM},
};
use crate::tally::Tally;
use mesh3d::raw::{self, Header, Part, Scene};
use Table::{Channels, InBetweens, Nodes, Primitives, Roots, Skeletons, Skins, Targets};

pub fn compare() -> bool {
    let mut directed = Directed::new();
    directed.tables();
    directed.ends_of_tables();
    for listed in &LISTED {
        for record in [0, LAST_RECORD] {
            directed.part(listed, record);
            directed.absent_part(listed, record);
        }
    }
    directed.bases();
    directed.values_of_channels();
    directed.weights_a_frame();
    directed.child_entries();
    directed.tags_and_marks();
    directed.words_of_no_account();
    directed.leaving_before_limits();
    directed.empty_slices();
    directed.tally.report("limits of the tables", "cases", "")
}

/// The slices differ in length, so that none can stand for another.
struct Directed {
    zeros: Zeros,
    floats: Vec<f32>,
    node_weights: Vec<f32>,
    mesh_weights: Vec<f32>,
    cases: usize,
    tally: Tally<usize>,
}

impl Directed {
    fn new() -> Self {
        Directed {
            zeros: Zeros::new(),
            floats: vec![0.0; ROOM + 100],
            node_weights: vec![0.0; 70],
            mesh_weights: vec![0.0; 90],
            cases: 0,
            tally: Tally::new(),
        }
    }

    fn lens(&self) -> [usize; 4] {
        let weights = [self.node_weights.len(), self.mesh_weights.len()];
        [ROOM, self.floats.len(), weights[0], weights[1]]
    }

    fn lent<'a>(&'a self, case: &'a Zeros) -> Scene<'a> {
        Scene {
            words: &case.words,
            floats: &self.floats,
            node_weights: &self.node_weights,
            mesh_weights: &self.mesh_weights,
            header: case.header,
        }
    }

    /// The number of the tables of zeros after some change.
    fn expect(&mut self, drawn: u32, name: &str, change: impl FnOnce(&mut Zeros)) {
        let mut case = self.zeros.clone();
        change(&mut case);
        let lent = self.lent(&case);
        self.expect_of(drawn, name, [number(&lent), raw::tables_number(&lent)]);
    }

    fn expect_of(&mut self, drawn: u32, name: &str, [plain, port]: [u32; 2]) {
        self.cases += 1;
        self.tally
            .count(self.cases, [plain, port] == [drawn; 2], |_| {
                format!("{name}: to draw {drawn}, plain {plain}, port {port}")
            });
    }

    fn tables(&mut self) {
        self.expect(0, "zeros", |_| ());
        for table in [Nodes, Roots, Channels] {
            for (count, drawn) in [(1_023, 0), (1_024, 0), (1_025, 2)] {
                let name = format!("{count} {table:?}");
                self.expect(drawn, &name, |case| case.table(table).count = count);
            }
        }
    }

    fn ends_of_tables(&mut self) {
        const FAR: usize = usize::MAX;
        for table in TABLES {
            let (len, width) = (ROOM, table.width());
            let behind_all = len - 20 * width; // within the limits, and zeros
            let ends = [
                (behind_all, 20, 0),
                (behind_all + 1, 20, 1),
                (behind_all, 21, 1),
                (len, 0, 0),
                (len + 1, 0, 1),
                (FAR, 0, 1),
                (FAR, 1, 1),
                (FAR - width + 1, 1, 1),
                (0, FAR, 1),
                (1, FAR, 1),
                (0, FAR / width + usize::from(width > 1), 1),
                (width, FAR / width, 1),
                (16, FAR / width - 1, 1),
            ];
            for (at, count, drawn) in ends {
                let name = format!("{count} {table:?} at {at}");
                self.expect(drawn, &name, |case| *case.table(table) = Part { at, count });
            }
        }
    }

    /// Its ends and its limit, if it has one.
    fn part(&mut self, listed: &Listed, record: usize) {
        let len = listed.place.len(self.lens(), self.zeros.header) as u32;
        let width = listed.width as u32;
        let last = |count: u32| len - count * width;
        let mut ends = vec![
            (last(2), 2, 0),
            (last(2) + 1, 2, 1),
            (last(2), 3, 1),
            (len, 0, 0),
            (len + 1, 0, 1),
            (u32::MAX, 0, 1),
            (u32::MAX, 1, 1),
            (0, u32::MAX, 1),
            (1, u32::MAX, 1),
            (0, u32::MAX / width + u32::from(width > 1), 1),
        ];
        if let Some(limit) = listed.limit {
            ends.extend([
                (last(limit - 1), limit - 1, 0),
                (last(limit), limit, 0),
                (last(limit) + 1, limit, 1),
                (last(limit + 1), limit + 1, 2),
                (last(limit + 1) + 1, limit + 1, 1),
            ]);
        }
        for (start, count, drawn) in ends {
            let name = format!("{listed:?} of record {record}: {start}, {count}");
            self.expect(drawn, &name, |case| {
                case.set_part(listed, record, start, count);
            });
        }
    }

    /// With a mark above 1 it is over the limits, and judged for its end.
    fn absent_part(&mut self, listed: &Listed, record: usize) {
        let Some(mark_word) = listed.mark else {
            return;
        };
        const WILD: u32 = u32::MAX;
        for (mark, start, count, drawn) in [
            (0, WILD, WILD, 0),
            (0, 0, WILD, 0),
            (0, WILD, 0, 0),
            (2, 0, 1, 2),
            (2, WILD, 0, 1),
            (WILD, 0, WILD, 1),
        ] {
            let name = format!("{listed:?} of record {record}: {mark}, {start}, {count}");
            self.expect(drawn, &name, |case| {
                case.set(listed.table, record, mark_word, &[mark, start, count]);
            });
        }
    }

    /// The floats that a node and an in-between name without a count.
    fn bases(&mut self) {
        let len = self.floats.len() as u32;
        for (form, at, drawn) in [
            (0, len - 10, 0),
            (0, len - 9, 1),
            (1, len - 16, 0),
            (1, len - 15, 1),
            (2, len - 16, 2),
            (2, len - 15, 1),
            (u32::MAX, u32::MAX, 1),
        ] {
            let name = format!("a base of form {form} at {at}");
            self.expect(drawn, &name, |case| {
                case.set(Nodes, LAST_RECORD, 0, &[form, at]);
            });
        }
        for (at, drawn) in [(len - 1, 0), (len, 1), (u32::MAX, 1)] {
            let name = format!("the weight of an in-between at {at}");
            self.expect(drawn, &name, |case| {
                case.set(InBetweens, LAST_RECORD, 0, &[at]);
            });
        }
    }

    /// Entries of each kind; a kind that is not listed is judged as scalars.
    fn values_of_channels(&mut self) {
        let len = self.floats.len() as u32;
        for (kind, width, fitting) in [(0, 3, 0), (1, 4, 0), (2, 1, 0), (3, 1, 2), (9, 1, 2)] {
            for (more, drawn) in [(0, fitting), (1, 1)] {
                let name = format!("values of kind {kind}, {more} too many");
                self.expect(drawn, &name, |case| {
                    case.set(Channels, LAST_RECORD, 2, &[kind]);
                    let start = len - 10 * width;
                    case.set(Channels, LAST_RECORD, 6, &[start, 10 + more]);
                });
            }
        }
    }

    fn weights_a_frame(&mut self) {
        for (interpolation, rows_a_key) in [(0, 1), (1, 1), (2, 3)] {
            for keys in [1, 2, 1_000] {
                let rows = keys * rows_a_key;
                // Even scalar tracks alone have the limit.
                let uneven = 65 * rows + 1;
                for (kind, values, drawn) in [
                    (2, 63 * rows, 0),
                    (2, 64 * rows, 0),
                    (2, 65 * rows, 2),
                    (2, uneven, if rows == 1 { 2 } else { 0 }),
                    (0, 65 * rows.min(1_000), 0),
                    (1, 65 * rows.min(1_000), 0),
                ] {
                    self.channel(drawn, [kind, interpolation, keys, values]);
                }
            }
            self.channel(0, [2, interpolation, 0, ROOM as u32]);
            self.channel(0, [2, interpolation, 65_535, 0]);
            self.channel(2, [2, interpolation, 65_536, 0]);
        }
    }

    fn channel(&mut self, drawn: u32, numbers: [u32; 4]) {
        let [kind, interpolation, keys, values] = numbers;
        let name = format!("kind, interpolation, keys and values {numbers:?}");
        self.expect(drawn, &name, |case| {
            let words = [kind, interpolation, 0, keys, 0, values];
            case.set(Channels, LAST_RECORD, 2, &words);
        });
    }

    /// Over all nodes, which may list the same words.
    fn child_entries(&mut self) {
        let eights = [8; 1_024];
        let mut one_more = eights;
        one_more[512] = 9;
        for (counts, drawn) in [
            (&[8_191, 1][..], 0),
            (&[8_192, 1], 2),
            (&[4_096, 0, 4_096], 0),
            (&[4_096, 1, 4_096], 2),
            (&[8_192, 8_192], 2),
            (&eights, 0),
            (&one_more, 2),
            (&[ROOM as u32; 1_024], 2),
        ] {
            let (nodes, first) = (counts.len(), counts[0]);
            let name = format!("child entries of {nodes} nodes, {first} of the first");
            self.expect(drawn, &name, |case| {
                case.table(Nodes).count = nodes;
                for (node, count) in counts.iter().enumerate() {
                    case.set(Nodes, node, 2, &[0, *count]);
                }
            });
        }
    }

    /// Each at its last value, and above it.
    fn tags_and_marks(&mut self) {
        let tags = [
            (Nodes, 0, 1),
            (Channels, 1, 3),
            (Channels, 2, 2),
            (Channels, 3, 2),
            (Nodes, 4, 1),
            (Nodes, 6, 1),
            (Skins, 1, 1),
        ];
        let marks = LISTED.iter().filter_map(|listed| {
            let mark = listed.mark?;
            Some((listed.table, mark, 1))
        });
        for (table, word, last) in tags.into_iter().chain(marks) {
            for (number, drawn) in [(last, 0), (last + 1, 2), (u32::MAX, 2)] {
                let name = format!("word {word} of {table:?}: {number}");
                self.expect(drawn, &name, |case| {
                    case.set(table, LAST_RECORD, word, &[number]);
                });
            }
        }
    }

    /// Ids, and words that are not read.
    fn words_of_no_account(&mut self) {
        const WILD: u32 = u32::MAX;
        for (table, word, numbers) in [
            (Nodes, 4, &[0, WILD, 0, WILD][..]),
            (Nodes, 4, &[1, WILD, 1, WILD]),
            (Nodes, 11, &[WILD; 5]),
            (Roots, 0, &[WILD]),
            (Channels, 0, &[WILD]),
            (Targets, 11, &[WILD]),
            (InBetweens, 7, &[WILD]),
            (Skins, 0, &[WILD, 0, WILD, WILD]),
            (Skins, 0, &[WILD, 1, WILD, WILD]),
        ] {
            let name = format!("{table:?} with {numbers:?} from word {word} on");
            self.expect(0, &name, |case| {
                case.set(table, LAST_RECORD, word, numbers);
            });
        }
        self.expect(0, "children and joints that are not there", |case| {
            let at = case.table(Roots).at as u32;
            case.set(Roots, 0, 0, &[WILD; 4]);
            case.set(Nodes, 0, 2, &[at, 4]);
            case.set(Primitives, 0, 8, &[1, at, 1]);
            case.set(Skeletons, 0, 0, &[at, 4]);
        });
    }

    /// 1 where both apply, also behind what is over a limit.
    fn leaving_before_limits(&mut self) {
        self.expect(1, "the last of 1,025 nodes leaves", |case| {
            case.table(Nodes).count = 1_025;
            case.set(Nodes, 1_024, 1, &[u32::MAX]);
        });
        self.expect(1, "the last of 1,025 channels leaves", |case| {
            case.table(Channels).count = 1_025;
            case.set(Channels, 1_024, 4, &[u32::MAX, 1]);
        });
        self.expect(1, "1,025 roots, and the last skeleton leaves", |case| {
            case.table(Roots).count = 1_025;
            case.set(Skeletons, LAST_RECORD, 2, &[u32::MAX, 1]);
        });
        self.expect(
            1,
            "a tag, and a primitive that no mesh lists leaves",
            |case| {
                case.set(Nodes, 0, 0, &[2]);
                case.set(Primitives, 64, 0, &[0, u32::MAX]);
            },
        );
    }

    fn empty_slices(&mut self) {
        let nothing = Header::default();
        let mut a_table_behind = nothing;
        a_table_behind.skins.skins.at = 1;
        let mut one_root = nothing;
        one_root.graph.roots.count = 1;
        for (header, drawn) in [(nothing, 0), (a_table_behind, 1), (one_root, 1)] {
            let lent = Scene {
                words: &[],
                floats: &[],
                node_weights: &[],
                mesh_weights: &[],
                header,
            };
            let numbers = [number(&lent), raw::tables_number(&lent)];
            self.expect_of(drawn, &format!("{lent:?}"), numbers);
        }
    }
}
