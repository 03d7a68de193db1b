//! Tables of zeros, to be changed in one place.

use super::fields::{Listed, Table, TABLES};
use mesh3d::raw::{Header, Part};

/// Each record has its parts at the start, without entries.
#[derive(Clone)]
pub struct Zeros {
    pub words: Vec<u32>,
    pub header: Header,
}

/// Records of each table, and for how many there is room before the next one.
const RECORDS: [(usize, usize); 9] = [
    (17, 1_025),
    (17, 1_025),
    (17, 1_025),
    (17, 17),
    (65, 65),
    (65, 65),
    (17, 17),
    (17, 17),
    (17, 17),
];
/// Of the seventeen that every table has.
pub const LAST_RECORD: usize = 16;
/// Floats or words, four for each of 65,536 vertices and some.
pub const ROOM: usize = 4 * 65_536 + 4;

impl Zeros {
    pub fn new() -> Self {
        let mut header = Header::default();
        let mut at = 0;
        for (table, (count, room)) in TABLES.into_iter().zip(RECORDS) {
            *table.in_header(&mut header) = Part { at, count };
            at += room * table.width();
        }
        let words = vec![0; ROOM];
        assert!(at <= ROOM, "all tables lie in the words");
        Zeros { words, header }
    }

    pub fn table(&mut self, table: Table) -> &mut Part {
        table.in_header(&mut self.header)
    }

    /// Sets words of a record, from one on.
    pub fn set(&mut self, table: Table, record: usize, word: usize, numbers: &[u32]) {
        let at = self.table(table).at + record * table.width() + word;
        self.words[at..][..numbers.len()].copy_from_slice(numbers);
    }

    /// A part that is present, should it need a mark.
    pub fn set_part(&mut self, listed: &Listed, record: usize, start: u32, count: u32) {
        if let Some(mark) = listed.mark {
            self.set(listed.table, record, mark, &[1]);
        }
        self.set(listed.table, record, listed.start, &[start, count]);
    }
}
