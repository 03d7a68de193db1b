//! Tables that are at fault, or nearly so: copies of good ones that were
//! damaged, and noise; the number that they draw, and where. Each number is
//! drawn many times, and each table is at fault many times.

use super::{
    build::lend,
    fields::{LISTED, TABLES},
    generate::{scene, SMALL},
    layout::Layout,
    numbers::fault,
    zeros::ROOM,
};
use crate::{
    rng::Rng,
    tally::{Met, Tally},
};
use mesh3d::raw::{self, Header, Part, Scene};

const GOOD_TABLES: usize = 5_000;
const DAMAGES_OF_EACH: usize = 180;
const NOISES: usize = 300_000;
/// Of each number.
const LEAST_DRAWN: u64 = 10_000;
/// Of the faults in each table.
const LEAST_IN_TABLE: u64 = 1_000;

pub fn compare() -> bool {
    let mut comparison = Comparison::new();
    let mut rng = Rng::new(3);
    for _ in 0..GOOD_TABLES {
        let mut case = good(&mut rng);
        for _ in 0..DAMAGES_OF_EACH {
            let damage = rng.below(DAMAGES.len() as u32) as usize;
            let (header, lens) = (case.header, case.lens);
            DAMAGES[damage](&mut case, &mut rng);
            comparison.count(damage, &case);
            (case.header, case.lens) = (header, lens);
            case.undo();
        }
    }
    for _ in 0..NOISES {
        comparison.count(DAMAGES.len(), &noise(&mut rng));
    }
    comparison.report()
}

/// What is lent; of the floats only the lengths count.
struct Case {
    words: Vec<u32>,
    /// Of words, floats, node weights and mesh weights.
    lens: [usize; 4],
    header: Header,
    /// Changed words, and what stood there.
    changes: Vec<(usize, u32)>,
}

impl Case {
    fn lent<'a>(&'a self, zeros: &'a [f32]) -> Scene<'a> {
        Scene {
            words: &self.words[..self.lens[0]],
            floats: &zeros[..self.lens[1]],
            node_weights: &zeros[..self.lens[2]],
            mesh_weights: &zeros[..self.lens[3]],
            header: self.header,
        }
    }

    fn change(&mut self, at: usize, word: u32) {
        self.changes.push((at, self.words[at]));
        self.words[at] = word;
    }

    fn undo(&mut self) {
        while let Some((at, word)) = self.changes.pop() {
            self.words[at] = word;
        }
    }
}

/// Compact or spread, and each slice at times with room behind.
fn good(rng: &mut Rng) -> Case {
    let (scene, animation) = scene(rng, &SMALL);
    let mut layout = match rng.below(2) {
        0 => Layout::Compact,
        _ => Layout::Spread(Rng::new(rng.bits())),
    };
    let lent = lend(&scene, &animation, &mut layout);
    let lens = [
        lent.words.len() + rng.one_of(&[0, 0, 0, 0, 0, ROOM]),
        lent.floats.len() + rng.one_of(&[0, 0, ROOM]),
        lent.node_weights.len() + rng.one_of(&[0, 0, ROOM]),
        lent.mesh_weights.len() + rng.one_of(&[0, 0, ROOM]),
    ];
    let (mut words, mut header) = (lent.words, lent.header);
    let behind = words.len();
    words.resize(lens[0], 0);
    if words.len() > behind && rng.below(2) == 0 {
        many_records(&mut header, behind);
    }
    Case {
        words,
        lens,
        header,
        changes: Vec::new(),
    }
}

/// As many records of zeros as lists of them may have, and some.
fn many_records(header: &mut Header, at: usize) {
    let meshes = &mut header.meshes;
    for table in [
        &mut meshes.primitives,
        &mut meshes.targets,
        &mut meshes.in_betweens,
    ] {
        *table = Part { at, count: 66 };
    }
}

/// Small numbers and some at a boundary, under tables that lie anywhere.
fn noise(rng: &mut Rng) -> Case {
    let len = rng.one_of(&[0, 1, 8, 16, 17, 60, 200]);
    let mut header = Header::default();
    for table in TABLES {
        *table.in_header(&mut header) = noise_table(rng, len, table.width());
    }
    let lens = [
        len as usize,
        rng.one_of(&[0, 9, 10, 16, 60, ROOM]),
        rng.one_of(&[0, 1, 2, ROOM]),
        rng.one_of(&[0, 1, 2, ROOM]),
    ];
    let mut case = Case {
        words: Vec::new(),
        lens,
        header,
        changes: Vec::new(),
    };
    let (small, wild) = (1 + rng.below(4), rng.one_of(&[0, 2, 8, 64]));
    for _ in 0..len {
        let is_wild = rng.below(256) < wild;
        let word = if is_wild {
            boundary(&case, rng)
        } else {
            rng.below(small)
        };
        case.words.push(word);
    }
    case
}

/// Within so many words, as a rule.
fn noise_table(rng: &mut Rng, len: u32, width: usize) -> Part {
    let at = rng.below(len + 1) as usize;
    let room = (len as usize - at) / width;
    let some = rng.below(room as u32 + 1) as usize;
    let any = rng.bits() as usize;
    let (at, count) = match rng.below(64) {
        0 => (at, room + 1),
        1 => (any, some),
        2 => (at, any),
        _ => (at, rng.one_of(&[0, 0, some, room])),
    };
    Part { at, count }
}

/// A number at which a tag, a limit, a slice or a table ends, or a large one.
fn boundary(case: &Case, rng: &mut Rng) -> u32 {
    let near = |end: u32, rng: &mut Rng| end.saturating_add(rng.below(3)).saturating_sub(1);
    match rng.below(4) {
        0 => rng.below(6),
        1 => {
            let limit = rng.one_of(&[16, 64, 256, 1_024, 8_192, 65_535]);
            near(limit, rng)
        }
        2 => {
            let mut header = case.header;
            let table = rng.one_of(&TABLES).in_header(&mut header);
            let len = rng.one_of(&case.lens);
            let end = rng.one_of(&[len, table.count, table.at]);
            near(end as u32, rng)
        }
        _ => rng.one_of(&[u32::MAX, u32::MAX - 1, 1 << 31, 1 << 30, u32::MAX / 3 + 1]),
    }
}

type Damage = fn(&mut Case, &mut Rng);

const DAMAGES: [Damage; 6] = [
    change_word,
    |case, rng| (0..2 + rng.below(3)).for_each(|_| change_word(case, rng)),
    part_to_end,
    change_header,
    table_over_table,
    |case, rng| {
        let len = &mut case.lens[rng.below(4) as usize];
        let below = rng.below(*len as u32 + 1) as usize;
        *len = rng.one_of(&[0, len.saturating_sub(1), *len / 2, below]);
    },
];

/// One of a record, or any.
fn change_word(case: &mut Case, rng: &mut Rng) {
    let table = rng.one_of(&TABLES);
    let Part { at, count } = *table.in_header(&mut case.header);
    let (start, words) = match count {
        0 => (0, case.words.len()),
        _ => (at, count * table.width()),
    };
    if words > 0 {
        let word = boundary(case, rng);
        case.change(start + rng.below(words as u32) as usize, word);
    }
}

/// A part that ends with its slice or table, or one entry behind.
fn part_to_end(case: &mut Case, rng: &mut Rng) {
    let listed = rng.one_of(&LISTED);
    let table = *listed.table.in_header(&mut case.header);
    if table.count == 0 {
        return change_word(case, rng);
    }
    let record = table.at + rng.below(table.count as u32) as usize * listed.table.width();
    let len = listed.place.len(case.lens, case.header);
    let most = len / listed.width;
    let limit = listed.limit.map_or(most, |limit| most.min(limit as usize));
    let any = rng.below(most as u32 + 1) as usize;
    let count = rng.one_of(&[0, 1, limit, limit + 1, most, any]);
    let start = len.saturating_sub(count * listed.width) + rng.one_of(&[0, 0, 1]);
    if let Some(mark) = listed.mark {
        case.change(record + mark, 1);
    }
    case.change(record + listed.start, start as u32);
    case.change(record + listed.start + 1, count as u32);
}

fn change_header(case: &mut Case, rng: &mut Rng) {
    const FAR: usize = usize::MAX;
    let (table, len) = (rng.one_of(&TABLES), case.lens[0]);
    let width = table.width();
    let part = table.in_header(&mut case.header);
    let (room, words) = ((len - part.at) / width, part.count * width);
    let (last, wrapping) = (len - words, FAR - words);
    let past_all = FAR / width;
    if rng.below(2) == 0 {
        let count = part.count;
        let counts = [count.saturating_sub(1), count + 1, room, room + 1, 1_025];
        let far = [past_all, past_all - room, FAR, FAR - part.at];
        part.count = rng.one_of(&[&counts[..], &far].concat());
    } else {
        let starts = [0, last, last + 1, len, len + 1, part.at + 1];
        let far = [wrapping, wrapping.wrapping_add(1), FAR, FAR / 2 + 1];
        part.at = rng.one_of(&[&starts[..], &far].concat());
    }
}

/// With as many records as there is room for, or as it had.
fn table_over_table(case: &mut Case, rng: &mut Rng) {
    let (moved, other) = (rng.one_of(&TABLES), rng.one_of(&TABLES));
    let at = other.in_header(&mut case.header).at + rng.below(3) as usize;
    let room = case.lens[0].saturating_sub(at) / moved.width();
    let part = moved.in_header(&mut case.header);
    let count = rng.one_of(&[part.count, room.min(part.count + 1), room.min(20)]);
    *part = Part { at, count };
}

struct Comparison {
    zeros: Vec<f32>,
    tally: Tally<(usize, usize)>,
    sorts: Met<7>,
    drawn: Met<3>,
    /// In which table the fault is, or the first where there is none.
    tables: Met<9>,
}

impl Comparison {
    fn new() -> Self {
        Comparison {
            zeros: vec![0.0; 2 * ROOM],
            tally: Tally::new(),
            sorts: Met::new([
                "one word",
                "some words",
                "a part to its end",
                "the header",
                "table over table",
                "a shorter slice",
                "noise",
            ]),
            drawn: Met::new(["0", "1", "2"]),
            tables: Met::new([
                "nodes or none",
                "roots",
                "channels",
                "meshes",
                "primitives",
                "targets",
                "in-betweens",
                "skins",
                "skeletons",
            ]),
        }
    }

    fn count(&mut self, sort: usize, case: &Case) {
        let lent = case.lent(&self.zeros);
        let (plain, port) = (fault(&lent), raw::find_fault(&lent));
        let number = raw::tables_number(&lent);
        let equal = plain == port && plain.number == number;
        self.sorts.count(sort);
        self.drawn.count(plain.number as usize);
        self.tables.count(plain.table as usize);
        self.tally.count((case.lens[0], sort), equal, |_| {
            let (header, lens, changes) = (case.header, case.lens, &case.changes);
            let words = &lent.words[..lens[0].min(1_000)];
            format!("{header:?}, lengths {lens:?}, was {changes:?}, words {words:?}, plain {plain:?}, port {port:?}, number {number}")
        });
    }

    fn report(&self) -> bool {
        let drawn = ["; drawn", &self.drawn.note()[..]].concat();
        let note = [&self.sorts.note()[..], &drawn, "; in", &self.tables.note()].concat();
        let equal = self.tally.report("hostile tables", "cases", &note);
        let met = [
            self.sorts.report(),
            self.drawn.report_least(LEAST_DRAWN),
            self.tables.report_least(LEAST_IN_TABLE),
        ];
        equal && !met.contains(&false)
    }
}
