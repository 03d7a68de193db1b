//! Every fault that a scene can have, found where it is and told in words.

#[path = "common/phrases.rs"]
mod phrases;

use mesh3d::{Fault, Header, Part, Reason, Refusal, Scene, Table};
use phrases::PHRASES;

const WORDS: usize = 300_000;
const WILD: u32 = u32::MAX;

/// Tables of zeros, which draw nothing, in slices that are long enough for any limit.
struct Zeros {
    words: Vec<u32>,
    floats: Vec<f32>,
    header: Header,
}

/// The words of a record, and how many records there are.
const TABLES: [(usize, usize); 9] = [
    (16, 4),
    (1, 3),
    (8, 4),
    (4, 4),
    (16, 70),
    (12, 70),
    (8, 20),
    (4, 4),
    (4, 4),
];

fn table_in(header: &mut Header, table: Table) -> &mut Part {
    match table {
        Table::Nodes => &mut header.graph.nodes,
        Table::Roots => &mut header.graph.roots,
        Table::Channels => &mut header.channels,
        Table::Meshes => &mut header.meshes.meshes,
        Table::Primitives => &mut header.meshes.primitives,
        Table::Targets => &mut header.meshes.targets,
        Table::InBetweens => &mut header.meshes.in_betweens,
        Table::Skins => &mut header.skins.skins,
        Table::Skeletons => &mut header.skins.skeletons,
    }
}

impl Zeros {
    fn new() -> Zeros {
        let mut header = Header::default();
        let mut at = 0;
        for (table, (width, count)) in Table::ALL.into_iter().zip(TABLES) {
            *table_in(&mut header, table) = Part { at, count };
            at += width * count;
        }
        Zeros {
            words: vec![0; WORDS],
            floats: vec![0.0; WORDS],
            header,
        }
    }

    fn word(&mut self, table: Table, record: usize, word: u32) -> &mut u32 {
        let at = table_in(&mut self.header, table).at;
        &mut self.words[at + TABLES[table as usize].0 * record + word as usize]
    }

    fn scene(&self) -> Scene<'_> {
        Scene {
            words: &self.words,
            floats: &self.floats,
            node_weights: &[],
            mesh_weights: &[],
            header: self.header,
        }
    }

    /// The fault, which has to be what the tables draw.
    fn fault(&self) -> Option<Fault> {
        let fault = self.scene().fault();
        assert_eq!(self.scene().check().err(), fault.map(|fault| fault.refusal));
        fault
    }
}

/// The number that a phrase names: 65535 of "it has more than 65,535 keys".
fn limit_of(phrase: &str) -> u32 {
    let digits = phrase.chars().filter(char::is_ascii_digit);
    digits.collect::<String>().parse().expect("a limit")
}

fn is_mark(table: Table, word: u32) -> bool {
    let mut rows = PHRASES.iter();
    rows.any(|row| (row.0, row.1) == (table, word) && row.2.starts_with("the mark"))
}

/// Spoils one word, so that it draws what its phrase says; answers the refusal.
fn spoil(zeros: &mut Zeros, record: usize, (table, word, phrase): (Table, u32, &str)) -> Refusal {
    if phrase.contains("leave") || phrase.contains("lies past") {
        *zeros.word(table, record, word) = WILD;
        if word > 0 && is_mark(table, word - 1) {
            *zeros.word(table, record, word - 1) = 1;
        }
        return Refusal::OutOfTable;
    }
    *zeros.word(table, record, word) = match phrase {
        _ if phrase.contains("more than") => limit_of(phrase) + 1,
        _ if phrase.contains("above") => limit_of(phrase) + 1,
        _ => 2,
    };
    if phrase.contains("weights a frame") {
        *zeros.word(table, record, 2) = 2;
        *zeros.word(table, record, 5) = 1;
    } else if phrase.contains("more than") && word > 1 && is_mark(table, word - 2) {
        *zeros.word(table, record, word - 2) = 1;
    }
    Refusal::OverLimit
}

#[test]
fn every_word_is_found_and_told() {
    let names = "node root channel mesh primitive morph_target in-between skin skeleton";
    let names: Vec<String> = names
        .split(' ')
        .map(|name| name.replace('_', " "))
        .collect();
    assert_eq!(Zeros::new().fault(), None);
    for &(table, word, phrase) in PHRASES {
        for record in [0, TABLES[table as usize].1 - 1] {
            let mut zeros = Zeros::new();
            let refusal = spoil(&mut zeros, record, (table, word, phrase));
            let fault = Fault {
                refusal,
                table,
                record,
                word: Some(word),
            };
            assert_eq!(zeros.fault(), Some(fault), "{phrase}");
            let name = &names[table as usize];
            let text = format!("{name} {record}, word {word}: {phrase}");
            assert_eq!(fault.to_string(), text);
        }
    }
}

#[test]
fn every_table_is_found_and_told() {
    let names = "nodes roots channels meshes primitives morph_targets in-betweens skins skeletons";
    for (table, name) in Table::ALL.into_iter().zip(names.split(' ')) {
        let name = name.replace('_', " ");
        let mut leaving = Zeros::new();
        table_in(&mut leaving.header, table).at = WORDS + 1;
        let fault = leaving.fault().expect("a fault");
        assert_eq!((fault.table, fault.record, fault.word), (table, 0, None));
        assert_eq!(
            fault.to_string(),
            format!("the table of {name} leaves the words")
        );

        let mut many = Zeros::new();
        *table_in(&mut many.header, table) = Part {
            at: 10_000,
            count: 1_025,
        };
        let told = many.fault().map(|fault| fault.to_string());
        let limited = (table as u32) < 3;
        assert_eq!(
            told,
            limited.then(|| format!("there are more than 1,024 {name}"))
        );
    }
}

/// What leaves comes before what is over a limit, and of two alike the first.
#[test]
fn the_first_of_the_lowest_number_is_told() {
    let mut zeros = Zeros::new();
    *zeros.word(Table::Nodes, 1, 0) = 2;
    *zeros.word(Table::Primitives, 3, 2) = 1;
    *zeros.word(Table::Primitives, 3, 3) = WILD;
    *zeros.word(Table::Primitives, 3, 14) = WILD;
    *zeros.word(Table::Skeletons, 2, 0) = WILD;
    let told = zeros.fault().expect("a fault").to_string();
    assert_eq!(told, "primitive 3, word 3: its normals leave the floats");
}

/// The sum of all child entries is passed by the first node with which it is.
#[test]
fn child_entries_are_summed() {
    let mut zeros = Zeros::new();
    for (node, count) in [8_000, 192, 1, 500].into_iter().enumerate() {
        *zeros.word(Table::Nodes, node, 3) = count;
    }
    let fault = zeros.fault().expect("a fault");
    assert_eq!((fault.record, fault.word), (2, Some(3)));
}

/// How the text of each refusal and each reason begins.
const REFUSALS: [&str; 13] = [
    "out of table",
    "over a limit",
    "no time",
    "uneven track",
    "keys out of line",
    "short scratch room",
    "no such node",
    "unplaced",
    "no palette",
    "short output",
    "no common root",
    "no such frame",
    "bad form",
];
const REASONS: [&str; 4] = [
    "it is aimed past the last node",
    "its layout is not even",
    "the kind of its values does not fit",
    "its rotation has no length",
];

#[test]
fn refusals_and_reasons_are_told() {
    for ((number, refusal), text) in (1..).zip(Refusal::ALL).zip(REFUSALS) {
        assert_eq!(refusal.number(), number);
        assert_eq!(Refusal::from_number(number), Some(refusal));
        assert!(refusal.to_string().starts_with(text), "{refusal}");
    }
    assert_eq!(Refusal::from_number(0), None);
    assert_eq!(Refusal::from_number(14), None);
    for ((number, reason), text) in (1..).zip(Reason::ALL).zip(REASONS) {
        assert_eq!(reason as u32, number);
        assert!(reason.to_string().starts_with(text), "{reason}");
    }
}

/// The longest sentence that there is, with the largest record: none is cut off.
#[test]
fn no_text_is_cut_off() {
    for &(table, word, phrase) in PHRASES {
        let fault = Fault {
            refusal: Refusal::OverLimit,
            table,
            record: usize::MAX,
            word: Some(word),
        };
        assert!(fault.to_string().ends_with(phrase), "{fault}");
    }
}
