//! A plain reader of scenes as bracketed text, written from docs/TEXT.md and
//! docs/TABLES.md, not from the code: one pass from the first byte to the last, a function
//! for each form.

use super::items::{float, floats, number, part};
use mesh3d::raw::{Graph, Header, Meshes, Part, Skins};

pub const OUT_OF_TABLE: u32 = 1;
pub const BAD_FORM: u32 = 13;

/// What a text says: the four slices, the header, and the node and the time
/// asked for, the time as its bits.
#[derive(Clone, Debug)]
pub struct Read {
    pub words: Vec<u32>,
    pub floats: Vec<f32>,
    pub node_weights: Vec<f32>,
    pub mesh_weights: Vec<f32>,
    pub header: Header,
    pub node: u32,
    pub time: u32,
}

/// 13 where the text has no reading, then 1 where a list of records leaves its
/// table.
pub fn read(text: &[u8]) -> Result<Read, u32> {
    let mut reader = Reader::new(text);
    let document = reader.document().ok_or(BAD_FORM)?;
    if !document.has_lists_in_tables() {
        return Err(OUT_OF_TABLE);
    }
    Ok(reader.laid_out(&document))
}

/// Records of N words, one behind the other.
struct Table<const N: usize>(Vec<u32>);

impl<const N: usize> Table<N> {
    fn count(&self) -> usize {
        self.0.len() / N
    }

    /// Whether the records that start at word `first` of each record, and are
    /// as many as the word behind says, are among `count`.
    fn lists_within(&self, first: usize, count: usize) -> bool {
        let ends = |record: &[u32]| record[first] as usize + record[first + 1] as usize;
        self.0.chunks_exact(N).all(|record| ends(record) <= count)
    }
}

struct Document {
    node: u32,
    time: u32,
    roots: [u32; 2],
    nodes: Table<16>,
    channels: Table<8>,
    meshes: Table<4>,
    primitives: Table<16>,
    targets: Table<12>,
    in_betweens: Table<8>,
    skins: Table<4>,
    skeletons: Table<4>,
}

impl Document {
    fn has_lists_in_tables(&self) -> bool {
        self.meshes.lists_within(0, self.primitives.count())
            && self.primitives.lists_within(14, self.targets.count())
            && self.targets.lists_within(9, self.in_betweens.count())
    }
}

/// What is still to be read, and what the forms so far had in their lists.
struct Reader<'a> {
    rest: &'a [u8],
    ids: Vec<u32>,
    floats: Vec<f32>,
    node_weights: Vec<f32>,
    mesh_weights: Vec<f32>,
}

impl<'a> Reader<'a> {
    fn new(text: &'a [u8]) -> Self {
        Reader {
            rest: text,
            ids: Vec::new(),
            floats: Vec::new(),
            node_weights: Vec::new(),
            mesh_weights: Vec::new(),
        }
    }

    fn document(&mut self) -> Option<Document> {
        self.take("(scene")?;
        let node = self.number_of("node")?;
        self.open("time")?;
        self.take(" ")?;
        let time = float(&mut self.rest)?.to_bits();
        self.take(")")?;
        self.open("roots")?;
        let roots = self.ids(1)?;
        self.take(")\n")?;
        let document = Document {
            node,
            time,
            roots,
            nodes: self.table("(node", Self::node)?,
            channels: self.table("(channel", Self::channel)?,
            meshes: self.table("(mesh", Self::mesh)?,
            primitives: self.table("(primitive", Self::primitive)?,
            targets: self.table("(target", Self::target)?,
            in_betweens: self.table("(between", Self::in_between)?,
            skins: self.table("(skin", Self::skin)?,
            skeletons: self.table("(skeleton", Self::skeleton)?,
        };
        self.rest.is_empty().then_some(document)
    }

    /// The records of all forms of a kind, which starts with `title`.
    fn table<const N: usize>(
        &mut self,
        title: &str,
        record: fn(&mut Self) -> Option<[u32; N]>,
    ) -> Option<Table<N>> {
        let mut records = Vec::new();
        while self.is_next(title) {
            records.extend_from_slice(&record(self)?);
            self.take(")\n")?;
        }
        Some(Table(records))
    }

    fn node(&mut self) -> Option<[u32; 16]> {
        let (tag, base) = if self.has("parts") {
            (0, self.floats_of(10, Some(1))?)
        } else {
            self.open("matrix")?;
            (1, self.floats_of(16, Some(1))?)
        };
        self.open("children")?;
        let children = self.ids(1)?;
        let mesh = self.maybe_number("mesh")?;
        let skin = self.maybe_number("skin")?;
        let weights = if self.has("weights") {
            let [at, count] = floats(&mut self.rest, &mut self.node_weights, 1)?;
            [1, at, count]
        } else {
            [0; 3]
        };
        Some(record(&[
            &[tag, base[0]],
            &children,
            &mesh,
            &skin,
            &weights,
        ]))
    }

    fn channel(&mut self) -> Option<[u32; 8]> {
        let target = self.number_of("target")?;
        let property = self.one_of(&["translation", "rotation", "scale", "weights"])?;
        self.take(")")?;
        let interpolation = self.one_of(&["step", "linear", "cubicspline"])?;
        self.take(")")?;
        self.open("keys")?;
        let keys = self.floats_of(1, None)?;
        let kind = self.one_of(&["vec3", "quat", "scalar"])?;
        let values = self.floats_of([3, 4, 1][kind as usize], None)?;
        Some(record(&[
            &[target, property, kind, interpolation],
            &keys,
            &values,
        ]))
    }

    fn mesh(&mut self) -> Option<[u32; 4]> {
        let primitives = self.list_of("primitives")?;
        self.open("weights")?;
        let weights = floats(&mut self.rest, &mut self.mesh_weights, 1)?;
        Some(record(&[&primitives, &weights]))
    }

    fn primitive(&mut self) -> Option<[u32; 16]> {
        self.open("positions")?;
        let positions = self.floats_of(3, None)?;
        let normals = self.maybe_floats("normals", 3)?;
        let tangents = self.maybe_floats("tangents", 4)?;
        let joints = if self.has("joints") {
            let [at, count] = self.ids(4)?;
            [1, at, count]
        } else {
            [0; 3]
        };
        let weights = self.maybe_floats("weights", 4)?;
        let targets = self.list_of("targets")?;
        Some(record(&[
            &positions, &normals, &tangents, &joints, &weights, &targets,
        ]))
    }

    fn target(&mut self) -> Option<[u32; 12]> {
        let positions = self.maybe_floats("positions", 3)?;
        let normals = self.maybe_floats("normals", 3)?;
        let tangents = self.maybe_floats("tangents", 3)?;
        let in_betweens = self.list_of("betweens")?;
        Some(record(&[&positions, &normals, &tangents, &in_betweens]))
    }

    fn in_between(&mut self) -> Option<[u32; 8]> {
        self.open("weight")?;
        let weight = self.floats_of(1, Some(1))?;
        let positions = self.maybe_floats("positions", 3)?;
        let normals = self.maybe_floats("normals", 3)?;
        Some(record(&[&weight[..1], &positions, &normals]))
    }

    fn skin(&mut self) -> Option<[u32; 4]> {
        let skeleton = self.number_of("skeleton")?;
        let root = self.maybe_number("root")?;
        Some(record(&[&[skeleton], &root]))
    }

    fn skeleton(&mut self) -> Option<[u32; 4]> {
        self.open("joints")?;
        let joints = self.ids(1)?;
        self.open("binds")?;
        let binds = self.floats_of(16, None)?;
        Some(record(&[&joints, &binds]))
    }

    fn take(&mut self, word: &str) -> Option<()> {
        self.rest = self.rest.strip_prefix(word.as_bytes())?;
        Some(())
    }

    /// Takes a title or a name where it is next and whole.
    fn is_next(&mut self, word: &str) -> bool {
        match self.rest.strip_prefix(word.as_bytes()) {
            Some(rest @ [b' ' | b')', ..]) => {
                self.rest = rest;
                true
            }
            _ => false,
        }
    }

    /// Takes the start of a field where it is next.
    fn has(&mut self, name: &str) -> bool {
        let before = self.rest;
        let is_next = self.take(" (").is_some() && self.is_next(name);
        if !is_next {
            self.rest = before;
        }
        is_next
    }

    fn open(&mut self, name: &str) -> Option<()> {
        self.has(name).then_some(())
    }

    /// The start of a field of one of these names; answers which.
    fn one_of(&mut self, names: &[&str]) -> Option<u32> {
        let which = names.iter().position(|name| self.has(name))?;
        Some(which as u32)
    }

    fn number_of(&mut self, name: &str) -> Option<u32> {
        self.open(name)?;
        self.one_number()
    }

    fn one_number(&mut self) -> Option<u32> {
        self.take(" ")?;
        let number = number(&mut self.rest)?;
        self.take(")")?;
        Some(number)
    }

    fn maybe_number(&mut self, name: &str) -> Option<[u32; 2]> {
        if !self.has(name) {
            return Some([0; 2]);
        }
        Some([1, self.one_number()?])
    }

    /// A field of a first record and how many there are.
    fn list_of(&mut self, name: &str) -> Option<[u32; 2]> {
        self.open(name)?;
        self.take(" ")?;
        let first = number(&mut self.rest)?;
        Some([first, self.one_number()?])
    }

    /// The items of a field of ids, so many an entry: where they start, and how
    /// many entries there are.
    fn ids(&mut self, width: usize) -> Option<[u32; 2]> {
        let at = self.ids.len();
        while let Some(rest) = self.rest.strip_prefix(b" ") {
            self.rest = rest;
            self.ids.push(number(&mut self.rest)?);
        }
        self.take(")")?;
        part(at, self.ids.len() - at, width)
    }

    /// The items of a field of floats, likewise; `count` is how many entries
    /// there must be.
    fn floats_of(&mut self, width: usize, count: Option<u32>) -> Option<[u32; 2]> {
        let part = floats(&mut self.rest, &mut self.floats, width)?;
        count.is_none_or(|count| part[1] == count).then_some(part)
    }

    fn maybe_floats(&mut self, name: &str, width: usize) -> Option<[u32; 3]> {
        if !self.has(name) {
            return Some([0; 3]);
        }
        let [at, count] = self.floats_of(width, None)?;
        Some([1, at, count])
    }

    /// All lists of ids, and then the records of each kind.
    fn laid_out(self, document: &Document) -> Read {
        let Document { node, time, .. } = *document;
        let mut words = self.ids;
        let roots = document.roots.map(|word| word as usize);
        let header = Header {
            graph: Graph {
                nodes: add(&mut words, &document.nodes),
                roots: Part {
                    at: roots[0],
                    count: roots[1],
                },
            },
            channels: add(&mut words, &document.channels),
            meshes: Meshes {
                meshes: add(&mut words, &document.meshes),
                primitives: add(&mut words, &document.primitives),
                targets: add(&mut words, &document.targets),
                in_betweens: add(&mut words, &document.in_betweens),
            },
            skins: Skins {
                skins: add(&mut words, &document.skins),
                skeletons: add(&mut words, &document.skeletons),
            },
        };
        Read {
            words,
            floats: self.floats,
            node_weights: self.node_weights,
            mesh_weights: self.mesh_weights,
            header,
            node,
            time,
        }
    }
}

fn add<const N: usize>(words: &mut Vec<u32>, table: &Table<N>) -> Part {
    let at = words.len();
    words.extend_from_slice(&table.0);
    Part {
        at,
        count: table.count(),
    }
}

/// A record of these fields; the words behind them are 0.
fn record<const N: usize>(fields: &[&[u32]]) -> [u32; N] {
    let mut record = [0; N];
    let words = fields.iter().copied().flatten();
    record
        .iter_mut()
        .zip(words)
        .for_each(|(to, word)| *to = *word);
    record
}
