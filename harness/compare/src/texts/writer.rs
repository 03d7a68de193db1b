//! A plain writer of scenes as bracketed text, written from docs/TEXT.md and
//! docs/TABLES.md, not from the code. The tables are to draw no number.

use mesh3d::raw::{Part, Scene};

const NAN: u32 = 0x7fc0_0000;

pub fn write(lent: &Scene, node: u32, time: f32) -> Vec<u8> {
    let mut writer = Writer {
        lent,
        text: Vec::new(),
    };
    let header = &lent.header;
    writer.scene(node, time);
    writer.table("node", header.graph.nodes, Writer::node);
    writer.table("channel", header.channels, Writer::channel);
    writer.table("mesh", header.meshes.meshes, Writer::mesh);
    writer.table("primitive", header.meshes.primitives, Writer::primitive);
    writer.table("target", header.meshes.targets, Writer::target);
    writer.table("between", header.meshes.in_betweens, Writer::in_between);
    writer.table("skin", header.skins.skins, Writer::skin);
    writer.table("skeleton", header.skins.skeletons, Writer::skeleton);
    writer.text
}

struct Writer<'a> {
    lent: &'a Scene<'a>,
    text: Vec<u8>,
}

impl Writer<'_> {
    fn scene(&mut self, node: u32, time: f32) {
        let roots = self.lent.header.graph.roots;
        self.put("(scene");
        self.numbers("node", &[node]);
        self.floats("time", &[time]);
        self.numbers("roots", &self.lent.words[roots.at..][..roots.count]);
        self.put(")\n");
    }

    /// A form for each record of N words.
    fn table<const N: usize>(&mut self, title: &str, table: Part, form: fn(&mut Self, &[u32; N])) {
        let words = &self.lent.words[table.at..][..N * table.count];
        for record in words.as_chunks().0 {
            self.put("(");
            self.put(title);
            form(self, record);
            self.put(")\n");
        }
    }

    fn node(&mut self, record: &[u32; 16]) {
        let (name, count) = [("parts", 10), ("matrix", 16)][record[0] as usize];
        self.list(name, record[1], count, 1);
        self.ids("children", record[2], record[3], 1);
        self.maybe_number("mesh", &record[4..]);
        self.maybe_number("skin", &record[6..]);
        if record[8] == 1 {
            let weights = part(self.lent.node_weights, record[9], record[10], 1);
            self.floats("weights", weights);
        }
    }

    fn channel(&mut self, record: &[u32; 8]) {
        const PROPERTIES: [&str; 4] = ["translation", "rotation", "scale", "weights"];
        const INTERPOLATIONS: [&str; 3] = ["step", "linear", "cubicspline"];
        const KINDS: [(&str, usize); 3] = [("vec3", 3), ("quat", 4), ("scalar", 1)];
        let [target, property, kind, interpolation, ..] = *record;
        self.numbers("target", &[target]);
        self.numbers(PROPERTIES[property as usize], &[]);
        self.numbers(INTERPOLATIONS[interpolation as usize], &[]);
        self.list("keys", record[4], record[5], 1);
        let (name, width) = KINDS[kind as usize];
        self.list(name, record[6], record[7], width);
    }

    fn mesh(&mut self, record: &[u32; 4]) {
        self.numbers("primitives", &record[..2]);
        let weights = part(self.lent.mesh_weights, record[2], record[3], 1);
        self.floats("weights", weights);
    }

    fn primitive(&mut self, record: &[u32; 16]) {
        self.list("positions", record[0], record[1], 3);
        self.slot("normals", &record[2..], 3);
        self.slot("tangents", &record[5..], 4);
        if record[8] == 1 {
            self.ids("joints", record[9], record[10], 4);
        }
        self.slot("weights", &record[11..], 4);
        self.numbers("targets", &record[14..]);
    }

    fn target(&mut self, record: &[u32; 12]) {
        self.slot("positions", record, 3);
        self.slot("normals", &record[3..], 3);
        self.slot("tangents", &record[6..], 3);
        self.numbers("betweens", &record[9..11]);
    }

    fn in_between(&mut self, record: &[u32; 8]) {
        self.list("weight", record[0], 1, 1);
        self.slot("positions", &record[1..], 3);
        self.slot("normals", &record[4..], 3);
    }

    fn skin(&mut self, record: &[u32; 4]) {
        self.numbers("skeleton", &record[..1]);
        self.maybe_number("root", &record[1..]);
    }

    fn skeleton(&mut self, record: &[u32; 4]) {
        self.ids("joints", record[0], record[1], 1);
        self.list("binds", record[2], record[3], 16);
    }

    fn put(&mut self, word: &str) {
        self.text.extend_from_slice(word.as_bytes());
    }

    fn open(&mut self, name: &str) {
        self.put(" (");
        self.put(name);
    }

    fn numbers(&mut self, name: &str, numbers: &[u32]) {
        self.open(name);
        numbers.iter().for_each(|number| self.number(*number));
        self.put(")");
    }

    fn floats(&mut self, name: &str, floats: &[f32]) {
        self.open(name);
        floats.iter().for_each(|float| self.float(*float));
        self.put(")");
    }

    /// Of entries of so many ids each.
    fn ids(&mut self, name: &str, at: u32, count: u32, width: usize) {
        self.numbers(name, part(self.lent.words, at, count, width));
    }

    /// Of entries of so many floats each.
    fn list(&mut self, name: &str, at: u32, count: u32, width: usize) {
        self.floats(name, part(self.lent.floats, at, count, width));
    }

    /// Where the mark says that it is present.
    fn slot(&mut self, name: &str, words: &[u32], width: usize) {
        if words[0] == 1 {
            self.list(name, words[1], words[2], width);
        }
    }

    fn maybe_number(&mut self, name: &str, words: &[u32]) {
        if words[0] == 1 {
            self.numbers(name, &words[1..2]);
        }
    }

    fn number(&mut self, mut number: u32) {
        let mut item = [b' '; 11];
        let mut at = item.len();
        loop {
            at -= 1;
            item[at] = b'0' + (number % 10) as u8;
            number /= 10;
            if number == 0 {
                break;
            }
        }
        self.text.extend_from_slice(&item[at - 1..]);
    }

    fn float(&mut self, float: f32) {
        const DIGITS: &[u8; 16] = b"0123456789abcdef";
        let bits = if float.is_nan() { NAN } else { float.to_bits() };
        let mut item = [b' '; 9];
        for (k, digit) in item[1..].iter_mut().enumerate() {
            *digit = DIGITS[(bits >> (28 - 4 * k) & 15) as usize];
        }
        self.text.extend_from_slice(&item);
    }
}

fn part<T>(slice: &[T], at: u32, count: u32, width: usize) -> &[T] {
    &slice[at as usize..][..width * count as usize]
}
