//! The tables of a scene of the Rust, with one of its animations.

use super::layout::{tables_of, Layout, Lent, Pool};
use crate::{sampling::bits, tally::UNTOUCHED};
use mesh3d::raw::{Graph, Header, Meshes, Part, Skins};
use oracle::{
    Animation, AnimationChannel, AnimationValues, InBetween, Mesh, MorphTarget, Node, Primitive,
    Scene3D, Skeleton, Skin, Transform,
};

pub fn lend(scene: &Scene3D, animation: &Animation, layout: &mut Layout) -> Lent {
    let mut parts = Parts::new();
    let nodes = rows(&scene.nodes, |node| parts.node(node, layout));
    let channels = rows(&animation.channels, |channel| parts.channel(channel));
    let meshes = rows(&scene.meshes, |mesh| parts.mesh(mesh));
    let skeletons = rows(&scene.skeletons, |skeleton| parts.skeleton(skeleton));
    let primitives = parts.primitives.lay_out(layout, blank());
    let targets = parts.targets.lay_out(layout, blank());
    let in_betweens = parts.in_betweens.lay_out(layout, blank());
    let header = Header {
        graph: Graph {
            nodes: parts.table(&nodes),
            roots: parts.table(&rows(&scene.roots, |root| [Word::Number(root.0)])),
        },
        channels: parts.table(&channels),
        meshes: Meshes {
            meshes: parts.table(&meshes),
            primitives: parts.table(&primitives.entries),
            targets: parts.table(&targets.entries),
            in_betweens: parts.table(&in_betweens.entries),
        },
        skins: Skins {
            skins: parts.table(&rows(&scene.skins, skin)),
            skeletons: parts.table(&skeletons),
        },
    };
    let firsts = [primitives.starts, targets.starts, in_betweens.starts];
    parts.finish(header, firsts, layout)
}

/// What a word of a record says, before it is known where parts lie.
#[derive(Clone, Copy, PartialEq)]
enum Word {
    Number(u32),
    /// Where a part starts.
    Start(Within, usize),
    Unread,
}

/// A slice, or a table in which lists of records lie.
#[derive(Clone, Copy, PartialEq)]
enum Within {
    Words,
    Floats,
    NodeWeights,
    MeshWeights,
    Primitives,
    Targets,
    InBetweens,
}

const ABSENT: [Word; 3] = [Word::Number(0), Word::Unread, Word::Unread];
const PRESENT: Word = Word::Number(1);

fn count_of<T>(entries: &[T]) -> Word {
    Word::Number(u32::try_from(entries.len()).expect("a count of 32 bits"))
}

fn reference(id: Option<u32>) -> [Word; 2] {
    id.map_or([ABSENT[0], ABSENT[1]], |id| [PRESENT, Word::Number(id)])
}

/// A record of these fields; the words behind them are not read.
fn record<const N: usize>(fields: &[&[Word]]) -> [Word; N] {
    let mut record = [Word::Unread; N];
    let fields = fields.concat();
    record[..fields.len()].copy_from_slice(&fields);
    record
}

/// A record of parts without entries, in the gaps of its table.
fn blank<const N: usize>() -> [Word; N] {
    [Word::Number(0); N]
}

fn rows<T, const N: usize>(items: &[T], row: impl FnMut(&T) -> [Word; N]) -> Vec<[Word; N]> {
    items.iter().map(row).collect()
}

fn skin(skin: &Skin) -> [Word; 4] {
    let root = reference(skin.root_node.map(|id| id.0));
    record(&[&[Word::Number(skin.skeleton.0)], &root])
}

fn floats(bits: &[u32]) -> Vec<f32> {
    bits.iter().map(|bits| f32::from_bits(*bits)).collect()
}

/// The parts of each slice, floats as their bits, and of each table in which
/// lists lie.
struct Parts {
    words: Pool<Word>,
    floats: Pool<u32>,
    node_weights: Pool<u32>,
    mesh_weights: Pool<u32>,
    primitives: Pool<[Word; 16]>,
    targets: Pool<[Word; 12]>,
    in_betweens: Pool<[Word; 8]>,
}

impl Parts {
    fn new() -> Self {
        Parts {
            words: Pool::new(),
            floats: Pool::new(),
            node_weights: Pool::new(),
            mesh_weights: Pool::new(),
            primitives: Pool::new(),
            targets: Pool::new(),
            in_betweens: Pool::new(),
        }
    }

    fn node(&mut self, node: &Node, layout: &mut Layout) -> [Word; 16] {
        let (form, base) = match node.transform {
            Transform::Trs {
                translation: t,
                rotation: r,
                scale: s,
            } => (0, [&t[..], &r, &s].concat()),
            Transform::Matrix(m) => (1, m.concat()),
        };
        let base = [Word::Number(form), self.start_of_floats(&base)];
        let children: Vec<u32> = node.children.iter().map(|id| id.0).collect();
        let children = self.ids(&children);
        let mesh = reference(node.mesh.map(|id| id.0));
        let skin = reference(node.skin.map(|id| id.0));
        let weights = self.node_weights(&node.weights, layout);
        record(&[&base, &children, &mesh, &skin, &weights])
    }

    /// The Rust does not tell absent weights from none.
    fn node_weights(&mut self, weights: &[f32], layout: &mut Layout) -> [Word; 3] {
        if weights.is_empty() && !layout.is_empty_present() {
            return ABSENT;
        }
        let part = self.node_weights.add(bits(weights));
        let start = Word::Start(Within::NodeWeights, part);
        [PRESENT, start, count_of(weights)]
    }

    fn channel(&mut self, channel: &AnimationChannel) -> [Word; 8] {
        let sampler = &channel.sampler;
        let (kind, values) = match &sampler.values {
            AnimationValues::Vec3(values) => (0, self.list(values)),
            AnimationValues::Quat(values) => (1, self.list(values)),
            AnimationValues::Scalar(values) => (2, self.floats(values)),
        };
        let tags = [
            channel.target.node.0,
            channel.target.property as u32,
            kind,
            sampler.interpolation as u32,
        ];
        let keys = self.floats(&sampler.keyframes);
        record(&[&tags.map(Word::Number), &keys, &values])
    }

    fn mesh(&mut self, mesh: &Mesh) -> [Word; 4] {
        let primitives = rows(&mesh.primitives, |primitive| self.primitive(primitive));
        let first = Word::Start(Within::Primitives, self.primitives.add(primitives));
        let weights = Word::Start(
            Within::MeshWeights,
            self.mesh_weights.add(bits(&mesh.weights)),
        );
        let (primitives, weights_count) = (count_of(&mesh.primitives), count_of(&mesh.weights));
        [first, primitives, weights, weights_count]
    }

    fn primitive(&mut self, primitive: &Primitive) -> [Word; 16] {
        let positions = self.list(&primitive.positions);
        let normals = self.slot(&primitive.normals);
        let tangents = self.slot(&primitive.tangents);
        let joints = primitive.joints.as_ref().map_or(ABSENT, |joints| {
            let [start, _] = self.ids(joints.as_flattened());
            [PRESENT, start, count_of(joints)]
        });
        let weights = self.slot(&primitive.weights);
        let targets = rows(&primitive.targets, |target| self.target(target));
        let targets = [
            Word::Start(Within::Targets, self.targets.add(targets)),
            count_of(&primitive.targets),
        ];
        record(&[&positions, &normals, &tangents, &joints, &weights, &targets])
    }

    fn target(&mut self, target: &MorphTarget) -> [Word; 12] {
        let positions = self.slot(&target.position);
        let normals = self.slot(&target.normal);
        let tangents = self.slot(&target.tangent);
        let stops = rows(&target.inbetweens, |stop| self.in_between(stop));
        let stops = [
            Word::Start(Within::InBetweens, self.in_betweens.add(stops)),
            count_of(&target.inbetweens),
        ];
        record(&[&positions, &normals, &tangents, &stops])
    }

    fn in_between(&mut self, stop: &InBetween) -> [Word; 8] {
        let weight = self.start_of_floats(&[stop.weight]);
        let (positions, normals) = (self.slot(&stop.position), self.slot(&stop.normal));
        record(&[&[weight], &positions, &normals])
    }

    fn skeleton(&mut self, skeleton: &Skeleton) -> [Word; 4] {
        let joints: Vec<u32> = skeleton.joints.iter().map(|id| id.0).collect();
        let joints = self.ids(&joints);
        let binds = &skeleton.inverse_bind_matrices;
        let start = self.start_of_floats(binds.as_flattened().as_flattened());
        record(&[&joints, &[start, count_of(binds)]])
    }

    fn start_of_floats(&mut self, floats: &[f32]) -> Word {
        Word::Start(Within::Floats, self.floats.add(bits(floats)))
    }

    fn floats(&mut self, floats: &[f32]) -> [Word; 2] {
        [self.start_of_floats(floats), count_of(floats)]
    }

    fn list<const N: usize>(&mut self, rows: &[[f32; N]]) -> [Word; 2] {
        [self.start_of_floats(rows.as_flattened()), count_of(rows)]
    }

    fn slot<const N: usize>(&mut self, rows: &Option<Vec<[f32; N]>>) -> [Word; 3] {
        let Some(rows) = rows else {
            return ABSENT;
        };
        let [start, count] = self.list(rows);
        [PRESENT, start, count]
    }

    fn ids(&mut self, ids: &[u32]) -> [Word; 2] {
        let words = ids.iter().map(|id| Word::Number(*id)).collect();
        [
            Word::Start(Within::Words, self.words.add(words)),
            count_of(ids),
        ]
    }

    /// A table whose start is, as yet, its number among the words' parts.
    fn table<const N: usize>(&mut self, records: &[[Word; N]]) -> Part {
        Part {
            at: self.words.add(records.as_flattened().to_vec()),
            count: records.len(),
        }
    }

    /// `firsts` are the starts of primitives, targets and in-betweens.
    fn finish(self, mut header: Header, firsts: [Vec<usize>; 3], layout: &mut Layout) -> Lent {
        let filler = UNTOUCHED.to_bits();
        let words = self.words.lay_out(layout, Word::Unread);
        let laid_floats = self.floats.lay_out(layout, filler);
        let node_weights = self.node_weights.lay_out(layout, filler);
        let mesh_weights = self.mesh_weights.lay_out(layout, filler);
        for table in tables_of(&mut header) {
            table.at = words.starts[table.at];
        }
        let [primitives, targets, in_betweens] = &firsts;
        let start = |place: Within, part: usize| match place {
            Within::Words => words.starts[part],
            Within::Floats => laid_floats.starts[part],
            Within::NodeWeights => node_weights.starts[part],
            Within::MeshWeights => mesh_weights.starts[part],
            Within::Primitives => primitives[part],
            Within::Targets => targets[part],
            Within::InBetweens => in_betweens[part],
        };
        let number = |word: &Word| match *word {
            Word::Number(number) => number,
            Word::Start(place, part) => {
                u32::try_from(start(place, part)).expect("a start of 32 bits")
            }
            Word::Unread => layout.unread_word(),
        };
        Lent {
            words: words.entries.iter().map(number).collect(),
            floats: floats(&laid_floats.entries),
            node_weights: floats(&node_weights.entries),
            mesh_weights: floats(&mesh_weights.entries),
            header,
        }
    }
}
