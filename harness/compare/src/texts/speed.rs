//! The speed of reading and writing beside the plain reader and writer, a byte
//! of the text; and a call on a small text. The plain ones make what they fill.

use super::{reader, slices::Slices, writer};
use crate::{
    graph::no_animation,
    measure::side_by_side,
    rng::Rng,
    tables::{build::lend, layout::Layout},
};
use mesh3d::raw::{self, Scene};
use oracle::{Mesh, MeshId, Node, NodeId, Primitive, Scene3D};
use std::{array::from_fn, fs, hint::black_box, iter::repeat_with};

const OAR: &str = concat!(env!("CARGO_MANIFEST_DIR"), "/../../examples/oar.txt");
const ASKED: (u32, f32) = (0, 0.5);
/// Vertices of a primitive, and primitives, of texts mostly of floats, 90 bytes
/// a vertex.
const OF_FLOATS: [(&str, usize, usize); 4] = [
    ("4 KB of floats", 44, 1),
    ("64 KB of floats", 720, 1),
    ("1 MB of floats", 11_600, 1),
    ("10 MB of floats", 58_000, 2),
];
/// Vertices of a primitive whose text is mostly of ids, four a vertex.
const OF_IDS: usize = 41_000;

pub fn measure() {
    let mut rng = Rng::new(1);
    measure_scene("a small text", false, &Scene3D::new());
    for (name, vertices, primitives) in OF_FLOATS {
        let primitives = repeat_with(|| of_floats(&mut rng, vertices)).take(primitives);
        let scene = with_primitives(primitives.collect());
        measure_scene(name, true, &scene);
    }
    let joints = with_primitives(vec![of_ids(&mut rng, |rng| rng.below(256) as u32)]);
    measure_scene("joints below 256", true, &joints);
    let ids = |rng: &mut Rng| rng.bits() as u32 >> rng.below(32);
    let ids = with_primitives(vec![of_ids(&mut rng, ids)]);
    measure_scene("ids of any length", true, &ids);
    measure_scene("1,024 nodes", true, &of_nodes());
    let oar = fs::read(OAR).unwrap_or_else(|e| panic!("{OAR}: {e}"));
    measure_text("the oar of examples/", true, &oar);
}

fn measure_scene(name: &str, per_byte: bool, scene: &Scene3D) {
    let lent = lend(scene, &no_animation(), &mut Layout::Compact);
    let text = writer::write(&lent.of_port(), ASKED.0, ASKED.1);
    measure_text(name, per_byte, &text);
}

/// A byte, or a call.
fn measure_text(name: &str, per_byte: bool, text: &[u8]) {
    let results = if per_byte { text.len() } else { 1 };
    let (mut slices, reading) = Slices::of(text);
    assert_eq!(reading.number, 0, "the speed of a refusal");
    measure_reading(name, results, text, &mut slices);
    let asked = (reading.node, reading.time);
    measure_writing(name, results, &slices.scene(reading.header), asked, text);
}

fn measure_reading(name: &str, results: usize, text: &[u8], slices: &mut Slices) {
    let plain = || {
        let read = reader::read(black_box(text));
        assert!(black_box(read).is_ok(), "the speed of a refusal");
    };
    side_by_side(
        &format!("read_scene, {name}"),
        results,
        || {
            black_box(black_box(&mut *slices).read(black_box(text)));
        },
        plain,
    );
    side_by_side(
        &format!("text_room, {name}"),
        results,
        || {
            black_box(raw::text_room(black_box(text)));
        },
        plain,
    );
}

fn measure_writing(name: &str, results: usize, lent: &Scene, asked: (u32, f32), text: &[u8]) {
    let mut out = vec![0; text.len()];
    let write = |out: &mut [u8]| raw::write_scene(black_box(lent), asked.0, asked.1, out);
    assert_eq!(write(&mut out).number, 0, "the speed of a refusal");
    assert!(out == text, "the speed of another text");
    let plain = || {
        black_box(writer::write(black_box(lent), asked.0, asked.1));
    };
    side_by_side(
        &format!("write_scene, {name}"),
        results,
        || {
            black_box(write(black_box(&mut out)));
        },
        plain,
    );
    side_by_side(
        &format!("text_length, {name}"),
        results,
        || {
            black_box(raw::text_length(black_box(lent), asked.0, asked.1));
        },
        plain,
    );
}

fn with_primitives(primitives: Vec<Primitive>) -> Scene3D {
    Scene3D {
        nodes: vec![Node {
            mesh: Some(MeshId(0)),
            ..Node::new()
        }],
        roots: vec![NodeId(0)],
        meshes: vec![Mesh {
            primitives,
            ..Mesh::default()
        }],
        ..Scene3D::new()
    }
}

fn of_floats(rng: &mut Rng, vertices: usize) -> Primitive {
    Primitive {
        positions: rows(rng, vertices),
        normals: Some(rows(rng, vertices)),
        tangents: Some(rows(rng, vertices)),
        ..Primitive::default()
    }
}

/// Numbers of the unit range.
fn rows<const N: usize>(rng: &mut Rng, count: usize) -> Vec<[f32; N]> {
    repeat_with(|| from_fn(|_| rng.signed_unit()))
        .take(count)
        .collect()
}

fn of_ids(rng: &mut Rng, id: fn(&mut Rng) -> u32) -> Primitive {
    let joints = repeat_with(|| from_fn(|_| id(rng))).take(OF_IDS);
    Primitive {
        joints: Some(joints.collect()),
        ..Primitive::default()
    }
}

/// Each lists the next one.
fn of_nodes() -> Scene3D {
    let node = |id: u32| Node {
        children: vec![NodeId(id + 1)],
        ..Node::new()
    };
    Scene3D {
        nodes: (0..1_024).map(node).collect(),
        roots: vec![NodeId(0)],
        ..Scene3D::new()
    }
}
