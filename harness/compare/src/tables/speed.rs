//! The speed of the number that tables draw and of the search for a fault, at
//! the limits. Vertices are not looked at: parts lie over each other, and the
//! time is that of the records.

use super::{
    layout::Lent,
    numbers::{fault, number},
};
use crate::measure::side_by_side;
use mesh3d::raw::{self, Fault, Graph, Header, Meshes, Part, Scene, Skins};
use std::hint::black_box;

const PRIMITIVES: u32 = 64;
const TARGETS: u32 = PRIMITIVES * 64;
const IN_BETWEENS: u32 = TARGETS * 16;

pub fn measure() {
    for vertices in [65_535, 1] {
        let lent = at_limits(vertices);
        let lent = lent.of_port();
        let drawn = [number(&lent), raw::tables_number(&lent)];
        assert_eq!(drawn, [0; 2], "the speed of a refusal");
        side_by_side(
            &format!("tables_number, vertices {vertices}"),
            1,
            || {
                black_box(raw::tables_number(black_box(&lent)));
            },
            || {
                black_box(number_of(black_box(&lent)));
            },
        );
    }
    measure_fault();
}

/// Of a scene whose last record, a skeleton, has too many joints.
fn measure_fault() {
    let mut lent = at_limits(1);
    lent.words[lent.header.skins.skeletons.at + 1] = 257;
    let lent = lent.of_port();
    let found = [fault(&lent), raw::find_fault(&lent)];
    assert_eq!(found.map(|fault| (fault.table, fault.word)), [(8, 1); 2]);
    side_by_side(
        "find_fault, in the last record",
        1,
        || {
            black_box(raw::find_fault(black_box(&lent)));
        },
        || {
            black_box(fault_of(black_box(&lent)));
        },
    );
}

#[inline(never)]
fn fault_of(lent: &Scene) -> Fault {
    fault(lent)
}

#[inline(never)]
fn number_of(lent: &Scene) -> u32 {
    number(lent)
}

/// 1,024 nodes with 8 children each, 1,024 roots, 1,024 channels of 65,535 keys
/// and 64 weights a frame, one mesh, and a skeleton of 256 joints.
fn at_limits(vertices: u32) -> Lent {
    let v = vertices;
    let mut words = Vec::new();
    let header = Header {
        graph: Graph {
            nodes: add(&mut words, 1_024, |_| {
                [0, 0, 0, 8, 1, 0, 1, 0, 1, 0, 64, 0, 0, 0, 0, 0]
            }),
            roots: add(&mut words, 1_024, |id| [id]),
        },
        channels: add(&mut words, 1_024, |id| {
            [id, 3, 2, 1, 0, 65_535, 0, 64 * 65_535]
        }),
        meshes: Meshes {
            meshes: add(&mut words, 1, |_| [0, PRIMITIVES, 0, 64]),
            primitives: add(&mut words, PRIMITIVES, |k| {
                [0, v, 1, 0, v, 1, 0, v, 1, 0, v, 1, 0, v, 64 * k, 64]
            }),
            targets: add(&mut words, TARGETS, |k| {
                [1, 0, v, 1, 0, v, 1, 0, v, 16 * k, 16, 0]
            }),
            in_betweens: add(&mut words, IN_BETWEENS, |_| [0, 1, 0, v, 1, 0, v, 0]),
        },
        skins: Skins {
            skins: add(&mut words, 1, |_| [0, 1, 0, 0]),
            skeletons: add(&mut words, 1, |_| [0, 256, 0, 256]),
        },
    };
    Lent {
        words,
        floats: vec![0.0; 64 * 65_535],
        node_weights: vec![0.0; 64],
        mesh_weights: vec![0.0; 64],
        header,
    }
}

fn add<const N: usize>(words: &mut Vec<u32>, count: u32, record: impl Fn(u32) -> [u32; N]) -> Part {
    let at = words.len();
    words.extend((0..count).flat_map(record));
    Part {
        at,
        count: count as usize,
    }
}
