//! A scene read back from its tables, as docs/TABLES.md lists the words.

use mesh3d::{
    Base, Builder, Channel, InBetween, Interpolation, Mesh, Node, Part, Primitive, Scene, Skeleton,
    Skin, Target, Values,
};

/// The parts that the tables say.
pub fn read(scene: &Scene) -> Builder {
    let header = scene.header;
    Builder {
        nodes: all(scene, header.graph.nodes, node),
        roots: all(scene, header.graph.roots, |_, [root]: [u32; 1]| root),
        channels: all(scene, header.channels, channel),
        meshes: all(scene, header.meshes.meshes, mesh),
        skins: all(scene, header.skins.skins, skin),
        skeletons: all(scene, header.skins.skeletons, skeleton),
    }
}

fn all<const N: usize, T>(
    scene: &Scene,
    table: Part,
    read: impl Fn(&Scene, [u32; N]) -> T,
) -> Vec<T> {
    let words = &scene.words[table.at..][..N * table.count];
    let records = words.as_chunks().0.iter();
    records.map(|record| read(scene, *record)).collect()
}

/// Records that a record lists: first and count.
fn listed(table: Part, first: u32, count: u32, words: usize) -> Part {
    assert!(first as usize + count as usize <= table.count);
    Part {
        at: table.at + first as usize * words,
        count: count as usize,
    }
}

fn rows<const N: usize>(slice: &[f32], at: u32, count: u32) -> Vec<[f32; N]> {
    let floats = &slice[at as usize..][..N * count as usize];
    floats.as_chunks().0.to_vec()
}

fn ids(scene: &Scene, at: u32, count: u32) -> Vec<u32> {
    scene.words[at as usize..][..count as usize].to_vec()
}

fn slot<const N: usize>(scene: &Scene, part: &[u32]) -> Option<Vec<[f32; N]>> {
    (part[0] == 1).then(|| rows(scene.floats, part[1], part[2]))
}

fn reference(part: &[u32]) -> Option<u32> {
    (part[0] == 1).then_some(part[1])
}

fn node(scene: &Scene, record: [u32; 16]) -> Node {
    let weights = rows::<1>(scene.node_weights, record[9], record[10]).concat();
    Node {
        base: match record[0] {
            0 => {
                let [parts] = rows::<10>(scene.floats, record[1], 1)[..] else {
                    panic!("one row")
                };
                Base::Parts {
                    translation: [parts[0], parts[1], parts[2]],
                    rotation: [parts[3], parts[4], parts[5], parts[6]],
                    scale: [parts[7], parts[8], parts[9]],
                }
            }
            _ => Base::Matrix(std::array::from_fn(|k| {
                rows::<4>(scene.floats, record[1], 4)[k]
            })),
        },
        children: ids(scene, record[2], record[3]),
        mesh: reference(&record[4..6]),
        skin: reference(&record[6..8]),
        weights: (record[8] == 1).then_some(weights),
    }
}

fn channel(scene: &Scene, record: [u32; 8]) -> Channel {
    let [node, property, kind, interpolation, keys, key_count, at, count] = record;
    let floats = scene.floats;
    Channel {
        node,
        interpolation: match interpolation {
            0 => Interpolation::Step,
            1 => Interpolation::Linear,
            _ => Interpolation::CubicSpline,
        },
        keys: rows::<1>(floats, keys, key_count).concat(),
        values: match (property, kind) {
            (0, 0) => Values::Translation(rows(floats, at, count)),
            (1, 1) => Values::Rotation(rows(floats, at, count)),
            (2, 0) => Values::Scale(rows(floats, at, count)),
            (3, 2) => Values::Weights(rows::<1>(floats, at, count).concat()),
            tags => panic!("property and kind {tags:?}"),
        },
    }
}

fn mesh(scene: &Scene, [first, count, weights, weight_count]: [u32; 4]) -> Mesh {
    let primitives = listed(scene.header.meshes.primitives, first, count, 16);
    Mesh {
        primitives: all(scene, primitives, primitive),
        weights: rows::<1>(scene.mesh_weights, weights, weight_count).concat(),
    }
}

fn primitive(scene: &Scene, record: [u32; 16]) -> Primitive {
    let targets = listed(scene.header.meshes.targets, record[14], record[15], 12);
    let joints = ids(scene, record[9], 4 * record[10]);
    Primitive {
        positions: rows(scene.floats, record[0], record[1]),
        normals: slot(scene, &record[2..5]),
        tangents: slot(scene, &record[5..8]),
        joints: (record[8] == 1).then(|| joints.as_chunks().0.to_vec()),
        weights: slot(scene, &record[11..14]),
        targets: all(scene, targets, target),
    }
}

fn target(scene: &Scene, record: [u32; 12]) -> Target {
    let in_betweens = listed(scene.header.meshes.in_betweens, record[9], record[10], 8);
    Target {
        positions: slot(scene, &record[..3]),
        normals: slot(scene, &record[3..6]),
        tangents: slot(scene, &record[6..9]),
        in_betweens: all(scene, in_betweens, in_between),
    }
}

fn in_between(scene: &Scene, record: [u32; 8]) -> InBetween {
    InBetween {
        weight: scene.floats[record[0] as usize],
        positions: slot(scene, &record[1..4]),
        normals: slot(scene, &record[4..7]),
    }
}

fn skin(_: &Scene, [skeleton, mark, root, _]: [u32; 4]) -> Skin {
    Skin {
        skeleton,
        root: reference(&[mark, root]),
    }
}

fn skeleton(scene: &Scene, [joints, count, binds, bind_count]: [u32; 4]) -> Skeleton {
    let rows = rows::<16>(scene.floats, binds, bind_count);
    let matrix = |row: [f32; 16]| std::array::from_fn(|k| row.as_chunks().0[k]);
    Skeleton {
        joints: ids(scene, joints, count),
        inverse_binds: rows.into_iter().map(matrix).collect(),
    }
}
