//! The sorts of scenes that are written and read back.

use mesh3d::raw::{Part, Scene};

pub const SORTS: [&str; 16] = [
    "a NaN",
    "another NaN",
    "an infinity",
    "no nodes",
    "a matrix",
    "a mesh that is not there",
    "weights of a node",
    "empty weights of a node",
    "weights of a mesh",
    "absent normals",
    "empty normals",
    "a primitive that nothing lists",
    "a primitive in two lists",
    "a target that nothing lists",
    "an in-between that nothing lists",
    "an in-between in two lists",
];

/// Whether a scene has what each sort names; `text` is its text.
pub fn sorts(lent: &Scene, text: &[u8]) -> [bool; SORTS.len()] {
    let tables = &lent.header.meshes;
    let nodes: Vec<&[u32]> = records(lent, lent.header.graph.nodes, 16).collect();
    let primitives: Vec<&[u32]> = records(lent, tables.primitives, 16).collect();
    let meshes = records(lent, tables.meshes, 4);
    let of_primitives = times_listed(meshes, 0, tables.primitives.count);
    let of_targets = times_listed(primitives.iter().copied(), 14, tables.targets.count);
    let targets = records(lent, tables.targets, 12);
    let of_in_betweens = times_listed(targets, 9, tables.in_betweens.count);
    let is_in_text = |word: &[u8]| text.windows(word.len()).any(|there| there == word);
    let is_other_nan = |x: &f32| x.is_nan() && x.to_bits() != f32::NAN.to_bits();
    [
        is_in_text(b" 7fc00000"),
        lent.floats.iter().any(is_other_nan),
        is_in_text(b" 7f800000"),
        nodes.is_empty(),
        nodes.iter().any(|node| node[0] == 1),
        nodes
            .iter()
            .any(|node| node[4] == 1 && node[5] as usize >= tables.meshes.count),
        nodes.iter().any(|node| node[8] == 1 && node[10] > 0),
        nodes.iter().any(|node| node[8] == 1 && node[10] == 0),
        records(lent, tables.meshes, 4).any(|mesh| mesh[3] > 0),
        primitives.iter().any(|primitive| primitive[2] == 0),
        primitives
            .iter()
            .any(|primitive| primitive[2] == 1 && primitive[4] == 0),
        of_primitives.contains(&0),
        of_primitives.iter().any(|times| *times > 1),
        of_targets.contains(&0),
        of_in_betweens.contains(&0),
        of_in_betweens.iter().any(|times| *times > 1),
    ]
}

fn records<'a>(lent: &Scene<'a>, table: Part, width: usize) -> impl Iterator<Item = &'a [u32]> {
    let words = &lent.words[table.at..][..width * table.count];
    words.chunks_exact(width)
}

/// How often each of `count` records is listed, the first and how many there
/// are standing at a word of the records that list them.
fn times_listed<'a>(lists: impl Iterator<Item = &'a [u32]>, at: usize, count: usize) -> Vec<u32> {
    let mut times = vec![0; count];
    for list in lists {
        let (first, count) = (list[at] as usize, list[at + 1] as usize);
        times[first..][..count]
            .iter_mut()
            .for_each(|times| *times += 1);
    }
    times
}
