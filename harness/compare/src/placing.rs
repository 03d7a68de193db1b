//! The Rust's placing on every listing of one, two or three nodes whose child
//! lists rise: its checksum is the one that the model has by proof
//! (crates/model/proofs/Small.antt, which also numbers the listings).

use oracle::{Node, NodeId, Pose, Scene3D, Transform};

const PROVED: u32 = 1932848604;

pub fn compare() -> bool {
    let (mut listings, mut sum) = (0, 7);
    for scene in all_listings() {
        let places = places(&scene);
        sum = places.iter().fold(sum, |sum, place| mix(sum, *place));
        sum = mix(sum, taken(&scene, &places));
        listings += 1;
    }
    println!("placing: {listings} listings, checksum {sum}");
    sum == PROVED
}

fn mix(sum: u32, x: u32) -> u32 {
    sum.wrapping_mul(31).wrapping_add(x)
}

pub fn all_listings() -> impl Iterator<Item = Scene3D> {
    (1..=3).flat_map(|n| (0..1 << (n + n * n)).map(move |k| listing(n, k)))
}

/// Listing k of n nodes: its binary digits, the top one first, tell of each
/// node whether it is a root, then for each node of each id whether it is
/// listed there.
fn listing(n: u32, k: u32) -> Scene3D {
    let digits = n + n * n;
    let is_set = |digit: u32| k >> (digits - 1 - digit) & 1 == 1;
    let ids = |row: u32| (0..n).filter(move |id| is_set(row * n + id)).map(NodeId);
    let mut scene = Scene3D::new();
    for i in 0..n {
        scene.add_node(Node {
            transform: Transform::Trs {
                translation: [own_x(i), 0.0, 0.0],
                rotation: [0.0, 0.0, 0.0, 1.0],
                scale: [1.0; 3],
            },
            children: ids(1 + i).collect(),
            ..Node::new()
        });
    }
    ids(0).for_each(|id| scene.add_root(id));
    scene
}

/// 4^i: a node's x in the world is then the sum over it and all above it, which
/// no other node shares.
fn own_x(i: u32) -> f32 {
    (1 << (2 * i)) as f32
}

/// Of each node: 0 where it is not placed, 1 for a root, p + 2 below node p.
pub fn places(scene: &Scene3D) -> Vec<u32> {
    let worlds = scene.posed_node_transforms(&Pose::new(scene.nodes.len()));
    let xs: Vec<Option<f32>> = worlds.iter().map(|w| w.map(|m| m[0][3])).collect();
    let place = |(i, x): (u32, &Option<f32>)| {
        let parent_at = |above| xs.iter().position(|x| *x == Some(above));
        match x.map(|x| x - own_x(i)) {
            None => 0,
            Some(0.0) => 1,
            Some(above) => 2 + parent_at(above).expect("a placed node") as u32,
        }
    };
    (0..).zip(&xs).map(place).collect()
}

/// The entries taken: the roots, and what the placed nodes list.
fn taken(scene: &Scene3D, places: &[u32]) -> u32 {
    let placed = scene
        .nodes
        .iter()
        .zip(places)
        .filter(|(_, place)| **place > 0);
    let listed: usize = placed.map(|(node, _)| node.children.len()).sum();
    (scene.roots.len() + listed) as u32
}
