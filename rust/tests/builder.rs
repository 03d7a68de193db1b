//! Scenes from the builder: laid out as docs/TABLES.md says, and never out of table.

mod common;
#[path = "common/read.rs"]
mod read;

use common::{scene, Rng};
use mesh3d::{
    raw, Baked, Base, Buffers, Builder, Channel, Interpolation, Mesh, Node, Primitive, Scene,
    Skeleton, Skin, Values,
};

const SCENES: u64 = 4_000;

#[test]
fn random_scenes_draw_nothing() {
    for seed in 0..SCENES {
        let built = scene(&mut Rng::new(seed)).build().expect("words enough");
        assert_eq!(built.check(), Ok(()), "seed {seed}");
        assert_eq!(built.fault(), None, "seed {seed}");
    }
}

#[test]
fn tables_say_what_was_put_in() {
    for seed in 0..SCENES {
        let parts = scene(&mut Rng::new(seed));
        let built = parts.build().expect("words enough");
        assert_eq!(read::read(&built.as_scene()), parts, "seed {seed}");
    }
}

fn bits<const N: usize>(rows: &[[f32; N]]) -> Vec<u32> {
    rows.as_flattened().iter().map(|x| x.to_bits()).collect()
}

fn bits_of(baked: &Baked) -> [Vec<u32>; 3] {
    [
        bits(&baked.positions),
        bits(&baked.normals),
        bits(&baked.tangents),
    ]
}

/// By the C function, with more room than is needed.
fn raw_bake(scene: &Scene, node: u32, time: f32) -> Result<[Vec<u32>; 3], u32> {
    let (mut marks, mut slots) = ([7; 100], [0.5; 200]);
    let (mut walk, mut places, mut worlds) = ([7; 100], [7; 50], [0.5; 300]);
    let mut outputs = [[0.5; 100]; 3];
    let [positions, normals, tangents] = &mut outputs;
    let mut scratch = raw::Scratch {
        marks: &mut marks,
        slots: &mut slots,
        walk: &mut walk,
        places: &mut places,
        worlds: &mut worlds,
    };
    let mut vertices = raw::Vertices {
        positions,
        normals,
        tangents,
    };
    let told = raw::bake(scene, node, time, &mut scratch, &mut vertices);
    let lens = [told.positions, told.normals, told.tangents];
    let floats = |k: usize| outputs[k][..lens[k]].iter().map(|x| x.to_bits()).collect();
    match told.number {
        0 => Ok([floats(0), floats(1), floats(2)]),
        number => Err(number),
    }
}

#[test]
fn bakes_have_the_bits_of_the_c_function() {
    let mut numbers = [0; 13];
    for seed in 0..SCENES {
        let built = scene(&mut Rng::new(seed)).build().expect("words enough");
        for (node, time) in (0..9).zip([-1.0, 0.0, 0.5, 1.0, 1.25, 9.0, f32::NAN, 0.75, 2.0]) {
            let baked = built.bake(node, time);
            let of_raw = raw_bake(&built.as_scene(), node, time);
            let number = baked
                .as_ref()
                .map_or_else(|refusal| refusal.number(), |_| 0);
            let of_safe = baked.as_ref().map(bits_of).map_err(|r| r.number());
            assert_eq!(of_safe, of_raw, "seed {seed}, node {node}");
            numbers[number as usize] += 1;
        }
    }
    for number in [0, 3, 7, 8, 9] {
        assert!(numbers[number] > 100, "{number} in {numbers:?}");
    }
}

const MATRIX: [[f32; 4]; 4] = [
    [1.0, 0.0, 0.0, 2.0],
    [0.0, 1.0, 0.0, 0.0],
    [0.0, 0.0, 1.0, 0.0],
    [0.0, 0.0, 0.0, 1.0],
];
const TRIANGLE: [[f32; 3]; 3] = [[0.0, 0.0, 0.0], [1.0, 0.0, 0.0], [0.0, 1.0, 0.0]];

/// The small scene of docs/TABLES.md, its words and floats as they stand there.
fn small_tables() -> (Vec<u32>, Vec<f32>, raw::Header) {
    let mut words = vec![0; 62];
    words[2..4].copy_from_slice(&[44, 1]);
    words[16..21].copy_from_slice(&[1, 10, 0, 0, 1]);
    words[32..40].copy_from_slice(&[0, 0, 0, 1, 26, 2, 28, 2]);
    words[40..46].copy_from_slice(&[0, 1, 0, 0, 1, 0]);
    words[46..48].copy_from_slice(&[34, 3]);
    let parts = [0.0, 0.0, 0.0, 0.0, 0.0, 0.0, 1.0, 1.0, 1.0, 1.0];
    let track = [0.0, 1.0, 0.0, 0.0, 0.0, 4.0, 0.0, 0.0];
    let (matrix, triangle) = (MATRIX.as_flattened(), TRIANGLE.as_flattened());
    let floats = [&parts[..], matrix, &track, triangle].concat();
    let part = |at, count| raw::Part { at, count };
    let mut header = raw::Header::default();
    header.graph.nodes = part(0, 2);
    header.graph.roots = part(45, 1);
    header.channels = part(32, 1);
    header.meshes.meshes = part(40, 1);
    header.meshes.primitives = part(46, 1);
    (words, floats, header)
}

#[test]
fn small_scene_has_the_bits_of_its_tables() {
    let (words, floats, header) = small_tables();
    let by_hand = Scene {
        words: &words,
        floats: &floats,
        node_weights: &[],
        mesh_weights: &[],
        header,
    };
    let built = small_scene(MATRIX, TRIANGLE.to_vec()).build();
    let built = built.expect("words enough");
    for time in [-1.0, 0.0, 0.1, 0.25, 1.0, 3.0] {
        let baked = built.bake(1, time).expect("a mesh");
        assert_eq!(Ok(bits_of(&baked)), raw_bake(&by_hand, 1, time));
    }
    let baked = built.bake(1, 0.25).expect("a mesh");
    assert_eq!(baked.positions[1], [4.0, 0.0, 0.0]);
}

fn small_scene(matrix: [[f32; 4]; 4], positions: Vec<[f32; 3]>) -> Builder {
    let mut scene = Builder::new();
    let mesh = scene.mesh(Mesh {
        primitives: vec![Primitive {
            positions,
            ..Primitive::default()
        }],
        ..Mesh::default()
    });
    let root = scene.node(Node {
        children: vec![1],
        ..Node::default()
    });
    scene.node(Node {
        base: Base::Matrix(matrix),
        mesh: Some(mesh),
        ..Node::default()
    });
    scene.root(root);
    scene.channel(Channel {
        node: root,
        interpolation: Interpolation::Linear,
        keys: vec![0.0, 1.0],
        values: Values::Translation(vec![[0.0; 3], [4.0, 0.0, 0.0]]),
    });
    scene
}

/// With joints and weights that are there, if without rows, vertices are skinned: none
/// has an influence, and none moves.
#[test]
fn absent_is_not_empty() {
    let baked = |rows: bool| {
        let mut scene = small_scene([[2.0; 4]; 4], vec![[1.0, 2.0, 3.0]]);
        let primitive = &mut scene.meshes[0].primitives[0];
        primitive.joints = rows.then(Vec::new);
        primitive.weights = rows.then(Vec::new);
        scene.nodes[1].skin = Some(scene.skin(Skin::default()));
        scene.skeleton(Skeleton {
            joints: vec![0],
            ..Skeleton::default()
        });
        let scene = scene.build().expect("words enough");
        scene.bake(1, 0.0).expect("a palette").positions
    };
    assert_eq!(baked(true), [[1.0, 2.0, 3.0]]);
    assert_ne!(baked(false), baked(true));
}

/// Buffers serve again, and a bake leaves nothing behind that changes the next.
#[test]
fn buffers_serve_again() {
    let scene = small_scene([[0.0; 4]; 4], vec![[1.0; 3]; 5]);
    let scene = scene.build().expect("words enough");
    let lent = scene.as_scene();
    let mut buffers = Buffers::new(&lent.room(1).expect("a mesh"));
    for time in [0.0, 0.5, 2.0, 0.5] {
        let (mut scratch, mut out) = buffers.slices();
        let written = lent.bake(1, time, &mut scratch, &mut out).expect("a mesh");
        let baked = scene.bake(1, time).expect("a mesh");
        assert_eq!(written.positions, 15);
        let found: Vec<u32> = out.positions.iter().map(|x| x.to_bits()).collect();
        assert_eq!(found, bits(&baked.positions));
    }
}
