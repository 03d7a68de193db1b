//! Scenes as text: written and read back, damaged, and with too little room.

mod common;
#[path = "common/read.rs"]
mod read;

use common::{scene, Rng};
use mesh3d::{find_break, raw, Mesh, Node, OwnedScene, Primitive, Refusal, Scene, Target};

const SCENES: u64 = 2_000;
const NODE: u32 = 7;
const TIME: f32 = 0.5;

/// A scene of all sorts of records, with weights of nodes and of meshes.
fn full() -> OwnedScene {
    let mut parts = scene(&mut Rng::new(1));
    parts.root(1);
    parts.node(Node {
        weights: Some(vec![0.25, 0.5]),
        ..Node::default()
    });
    parts.mesh(Mesh {
        primitives: vec![Primitive {
            targets: vec![Target::default()],
            ..Primitive::default()
        }],
        weights: vec![0.125, 0.75, -1.0],
    });
    parts.build().expect("words enough")
}

fn text_of(scene: &OwnedScene) -> Vec<u8> {
    scene.to_text(NODE, TIME).expect("within the limits")
}

/// The four slices of a scene, in the order of `Needed`.
#[derive(Clone, Debug, PartialEq)]
struct Tables(Vec<u32>, [Vec<f32>; 3]);

impl Tables {
    /// As long as is said, and full of something.
    fn new([words, floats, node_weights, mesh_weights]: [usize; 4]) -> Tables {
        let filled = |len| vec![-7.5; len];
        Tables(
            vec![77; words],
            [filled(floats), filled(node_weights), filled(mesh_weights)],
        )
    }

    fn read(&mut self, text: &[u8]) -> raw::Reading {
        let Tables(words, [floats, node_weights, mesh_weights]) = self;
        raw::read_scene(text, words, floats, node_weights, mesh_weights)
    }
}

fn needed(text: &[u8]) -> [usize; 4] {
    let needed = raw::text_room(text);
    assert_eq!(needed.number, 0);
    let weights = [needed.node_weights, needed.mesh_weights];
    [needed.words, needed.floats, weights[0], weights[1]]
}

/// The number that a text draws; nothing else is answered, and no slice is changed.
fn refused(text: &[u8], room: [usize; 4]) -> u32 {
    let mut tables = Tables::new(room);
    let reading = tables.read(text);
    let number = reading.number;
    let nothing = raw::Reading {
        number,
        ..raw::Reading::default()
    };
    assert_ne!(number, 0);
    assert_eq!(reading, nothing);
    assert_eq!(tables, Tables::new(room));
    number
}

#[test]
fn scenes_that_are_written_and_read_back_are_the_same() {
    for seed in 0..SCENES {
        let parts = scene(&mut Rng::new(seed));
        let text = text_of(&parts.build().expect("words enough"));
        let asked = OwnedScene::from_text(&text).expect("a reading");
        assert_eq!((asked.node, asked.time), (NODE, TIME));
        assert_eq!(read::read(&asked.scene.as_scene()), parts, "seed {seed}");
        assert_eq!(asked.scene.check(), Ok(()), "seed {seed}");
        assert_eq!(text_of(&asked.scene), text, "seed {seed}");
    }
}

/// What is accepted is the text of its scene.
#[test]
fn damaged_texts_are_refused_or_say_something_else() {
    let mut drawn = [0; 14];
    for seed in 0..SCENES {
        let mut rng = Rng::new(seed);
        let mut text = text_of(&scene(&mut rng).build().expect("words enough"));
        let at = rng.below(text.len() as u32) as usize;
        match rng.below(4) {
            0 => drop(text.remove(at)),
            1 => text.insert(at, b" ()0a\n"[rng.below(6) as usize]),
            2 => text[at] = rng.below(256) as u8,
            _ => text[at] = b'0' + rng.below(10) as u8,
        }
        let read = OwnedScene::from_text(&text);
        let is_bad = matches!(read, Err(Refusal::BadForm));
        assert_eq!(find_break(&text).is_some(), is_bad, "seed {seed}");
        assert!(find_break(&text).unwrap_or(0) <= text.len(), "seed {seed}");
        let number = match read {
            Ok(asked) if asked.scene.check().is_ok() => {
                let again = asked.scene.to_text(asked.node, asked.time);
                assert_eq!(again.as_ref(), Ok(&text), "seed {seed}");
                0
            }
            Ok(_) => 2,
            Err(refusal) => {
                assert_eq!(refused(&text, [0; 4]), refusal.number(), "seed {seed}");
                refusal.number()
            }
        };
        drawn[number as usize] += 1;
    }
    let seen = drawn[0] > 100 && drawn[1] > 0 && drawn[13] > 100;
    assert!(seen, "{drawn:?}");
}

#[test]
fn every_slice_has_to_be_long_enough() {
    let text = text_of(&full());
    let room = needed(&text);
    let mut exact = Tables::new(room);
    assert_eq!(exact.read(&text).number, 0);
    for slice in 0..4 {
        let (mut short, mut long) = (room, room);
        assert!(room[slice] > 0, "{room:?}");
        short[slice] -= 1;
        assert_eq!(refused(&text, short), Refusal::ShortOutput.number());
        long[slice] += 1;
        let mut tables = Tables::new(long);
        assert_eq!(tables.read(&text).number, 0);
        let Tables(mut words, mut floats) = tables;
        match slice {
            0 => assert_eq!(words.pop(), Some(77)),
            _ => assert_eq!(floats[slice - 1].pop(), Some(-7.5)),
        }
        assert_eq!(Tables(words, floats), exact);
    }
}

/// 13 before 1, and 1 before 10; the room of a text draws the same but for 10.
#[test]
fn texts_are_refused_by_name() {
    let line = |form: &str| format!("(scene (node 0) (time 00000000) (roots))\n{form}");
    let cases = [
        ("(mesh (primitives 0 0) (weights))\n", 10),
        ("(mesh (primitives 0 1) (weights))\n", 1),
        ("(mesh (primitives 1 0) (weights))\n", 1),
        ("(mesh (primitives 0 1) (weights))", 13),
        ("(mesh (primitives 0 1) (weights))\r\n", 13),
        ("(mesh (primitives 0 1) (weights ))\n", 13),
        ("(mesh (primitives 0 01) (weights))\n", 13),
        ("(mesh (primitives 0 4294967296) (weights))\n", 13),
        ("(mesh (primitives 0 0) (weights 7f800001))\n", 13),
        ("(mesh (weights) (primitives 0 0))\n", 13),
    ];
    for (form, number) in cases {
        let text = line(form);
        assert_eq!(refused(text.as_bytes(), [0; 4]), number, "{form}");
        let room = match number {
            10 => raw::Needed {
                words: 4,
                ..raw::Needed::default()
            },
            _ => raw::Needed {
                number,
                ..raw::Needed::default()
            },
        };
        assert_eq!(raw::text_room(text.as_bytes()), room, "{form}");
    }
    assert_eq!(refused(b"", [9; 4]), 13);
    let nothing = OwnedScene::from_text(line("").as_bytes()).expect("a reading");
    assert_eq!(nothing.scene.check(), Ok(()));
}

#[test]
fn a_break_is_found_at_its_place() {
    let text = text_of(&full());
    let at = text.len() / 2;
    let end = at + text[at..].iter().position(|b| *b == b'\n').expect("a line");
    assert_eq!(find_break(&text), None);
    let with_cr = [&text[..end], b"\r", &text[end..]].concat();
    assert_eq!(find_break(&with_cr), Some(end));
    let without_end = &text[..text.len() - 1];
    assert_eq!(find_break(without_end), Some(without_end.len()));
    let more = [&text[..], b"\n"].concat();
    assert_eq!(find_break(&more), Some(text.len()));
    assert_eq!(find_break(b""), Some(0));
}

/// What the writer answers, and whether it leaves the output alone.
fn written(scene: &Scene, room: usize) -> (Result<usize, Refusal>, bool) {
    let mut out = vec![b'?'; room];
    let length = scene.write_text(NODE, TIME, &mut out);
    (length, out.iter().all(|byte| *byte == b'?'))
}

#[test]
fn writing_is_refused_by_name() {
    let built = full();
    let (scene, text) = (built.as_scene(), text_of(&built));
    assert_eq!(scene.text_length(NODE, TIME), Ok(text.len()));
    assert_eq!(written(&scene, text.len()), (Ok(text.len()), false));
    let short = (Err(Refusal::ShortOutput), true);
    assert_eq!(written(&scene, text.len() - 1), short);
    assert_eq!(written(&scene, 0), short);

    let mut out = vec![b'?'; text.len() + 3];
    assert_eq!(scene.write_text(NODE, TIME, &mut out), Ok(text.len()));
    assert_eq!(out, [&text[..], b"???"].concat());

    let mut words = scene.words.to_vec();
    words[scene.header.graph.nodes.at] = 2;
    let spoilt = Scene {
        words: &words,
        ..scene
    };
    let cut = Scene {
        floats: &[],
        ..spoilt
    };
    for (scene, refusal) in [(spoilt, Refusal::OverLimit), (cut, Refusal::OutOfTable)] {
        assert_eq!(written(&scene, 0), (Err(refusal), true));
        assert_eq!(written(&scene, text.len()), (Err(refusal), true));
        assert_eq!(scene.text_length(NODE, TIME), Err(refusal));
    }
}

/// All NaNs are one in a text.
#[test]
fn a_nan_is_written_in_one_way() {
    for bits in [0x7f80_0001, 0x7fc0_0000, 0xffff_ffff, 0xff80_0001] {
        let scene = OwnedScene::default();
        let text = scene.to_text(NODE, f32::from_bits(bits)).expect("a text");
        assert_eq!(text, b"(scene (node 7) (time 7fc00000) (roots))\n");
        let asked = OwnedScene::from_text(&text).expect("a reading");
        assert!(asked.time.is_nan());
    }
}
