//! Scenes whose words were changed at random: every call answers, and the answers of the
//! calls agree with each other.

mod common;

use common::{scene, Rng};
use mesh3d::{Buffers, Header, OwnedScene, Refusal, Room, Scene};

const SCENES: u64 = 3_000;
const TIME: f32 = 0.5;

/// Small, about a limit, or far outside.
fn word(rng: &mut Rng) -> u32 {
    let least = [0, 0, 0, 60, 250, 1_020, 65_530, u32::MAX - 9][rng.below(8) as usize];
    least + rng.below(10)
}

/// Some words, and at times a table, changed.
fn spoilt(built: &OwnedScene, rng: &mut Rng) -> (Vec<u32>, Header) {
    let scene = built.as_scene();
    let (mut words, mut header) = (scene.words.to_vec(), scene.header);
    for _ in 0..rng.below(4) {
        let at = rng.below(words.len() as u32) as usize;
        words[at] = word(rng);
    }
    match rng.below(12) {
        0 => header.graph.nodes.count = word(rng) as usize,
        1 => header.channels.at = word(rng) as usize,
        2 => header.meshes.targets.count = usize::MAX - rng.below(3) as usize,
        3 => header.skins.skins.at = words.len() + rng.below(2) as usize,
        _ => (),
    }
    (words, header)
}

/// Room for the pose of as many nodes as there may be.
fn pose(scene: &Scene) -> Result<(), Refusal> {
    let mut buffers = Buffers::new(&Room {
        marks: 4 * 1_024,
        slots: 10 * 1_024,
        ..Room::default()
    });
    scene.pose(TIME, &mut buffers.slices().0)
}

fn bake(scene: &Scene, node: u32, room: &Room) -> Result<(), Refusal> {
    let mut buffers = Buffers::new(room);
    let (mut scratch, mut out) = buffers.slices();
    let written = scene.bake(node, TIME, &mut scratch, &mut out)?;
    assert_eq!(written.positions, room.positions);
    assert_eq!(written.normals, room.normals);
    assert_eq!(written.tangents, room.tangents);
    Ok(())
}

#[test]
fn calls_agree_on_scenes_that_were_spoilt() {
    let mut drawn = [0; 3];
    for seed in 0..SCENES {
        let mut rng = Rng::new(seed);
        let built = scene(&mut rng).build().expect("words enough");
        let (words, header) = spoilt(&built, &mut rng);
        let scene = Scene {
            words: &words,
            header,
            ..built.as_scene()
        };
        let check = scene.check();
        drawn[check.map_or_else(|refusal| refusal.number(), |()| 0) as usize] += 1;
        assert_eq!(scene.fault().map(|fault| fault.refusal), check.err());
        assert_eq!(scene.passed_over(TIME, 0).err(), pose(&scene).err());
        for node in 0..9 {
            let room = scene.room(node);
            let expected = check.err().or(Some(Refusal::NoSuchNode));
            assert!(room.is_ok() || room.err() == expected, "seed {seed}");
            let Ok(room) = room else { continue };
            let baked = bake(&scene, node, &room).err();
            let short = [Some(Refusal::ShortScratch), Some(Refusal::ShortOutput)];
            assert!(!short.contains(&baked), "seed {seed}, node {node}");
        }
    }
    assert!(drawn.iter().all(|count| *count > 100), "{drawn:?}");
}
