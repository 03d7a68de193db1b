//! Bakes in two threads at once give the bits of bakes one after the other.

mod common;

use common::{scene, Rng};
use mesh3d::OwnedScene;
use std::thread;

const SCENES: u64 = 300;
const ROUNDS: usize = 5;

fn scenes(first: u64) -> Vec<OwnedScene> {
    let seeds = first..first + SCENES;
    let built = seeds.map(|seed| scene(&mut Rng::new(seed)).build());
    built.collect::<Result<_, _>>().expect("words enough")
}

/// The bits of every bake, or its number.
fn bakes(scenes: &[OwnedScene]) -> Vec<u32> {
    let mut all = Vec::new();
    for scene in scenes {
        for node in 0..8 {
            match scene.bake(node, node as f32 / 3.0) {
                Ok(baked) => {
                    let positions = baked.positions.as_flattened().iter();
                    let normals = baked.normals.as_flattened().iter();
                    let floats = positions.chain(normals);
                    let floats = floats.chain(baked.tangents.as_flattened());
                    all.extend(floats.map(|x| x.to_bits()));
                }
                Err(refusal) => all.push(refusal.number()),
            }
        }
    }
    all
}

#[test]
fn threads_do_not_disturb_each_other() {
    let (left, right) = (scenes(0), scenes(SCENES));
    let alone = (bakes(&left), bakes(&right));
    for _ in 0..ROUNDS {
        let together = thread::scope(|scope| {
            let other = scope.spawn(|| bakes(&right));
            (bakes(&left), other.join().expect("a thread"))
        });
        assert!(together == alone);
    }
}
