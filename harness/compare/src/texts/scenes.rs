//! Scenes that are written as text.

use crate::{
    bakes::largest,
    matrices::inputs,
    pose::{fit, Moved},
    rng::Rng,
    tables::{
        build::lend,
        generate::{scene, Sizes},
        layout::{Layout, Lent},
        numbers::number,
    },
};
use mesh3d::raw::Meshes;

/// A scene whose text has three million bytes.
pub fn largest() -> Lent {
    let (scene, animation) = largest::scene();
    lend(&scene, &animation, &mut Layout::Compact)
}

/// A scene of any sort inside the limits, and a time among its keys or any other.
pub fn lent_scene(sizes: &Sizes, rng: &mut Rng) -> (Lent, f32) {
    loop {
        let (lent, time) = any_scene(sizes, rng);
        if number(&lent.of_port()) == 0 {
            return (lent, time);
        }
    }
}

fn any_scene(sizes: &Sizes, rng: &mut Rng) -> (Lent, f32) {
    let (scene, mut animation) = scene(rng, sizes);
    if rng.below(4) > 0 {
        animation.channels.iter_mut().for_each(fit);
    }
    let mut layout = match rng.below(2) {
        0 => Layout::Compact,
        _ => Layout::Spread(Rng::new(rng.bits())),
    };
    let mut lent = lend(&scene, &animation, &mut layout);
    if rng.below(3) == 0 {
        list_others(&mut lent, rng);
    }
    let time = match rng.below(4) {
        0 => inputs::number(rng),
        _ => Moved::new(&scene, animation, rng).time(rng),
    };
    (lent, time)
}

/// A mesh, a primitive and a target list any records of their tables, so that
/// some are listed twice and some by none.
fn list_others(lent: &mut Lent, rng: &mut Rng) {
    let Meshes {
        meshes,
        primitives,
        targets,
        in_betweens,
    } = lent.header.meshes;
    let lists = [
        (meshes, 4, 0, primitives),
        (primitives, 16, 14, targets),
        (targets, 12, 9, in_betweens),
    ];
    for (table, width, word, listed) in lists {
        if table.count > 0 {
            let record = rng.below(table.count as u32) as usize;
            let first = rng.below(listed.count as u32 + 1);
            let count = rng.below(listed.count as u32 - first + 1);
            lent.words[table.at + record * width + word..][..2].copy_from_slice(&[first, count]);
        }
    }
}
