//! Bakes of two published glTF samples at several times, which the program
//! `samples` does again and compares. Of each sample the list has (fields.rs):
//!
//! ```text
//! the scene
//! how many bakes there are, and of each
//!   the bake
//!   how many of its vertices are printed
//! ```
//!
//! The turns come from the C library's `acosf` and `sinf`, so that another C
//! library may give other last digits.

use super::{
    fields::{Asked, Line},
    gltf::{animated_morph_cube, simple_skin, Sample},
};
use crate::{
    bakes::case::{is_turn, outputs_of, room},
    graph::answers::Answers,
    tables::{build::lend, layout::Layout},
    tally::one_nan_bits,
};
use mesh3d::raw::Baked;
use oracle::{AnimationChannel, NodeId};
use std::io::{self, BufWriter, Write};

const NODE: u32 = 0;
/// Before the first key, on keys and between them, on the last and past it.
const SKIN_TIMES: [f32; 9] = [-1.0, 0.0, 0.2, 0.5, 0.85, 3.6, 5.3, 5.5, 9.0];
const CUBE_KEYS: [usize; 4] = [0, 30, 75, 126];
const CUBE_TIMES: [f32; 4] = [-1.0, 0.55, 2.02, 9.0];
/// The bake whose vertices are printed, and how many of them.
const PRINTED: usize = 4;
const SKIN_VERTICES: u32 = 10;
const CUBE_VERTICES: u32 = 4;

pub fn write(out: &mut impl Write) -> io::Result<()> {
    let mut out = BufWriter::new(out);
    write_sample(&mut out, &simple_skin()?, &SKIN_TIMES, SKIN_VERTICES)?;
    let cube = animated_morph_cube()?;
    let keys = &cube.animation.channels[0].sampler.keyframes;
    let mut times: Vec<f32> = CUBE_KEYS.iter().map(|k| keys[*k]).collect();
    times.extend(CUBE_TIMES);
    times.sort_by(f32::total_cmp);
    write_sample(&mut out, &cube, &times, CUBE_VERTICES)?;
    out.flush()
}

fn write_sample(
    out: &mut impl Write,
    sample: &Sample,
    times: &[f32],
    printed: u32,
) -> io::Result<()> {
    let lent = lend(&sample.scene, &sample.animation, &mut Layout::Compact);
    Line::scene(&lent.of_port()).write(out)?;
    Line::of(&[times.len() as u32]).write(out)?;
    for (k, time) in times.iter().enumerate() {
        let vertices = if k == PRINTED { printed } else { 0 };
        bake(sample, *time).numbers(&[vertices]).write(out)?;
    }
    Ok(())
}

/// In outputs of just the length that it needs.
fn bake(sample: &Sample, time: f32) -> Line {
    let (scene, animation) = (&sample.scene, &sample.animation);
    let mesh = scene.world_mesh_at(animation, time, NodeId(NODE));
    let outputs = outputs_of(&mesh.expect("a mesh of the node"));
    let [positions, normals, tangents] = outputs.each_ref().map(Vec::len);
    let answers = Answers::of(scene, &animation.sample_pose(time, scene.nodes.len()));
    let baked = Baked {
        number: 0,
        positions,
        normals,
        tangents,
        taken: answers.taken,
    };
    let walk = 2 * answers.entries;
    let lent = room([walk, 0, 0, 0, 0, positions, normals, tangents]);
    let asked = Asked {
        node: NODE,
        time,
        turns: animation.channels.iter().any(|c| is_between_turns(c, time)),
    };
    let left = outputs.map(|floats| floats.into_iter().map(one_nan_bits).collect::<Vec<_>>());
    Line::of(&[]).bake(&asked, &lent, &baked, left.each_ref().map(Vec::as_slice))
}

fn is_between_turns(channel: &AnimationChannel, time: f32) -> bool {
    let keys = &channel.sampler.keyframes;
    let is_inside = keys.first() < Some(&time) && Some(&time) < keys.last();
    is_turn(channel) && is_inside && !keys.contains(&time)
}
