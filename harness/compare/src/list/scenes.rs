//! Calls on generated scenes, with what the Rust answers, or the number that
//! docs/TABLES.md says where the Rust has no like. The program `replay_scenes`
//! makes them again and compares. The list has (fields.rs):
//!
//! ```text
//! how many scenes there are, and of each
//!   the scene
//!   how many calls there are, and of each its number here and what stands behind it
//!
//! 0 parents                  list of the output as it is lent; number; the list as it is left
//! 1 sample_pose              lists of marks and slots as they are lent; time; number; the lists as they are left
//! 2 posed_node_transforms    lists of marks and slots; lists of walk room, places and worlds as they are lent;
//!                            number, entries taken; the three lists as they are left
//! 3 joint_matrices_with      lists of places and worlds; list of the output as it is lent; node;
//!                            number, floats written; the list as it is left
//! 4 skin_root                skin; number, node
//! 5 effective_morph_weights  node; number, list of the weights
//! 6 world_mesh_at            the bake
//! 7 transformed              lists of positions, normals and tangents as they are lent; list of the matrix;
//!                            the three lists as they are left
//! 8 skinned                  the same with the lists of palette, joints and weights
//! 9 morphed                  the same with first and count of the targets, and the list of weights
//! ```
//!
//! Linear turns between keys are left out: the scenes have Step ones instead.

use super::{calls::Listed, fields::Line};
use crate::{
    bakes::step_turns,
    pose::{fit, Moved},
    rng::Rng,
    tables::{
        build::lend,
        generate::{scene, Sizes, SMALL},
        layout::{Layout, Lent},
        numbers::number,
    },
};
use mesh3d::raw::Scene;
use oracle::{Animation, NodeId, Pose, Scene3D};
use std::{
    collections::BTreeSet,
    io::{self, BufWriter, Write},
};

const SCENES: usize = 50;
/// One scene in so many is lent with faults too.
const FAULTY: usize = 10;
const SIZES: Sizes = Sizes {
    nodes: 4,
    primitives: 2,
    vertices: 3,
    targets: 2,
    in_betweens: 2,
    joints: 3,
    ..SMALL
};
/// The word of a node that marks its mesh.
const MESH_MARK: usize = 4;
/// Each is answered by some call; 0 is none.
const NUMBERS: [u32; 11] = [0, 1, 2, 3, 5, 6, 7, 8, 9, 10, 11];

pub fn write(out: &mut impl Write) -> io::Result<()> {
    let mut rng = Rng::new(11);
    let mut listing = Listing::default();
    for k in 0..SCENES {
        let (scene, moved, lent) = next_scene(&mut rng);
        listing.add(&Listed::new(&scene, &moved, lent.of_port()), &mut rng);
        if k % FAULTY == 0 {
            listing.add_faulty(&scene, &moved, lent.of_port(), &mut rng);
        }
    }
    listing.write(&mut BufWriter::new(out))
}

/// One inside the limits, lent compactly or spread, of which some node has
/// vertices and some a palette.
fn next_scene(rng: &mut Rng) -> (Scene3D, Moved, Lent) {
    loop {
        let (scene, mut animation) = scene(rng, &SIZES);
        animation.channels.iter_mut().for_each(fit);
        step_turns(&mut animation);
        let mut layout = match rng.below(2) {
            0 => Layout::Compact,
            _ => Layout::Spread(Rng::new(rng.bits())),
        };
        let lent = lend(&scene, &animation, &mut layout);
        if number(&lent.of_port()) == 0 && has_both(&scene, &animation) {
            let moved = Moved::new(&scene, animation, rng);
            return (scene, moved, lent);
        }
    }
}

fn has_both(scene: &Scene3D, animation: &Animation) -> bool {
    let worlds = scene.posed_node_transforms(&Pose::new(scene.nodes.len()));
    let nodes = || (0..scene.nodes.len() as u32).map(NodeId);
    let has_vertices = |node| {
        let mesh = scene
            .world_mesh_at(animation, 0.0, node)
            .unwrap_or_default();
        mesh.primitives.iter().any(|p| !p.positions.is_empty())
    };
    let has_palette = |node| {
        let palette = scene.joint_matrices_with(node, &worlds).unwrap_or_default();
        !palette.is_empty()
    };
    nodes().any(has_vertices) && nodes().any(has_palette)
}

#[derive(Default)]
struct Listing {
    scenes: u32,
    lines: Vec<Line>,
    met: BTreeSet<u32>,
}

impl Listing {
    fn add(&mut self, listed: &Listed, rng: &mut Rng) {
        let calls = listed.calls(rng);
        self.scenes += 1;
        self.lines.push(Line::scene(&listed.lent));
        self.lines.push(Line::of(&[calls.len() as u32]));
        for call in calls {
            self.met.insert(call.number);
            self.lines.push(call.line);
        }
    }

    /// Roots past the words, and a mark above 1.
    fn add_faulty(&mut self, scene: &Scene3D, moved: &Moved, lent: Scene, rng: &mut Rng) {
        let mut leaving = lent;
        leaving.header.graph.roots.at = lent.words.len() + 1;
        let mut words = lent.words.to_vec();
        words[lent.header.graph.nodes.at + MESH_MARK] = 2;
        let marked = Scene {
            words: &words,
            ..lent
        };
        for lent in [leaving, marked] {
            self.add(&Listed::new(scene, moved, lent), rng);
        }
    }

    fn write(&self, out: &mut impl Write) -> io::Result<()> {
        assert_eq!(self.met, BTreeSet::from(NUMBERS), "the numbers answered");
        Line::of(&[self.scenes]).write(out)?;
        self.lines.iter().try_for_each(|line| line.write(out))?;
        out.flush()
    }
}
