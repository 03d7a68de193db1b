//! The three calls on a scene as it is lent, and what each is to answer and
//! leave: the Rust's answer where it has one, and the added numbers of
//! docs/TABLES.md.

use super::worlds::Worlds;
use crate::{
    tables::numbers::number,
    tally::{one_nan_bits, UNTOUCHED},
};
use mesh3d::raw::{self, Mat4, Root, Scene, Told};
use oracle::{NodeId, Scene3D, SkinId};

const SHORT_SCRATCH: u32 = 6;
const NO_SUCH_NODE: u32 = 7;
const NO_PALETTE: u32 = 9;
const SHORT_OUTPUT: u32 = 10;
const NO_COMMON_ROOT: u32 = 11;

pub struct Case<'a> {
    pub scene: &'a Scene3D,
    pub lent: Scene<'a>,
    /// What the tables draw.
    pub drawn: u32,
    pub worlds: &'a Worlds,
}

/// How many codes, floats of worlds, and floats of output are lent.
#[derive(Clone, Copy, Debug)]
pub struct Lens {
    pub places: usize,
    pub worlds: usize,
    pub out: usize,
}

/// What a call answers, and the bits in its output, all NaNs being one.
type Left = (Told, Vec<u32>);

impl<'a> Case<'a> {
    pub fn new(scene: &'a Scene3D, lent: Scene<'a>, worlds: &'a Worlds) -> Self {
        Case {
            scene,
            lent,
            drawn: number(&lent),
            worlds,
        }
    }

    pub fn nodes(&self) -> usize {
        self.scene.nodes.len()
    }

    pub fn size(&self) -> (usize, usize) {
        (self.nodes(), self.lent.words.len())
    }

    pub fn palette(&self, node: u32, lens: Lens) -> Left {
        let mut out = vec![UNTOUCHED; lens.out];
        let places = &self.worlds.codes[..lens.places];
        let worlds = &self.worlds.slots[..lens.worlds];
        let told = raw::joint_matrices(&self.lent, node, places, worlds, &mut out);
        (told, bits(&out))
    }

    pub fn expected_palette(&self, node: u32, lens: Lens) -> Left {
        let slots = lens.places.min(lens.worlds / 16);
        let palette = self.rust_palette(node);
        let number = match &palette {
            _ if self.drawn != 0 => self.drawn,
            _ if slots < self.nodes() => SHORT_SCRATCH,
            _ if self.scene.node(NodeId(node)).is_none() => NO_SUCH_NODE,
            None => NO_PALETTE,
            Some(palette) if lens.out < 16 * palette.len() => SHORT_OUTPUT,
            Some(_) => 0,
        };
        let palette = palette.filter(|_| number == 0).unwrap_or_default();
        let written = palette.as_flattened().as_flattened();
        left(number, written, lens.out)
    }

    pub fn rust_palette(&self, node: u32) -> Option<Vec<Mat4>> {
        self.scene
            .joint_matrices_with(NodeId(node), &self.worlds.of_rust)
    }

    pub fn root(&self, skin: u32) -> Root {
        raw::skin_root(&self.lent, skin)
    }

    pub fn expected_root(&self, skin: u32) -> Root {
        let refused = |number| Root { number, node: 0 };
        match self.scene.skin_root(SkinId(skin)) {
            _ if self.drawn != 0 => refused(self.drawn),
            None => refused(NO_COMMON_ROOT),
            Some(NodeId(node)) => Root { number: 0, node },
        }
    }

    pub fn weights(&self, node: u32, room: usize) -> Left {
        let mut out = vec![UNTOUCHED; room];
        let told = raw::effective_weights(&self.lent, node, &mut out);
        (told, bits(&out))
    }

    pub fn expected_weights(&self, node: u32, room: usize) -> Left {
        match self.rust_weights(node) {
            _ if self.drawn != 0 => left(self.drawn, &[], room),
            None => left(NO_SUCH_NODE, &[], room),
            Some(weights) if room < weights.len() => left(SHORT_OUTPUT, &[], room),
            Some(weights) => left(0, weights, room),
        }
    }

    pub fn rust_weights(&self, node: u32) -> Option<&[f32]> {
        self.scene.effective_morph_weights(NodeId(node))
    }
}

/// A number, and these floats at the start of an output of so many.
fn left(number: u32, written: &[f32], room: usize) -> Left {
    let count = written.len();
    let mut out = vec![UNTOUCHED; room];
    out[..count].copy_from_slice(written);
    (Told { number, count }, bits(&out))
}

fn bits(floats: &[f32]) -> Vec<u32> {
    floats.iter().map(|x| one_nan_bits(*x)).collect()
}
