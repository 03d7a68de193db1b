//! A scene in bytes, and what the comparisons of `place` and `bake` on bytes
//! share.

use crate::{
    rng::Rng,
    rooms::Decoding,
    tally::{one_nan_bits, UNTOUCHED},
};
use mesh3d::raw::{ByteScene, Header, Part, Scene};

/// Of words, and of each slice of floats, more than a small scene has.
const LONG_WORDS: usize = 40_000;
const LONG_FLOATS: usize = 70_000;
pub const LENT_BYTE: u8 = 0xa5;

/// The tables that a header names, with the words of a record.
fn tables(header: &mut Header) -> [(&mut Part, usize); 9] {
    let Header {
        graph,
        channels,
        meshes,
        skins,
    } = header;
    [
        (&mut graph.nodes, 16),
        (&mut graph.roots, 1),
        (channels, 8),
        (&mut meshes.meshes, 4),
        (&mut meshes.primitives, 16),
        (&mut meshes.targets, 12),
        (&mut meshes.in_betweens, 8),
        (&mut skins.skins, 4),
        (&mut skins.skeletons, 4),
    ]
}

/// Each slice of the scene longer; and of the longer words, each table one word
/// past their end.
pub fn in_long_slices(lent: Scene, mut count: impl FnMut(Scene)) {
    let mut words = lent.words.to_vec();
    let mut floats = lent.floats.to_vec();
    words.resize(LONG_WORDS, 7);
    floats.resize(LONG_FLOATS, 0.5);
    let (words, floats) = (&words, &floats);
    count(Scene { words, ..lent });
    count(Scene { floats, ..lent });
    count(Scene {
        node_weights: floats,
        ..lent
    });
    count(Scene {
        mesh_weights: floats,
        ..lent
    });
    for k in 0..tables(&mut lent.header.clone()).len() {
        let mut header = lent.header;
        let (part, width) = &mut tables(&mut header)[k];
        part.at = words.len() + 1 - part.count * *width;
        count(Scene {
            words,
            header,
            ..lent
        });
    }
}

/// The floats of a scene, in the order in which they are decoded.
fn all_floats(lent: &Scene) -> Vec<f32> {
    [lent.floats, lent.node_weights, lent.mesh_weights].concat()
}

impl Decoding {
    /// Room for a scene.
    pub fn enough(lent: &Scene) -> Self {
        Decoding {
            words: vec![0; lent.words.len()],
            floats: vec![0.0; all_floats(lent).len()],
        }
    }

    /// Room for a scene: as a rule enough, at times one word or float too few.
    pub fn lent(lent: &Scene, rng: &mut Rng) -> Self {
        let mut lens = [lent.words.len(), all_floats(lent).len()];
        let of = rng.below(2) as usize;
        lens[of] = match rng.below(8) {
            0 => lens[of].saturating_sub(1),
            more => lens[of] + more as usize - 1,
        };
        Decoding {
            words: (0xdec0_0000..).take(lens[0]).collect(),
            floats: vec![UNTOUCHED; lens[1]],
        }
    }

    pub fn is_short(&self, lent: &Scene) -> bool {
        self.words.len() < lent.words.len() || self.floats.len() < all_floats(lent).len()
    }

    /// With the scene at its start.
    pub fn put(&mut self, lent: &Scene) {
        self.words[..lent.words.len()].copy_from_slice(lent.words);
        let floats = all_floats(lent);
        self.floats[..floats.len()].copy_from_slice(&floats);
    }

    /// All NaNs being one.
    pub fn bits(&self) -> [Vec<u32>; 2] {
        let floats = self.floats.iter().map(|x| one_nan_bits(*x));
        [self.words.clone(), floats.collect()]
    }
}

/// A scene in bytes.
pub struct Encoded {
    words: Vec<u8>,
    floats: Vec<u8>,
    node_weights: Vec<u8>,
    mesh_weights: Vec<u8>,
    header: Header,
}

impl Encoded {
    /// With so many bytes past the last word of each slice.
    pub fn of(lent: &Scene, odd: [usize; 4]) -> Self {
        Encoded {
            words: encoded(lent.words.iter().copied(), odd[0]),
            floats: encoded(bits(lent.floats), odd[1]),
            node_weights: encoded(bits(lent.node_weights), odd[2]),
            mesh_weights: encoded(bits(lent.mesh_weights), odd[3]),
            header: lent.header,
        }
    }

    pub fn lent(&self) -> ByteScene<'_> {
        ByteScene {
            words: &self.words,
            floats: &self.floats,
            node_weights: &self.node_weights,
            mesh_weights: &self.mesh_weights,
            header: self.header,
        }
    }
}

fn bits(floats: &[f32]) -> impl Iterator<Item = u32> + '_ {
    floats.iter().map(|x| x.to_bits())
}

/// With so many bytes past the last word.
fn encoded(words: impl Iterator<Item = u32>, odd: usize) -> Vec<u8> {
    let mut bytes: Vec<u8> = words.flat_map(u32::to_le_bytes).collect();
    bytes.resize(bytes.len() + odd, LENT_BYTE);
    bytes
}

/// To the start of bytes.
pub fn put(words: &[u32], bytes: &mut [u8]) {
    for (bytes, word) in bytes.chunks_exact_mut(4).zip(words) {
        bytes.copy_from_slice(&word.to_le_bytes());
    }
}
