//! What the calls write to, in vectors, and the calls on these.

use mesh3d::raw::{
    self, Baked, ByteScene, ByteVertices, DecodingRoom, Mat4, Part, Placed, PlacingRoom, Scene,
    Scratch,
};

/// Vertices as they lie, three floats a position or a normal and four a tangent;
/// an attribute that is absent has none.
#[derive(Clone, Debug, Default, PartialEq)]
pub struct Vertices {
    pub positions: Vec<f32>,
    pub normals: Vec<f32>,
    pub tangents: Vec<f32>,
}

/// The joints of a skin, sixteen floats each, and four joints and four weights
/// a vertex.
#[derive(Clone, Debug, Default)]
pub struct Influences {
    pub palette: Vec<f32>,
    pub joints: Vec<u32>,
    pub weights: Vec<f32>,
}

impl Vertices {
    fn lend(&mut self) -> raw::Vertices<'_> {
        raw::Vertices {
            positions: &mut self.positions,
            normals: &mut self.normals,
            tangents: &mut self.tangents,
        }
    }

    pub fn transform(&mut self, m: &Mat4) {
        raw::transformed(m, &mut self.lend());
    }

    pub fn skin(&mut self, influences: &Influences) {
        let Influences {
            palette,
            joints,
            weights,
        } = influences;
        raw::skinned(palette, joints, weights, &mut self.lend());
    }

    pub fn morph(&mut self, lent: &Scene, targets: Part, weights: &[f32]) {
        raw::morphed(lent, targets, weights, &mut self.lend());
    }
}

/// What a scene is decoded into.
#[derive(Clone)]
pub struct Decoding {
    pub words: Vec<u32>,
    pub floats: Vec<f32>,
}

impl Decoding {
    fn lend(&mut self) -> DecodingRoom<'_> {
        DecodingRoom {
            words: &mut self.words,
            floats: &mut self.floats,
        }
    }
}

/// What a placing writes to, in numbers and in bytes.
pub struct PlaceRoom {
    pub walk: Vec<u32>,
    pub codes: Vec<u32>,
    pub matrices: Vec<f32>,
    pub places: Vec<u8>,
    pub worlds: Vec<u8>,
}

impl PlaceRoom {
    pub fn place(
        &mut self,
        lent: &ByteScene,
        decoding: &mut Decoding,
        marks: &[u32],
        slots: &[f32],
    ) -> Placed {
        let mut room = PlacingRoom {
            walk: &mut self.walk,
            codes: &mut self.codes,
            matrices: &mut self.matrices,
            places: &mut self.places,
            worlds: &mut self.worlds,
        };
        raw::place(lent, &mut decoding.lend(), marks, slots, &mut room)
    }
}

/// The outputs of a bake in bytes.
#[derive(Clone, Debug, PartialEq)]
pub struct ByteOutputs {
    pub positions: Vec<u8>,
    pub normals: Vec<u8>,
    pub tangents: Vec<u8>,
}

impl ByteOutputs {
    fn lend(&mut self) -> ByteVertices<'_> {
        ByteVertices {
            positions: &mut self.positions,
            normals: &mut self.normals,
            tangents: &mut self.tangents,
        }
    }
}

/// What a bake writes to.
pub struct BakeRoom {
    pub walk: Vec<u32>,
    pub marks: Vec<u32>,
    pub slots: Vec<f32>,
    pub places: Vec<u32>,
    pub worlds: Vec<f32>,
    pub positions: Vec<f32>,
    pub normals: Vec<f32>,
    pub tangents: Vec<f32>,
}

impl BakeRoom {
    fn lend(&mut self) -> (Scratch<'_>, raw::Vertices<'_>) {
        let scratch = Scratch {
            marks: &mut self.marks,
            slots: &mut self.slots,
            walk: &mut self.walk,
            places: &mut self.places,
            worlds: &mut self.worlds,
        };
        let vertices = raw::Vertices {
            positions: &mut self.positions,
            normals: &mut self.normals,
            tangents: &mut self.tangents,
        };
        (scratch, vertices)
    }

    pub fn bake(&mut self, lent: &Scene, node: u32, time: f32) -> Baked {
        let (mut scratch, mut out) = self.lend();
        raw::bake(lent, node, time, &mut scratch, &mut out)
    }

    /// At the time with the given bit pattern.
    pub fn bake_bytes(
        &mut self,
        lent: &ByteScene,
        asked: (u32, u32),
        decoding: &mut Decoding,
        outputs: &mut ByteOutputs,
    ) -> Baked {
        let (mut scratch, mut out) = self.lend();
        let (mut decoding, mut bytes) = (decoding.lend(), outputs.lend());
        raw::bake_bytes(
            lent,
            asked,
            &mut decoding,
            &mut scratch,
            &mut out,
            &mut bytes,
        )
    }
}
