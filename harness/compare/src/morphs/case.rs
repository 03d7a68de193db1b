//! A primitive with weights, as both sides take it.

use crate::{
    rooms::Vertices,
    tables::{
        build::lend,
        layout::{Layout, Lent},
    },
    tally::{one_nan_bits, UNTOUCHED},
};
use mesh3d::raw::{Part, Scene};
use oracle::{Animation, Mesh, Primitive, Scene3D};

/// The words of a primitive's record, and which of them name its targets.
const PRIMITIVE_WORDS: usize = 16;
const TARGETS: usize = 14;

pub struct Case<'a> {
    base: &'a Primitive,
    weights: &'a [f32],
    lent: Lent,
    targets: Part,
    /// Floats past the last whole vertex of each slice.
    more: [usize; 3],
}

impl<'a> Case<'a> {
    pub fn new(
        base: &'a Primitive,
        weights: &'a [f32],
        layout: &mut Layout,
        more: [usize; 3],
    ) -> Self {
        let lent = lend_primitive(base, layout);
        let targets = targets_of(&lent.of_port());
        Case {
            base,
            weights,
            lent,
            targets,
            more,
        }
    }

    pub fn size(&self) -> usize {
        self.lent.words.len() + self.lent.floats.len()
    }

    pub fn of_port(&self) -> Vertices {
        let mut vertices = vertices_of(self.base, self.more);
        let lent = self.lent.of_port();
        vertices.morph(&lent, self.targets, self.weights);
        vertices
    }

    pub fn is_equal(&self) -> bool {
        let rust = vertices_of(&self.base.morphed(self.weights), self.more);
        let port = self.of_port();
        is_same(&rust.positions, &port.positions)
            && is_same(&rust.normals, &port.normals)
            && is_same(&rust.tangents, &port.tangents)
    }
}

fn is_same(rust: &[f32], port: &[f32]) -> bool {
    let bits = |x: &f32| one_nan_bits(*x);
    rust.iter().map(bits).eq(port.iter().map(bits))
}

/// A scene of this primitive alone.
pub fn lend_primitive(base: &Primitive, layout: &mut Layout) -> Lent {
    let mesh = Mesh {
        primitives: vec![base.clone()],
        ..Mesh::default()
    };
    let scene = Scene3D {
        meshes: vec![mesh],
        ..Scene3D::new()
    };
    let animation = Animation {
        name: None,
        channels: Vec::new(),
    };
    lend(&scene, &animation, layout)
}

/// The targets of the first primitive of the first mesh.
pub fn targets_of(lent: &Scene) -> Part {
    let tables = lent.header.meshes;
    let first = lent.words[tables.meshes.at] as usize;
    let record = &lent.words[tables.primitives.at + first * PRIMITIVE_WORDS..];
    Part {
        at: record[TARGETS] as usize,
        count: record[TARGETS + 1] as usize,
    }
}

pub fn vertices_of(primitive: &Primitive, more: [usize; 3]) -> Vertices {
    let normals = primitive.normals.as_deref().unwrap_or_default();
    let tangents = primitive.tangents.as_deref().unwrap_or_default();
    Vertices {
        positions: flat(&primitive.positions, more[0]),
        normals: flat(normals, more[1]),
        tangents: flat(tangents, more[2]),
    }
}

fn flat<const N: usize>(rows: &[[f32; N]], more: usize) -> Vec<f32> {
    let mut floats = rows.concat();
    floats.resize(floats.len() + more, UNTOUCHED);
    floats
}
