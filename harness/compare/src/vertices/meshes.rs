//! Vertices to compare on, and the same in the Rust's form.

use crate::{
    matrices::inputs::{number, vector},
    rng::Rng,
    rooms::Vertices,
    tally::Met,
};
use oracle::Primitive;

/// Of a mesh.
const MOST_VERTICES: u32 = 6;

/// How many rows an attribute has beside the positions.
pub const LENGTHS: [&str; 4] = ["absent", "shorter", "as long", "longer"];

/// Any mesh; which lengths its attributes have is counted.
pub fn vertices(rng: &mut Rng, met: &mut Met<4>) -> Vertices {
    let count = rng.below(MOST_VERTICES + 1) as usize;
    let (normals, tangents) = (row_count(rng, count, met), row_count(rng, count, met));
    Vertices {
        positions: floats(rng, count, 3),
        normals: floats(rng, normals, 3),
        tangents: floats(rng, tangents, 4),
    }
}

/// Rows of an attribute of a mesh with so many vertices.
fn row_count(rng: &mut Rng, vertices: usize, met: &mut Met<4>) -> usize {
    let rows = match rng.below(6) {
        0 => 0,
        1 => rng.below(vertices as u32 + 1) as usize,
        2 => vertices + 1 + rng.below(2) as usize,
        _ => vertices,
    };
    met.count(match rows {
        0 => 0,
        _ if rows < vertices => 1,
        _ if rows == vertices => 2,
        _ => 3,
    });
    rows
}

/// Rows of `width` floats, often with some floats past the last row.
fn floats(rng: &mut Rng, rows: usize, width: usize) -> Vec<f32> {
    let mut all = Vec::new();
    for _ in 0..rows {
        all.extend(vector(rng));
        all.resize(all.len() + width - 3, number(rng));
    }
    for _ in 0..rest(rng, width) {
        all.push(number(rng));
    }
    all
}

/// Of a row of `width`, and less than it.
pub fn rest(rng: &mut Rng, width: usize) -> usize {
    match rng.below(2) {
        0 => 0,
        _ => rng.below(width as u32) as usize,
    }
}

pub fn rows<T: Copy, const N: usize>(flat: &[T]) -> Vec<[T; N]> {
    flat.chunks_exact(N)
        .map(|row| row.try_into().expect("a row"))
        .collect()
}

/// An attribute in an empty slice is absent.
pub fn of_rust(vertices: &Vertices) -> Primitive {
    let (normals, tangents) = (&vertices.normals, &vertices.tangents);
    Primitive {
        positions: rows(&vertices.positions),
        normals: (!normals.is_empty()).then(|| rows(normals)),
        tangents: (!tangents.is_empty()).then(|| rows(tangents)),
        ..Primitive::default()
    }
}

/// The Rust's vertices in place of those that were lent; floats past the last row
/// stay.
pub fn over(lent: &Vertices, done: &Primitive) -> Vertices {
    let normals = done.normals.as_deref().unwrap_or(&[]);
    let tangents = done.tangents.as_deref().unwrap_or(&[]);
    Vertices {
        positions: overlaid(&lent.positions, done.positions.as_flattened()),
        normals: overlaid(&lent.normals, normals.as_flattened()),
        tangents: overlaid(&lent.tangents, tangents.as_flattened()),
    }
}

fn overlaid(lent: &[f32], done: &[f32]) -> Vec<f32> {
    [done, &lent[done.len()..]].concat()
}

pub fn joined(vertices: &Vertices) -> Vec<f32> {
    let parts = [&vertices.positions, &vertices.normals, &vertices.tangents];
    parts.map(Vec::as_slice).concat()
}
