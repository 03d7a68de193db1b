//! The shape of an oar in mm, x along it, y across the blade, z through it: a round loom, and
//! the blade as a planed blank and as it is when finished.

use mesh3d::{raw::matrix::normalize3, Vec3};
use std::f32::consts::FRAC_1_SQRT_2;

// A section has four sides: the back from one edge to the other, the edge, the face, the edge.
// Points at the corners stand twice, once for each side.
pub const ACROSS: usize = 9;
pub const AROUND: usize = 2 * ACROSS + 4;
pub const SIDE_STARTS: [usize; 5] = [0, ACROSS, ACROSS + 2, 2 * ACROSS + 2, AROUND];
/// Of the loom.
pub const SIDES: usize = 16;
pub const LOOM_LENGTH: f32 = 2000.0;

const BLANK_HALF_WIDTH: f32 = 72.0;
const BLANK_HALF_THICKNESS: f32 = 20.0;
const LOOM_RADIUS: f32 = 20.0;
const LOOM_RINGS: [f32; 3] = [0.0, LOOM_LENGTH - 80.0, LOOM_LENGTH];

/// A row of the table of offsets.
struct Station {
    x: f32,
    half_width: f32,
    /// The height of the middle over the loom's axis.
    middle: f32,
    /// Above the middle.
    back: f32,
    /// Below the middle.
    face: f32,
    /// Half the thickness of the edge.
    edge: f32,
    /// How far the edges bend towards the face.
    dish: f32,
    /// 1 as the loom, 0 with a ridge.
    round: f32,
}

const fn station(row: [f32; 8]) -> Station {
    let [x, half_width, middle, back, face, edge, dish, round] = row;
    Station {
        x,
        half_width,
        middle,
        back,
        face,
        edge,
        dish,
        round,
    }
}

pub const STATIONS: usize = 15;
const TABLE: [Station; STATIONS] = [
    station([0.0, 20.0, 0.0, 20.0, 20.0, 0.0, 0.0, 1.0]),
    station([40.0, 23.5, 0.0, 19.5, 18.5, 0.5, 0.0, 0.85]),
    station([80.0, 30.0, 0.0, 18.5, 15.0, 1.0, 0.5, 0.55]),
    station([120.0, 39.0, -0.2, 17.5, 11.0, 1.5, 1.2, 0.33]),
    station([160.0, 48.5, -0.6, 16.2, 7.5, 2.0, 2.0, 0.18]),
    station([200.0, 57.0, -1.2, 14.8, 5.0, 2.0, 3.0, 0.08]),
    station([250.0, 65.0, -2.2, 13.0, 3.0, 2.0, 4.2, 0.0]),
    station([300.0, 69.0, -3.4, 11.2, 2.2, 2.0, 5.2, 0.0]),
    station([350.0, 70.0, -4.9, 9.5, 2.0, 2.0, 6.0, 0.0]),
    station([400.0, 68.5, -6.7, 7.8, 2.0, 2.0, 6.4, 0.0]),
    station([440.0, 65.5, -8.4, 6.4, 2.0, 2.0, 6.2, 0.0]),
    station([465.0, 62.0, -9.6, 5.5, 2.0, 2.0, 5.6, 0.0]),
    station([482.0, 57.0, -10.4, 4.9, 2.0, 2.0, 4.8, 0.0]),
    station([493.0, 50.5, -10.9, 4.4, 2.0, 2.0, 3.8, 0.0]),
    station([500.0, 41.0, -11.3, 4.0, 2.0, 2.0, 2.6, 0.0]),
];
/// Where the points of a side stand, as a share of the half width.
const SHARES: [f32; ACROSS] = [1.0, 0.72, 0.42, 0.18, 0.0, -0.18, -0.42, -0.72, -1.0];
/// The height of a circle there.
const CIRCLE: [f32; ACROSS] = [0.0, 0.694, 0.9075, 0.9837, 1.0, 0.9837, 0.9075, 0.694, 0.0];
/// Of the sixteenths of a turn.
const COSINES: [f32; SIDES] = [
    1.0,
    0.9238795,
    FRAC_1_SQRT_2,
    0.3826834,
    0.0,
    -0.3826834,
    -FRAC_1_SQRT_2,
    -0.9238795,
    -1.0,
    -0.9238795,
    -FRAC_1_SQRT_2,
    -0.3826834,
    0.0,
    0.3826834,
    FRAC_1_SQRT_2,
    0.9238795,
];

/// Vertices with their normals.
pub struct Shape {
    pub points: Vec<Vec3>,
    pub normals: Vec<Vec3>,
}

/// How far the back stands out over its edges, and the face, as shares of what they do in the
/// middle.
fn swell(s: &Station, i: usize, back: bool) -> f32 {
    let v = SHARES[i];
    let (rest, dome) = (1.0 - v.abs(), 1.0 - v * v);
    let ridge = 0.5 * (rest * rest) + 0.5 * (dome * dome);
    s.round * CIRCLE[i] + (1.0 - s.round) * if back { ridge } else { dome }
}

fn blade_point(s: &Station, k: usize, finished: bool) -> Vec3 {
    let back = k <= ACROSS || k == AROUND - 1;
    let i = match k {
        _ if k < ACROSS => k,
        _ if k < ACROSS + 2 => ACROSS - 1,
        _ if k < 2 * ACROSS + 2 => 2 * ACROSS + 1 - k,
        _ => 0,
    };
    let v = SHARES[i];
    let middle = s.middle - s.dish * (v * v);
    let height = match (finished, back) {
        (false, true) => BLANK_HALF_THICKNESS,
        (false, false) => -BLANK_HALF_THICKNESS,
        (true, true) => middle + s.edge + (s.back - s.edge) * swell(s, i, true),
        (true, false) => middle - s.edge - (s.face - s.edge) * swell(s, i, false),
    };
    let half_width = if finished {
        s.half_width
    } else {
        BLANK_HALF_WIDTH
    };
    [s.x, v * half_width, height]
}

pub fn minus(a: Vec3, b: Vec3) -> Vec3 {
    [a[0] - b[0], a[1] - b[1], a[2] - b[2]]
}

/// The direction of length 1, and zeros of a vector that has none.
pub fn unit(v: Vec3) -> Vec3 {
    let mut out = [0.0; 3];
    normalize3(&v, &mut out);
    out
}

/// The normal at a point, from its neighbours on the same side and at the stations before and
/// behind.
fn blade_normal(points: &[Vec3], s: usize, k: usize) -> Vec3 {
    let side = SIDE_STARTS.partition_point(|start| *start <= k);
    let (first, last) = (SIDE_STARTS[side - 1], SIDE_STARTS[side] - 1);
    let at = |s: usize, k: usize| points[s * AROUND + k];
    let before = at(s, k.saturating_sub(1).max(first));
    let u = minus(at(s, (k + 1).min(last)), before);
    let v = minus(at((s + 1).min(STATIONS - 1), k), at(s.saturating_sub(1), k));
    unit([
        u[1] * v[2] - u[2] * v[1],
        u[2] * v[0] - u[0] * v[2],
        u[0] * v[1] - u[1] * v[0],
    ])
}

pub fn blade(finished: bool) -> Shape {
    let places = || (0..STATIONS).flat_map(|s| (0..AROUND).map(move |k| (s, k)));
    let points: Vec<Vec3> = places()
        .map(|(s, k)| blade_point(&TABLE[s], k, finished))
        .collect();
    let normals = places().map(|(s, k)| blade_normal(&points, s, k)).collect();
    Shape { points, normals }
}

pub fn loom() -> Shape {
    let turn = |k| (COSINES[k], COSINES[(k + 12) % SIDES]);
    let ring = |x| (0..SIDES).map(move |k| (x, turn(k)));
    let points = LOOM_RINGS.into_iter().flat_map(ring);
    Shape {
        points: points
            .clone()
            .map(|(x, (c, s))| [x, LOOM_RADIUS * c, LOOM_RADIUS * s])
            .collect(),
        normals: points.map(|(_, (c, s))| [0.0, c, s]).collect(),
    }
}
