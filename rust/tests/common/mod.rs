//! Random scenes for the tests.

use mesh3d::{
    Base, Builder, Channel, InBetween, Interpolation, Mesh, Node, Primitive, Skeleton, Skin,
    Target, Values,
};

/// Numbers that look random, the same in every run (xorshift).
pub struct Rng(u64);

impl Rng {
    pub fn new(seed: u64) -> Rng {
        Rng(seed.wrapping_mul(0x9e37_79b9_7f4a_7c15) | 1)
    }

    pub fn below(&mut self, limit: u32) -> u32 {
        self.0 ^= self.0 << 13;
        self.0 ^= self.0 >> 7;
        self.0 ^= self.0 << 17;
        ((self.0 >> 32) % u64::from(limit)) as u32
    }

    fn is(&mut self) -> bool {
        self.below(2) == 0
    }

    fn float(&mut self) -> f32 {
        (self.below(4_001) as f32 - 2_000.0) / 500.0
    }

    fn floats<const N: usize>(&mut self) -> [f32; N] {
        std::array::from_fn(|_| self.float())
    }

    fn list<T>(&mut self, len: u32, mut entry: impl FnMut(&mut Rng) -> T) -> Vec<T> {
        (0..len).map(|_| entry(self)).collect()
    }

    fn rows<const N: usize>(&mut self, len: u32) -> Vec<[f32; N]> {
        self.list(len, Rng::floats)
    }

    /// Absent, present with no entries, or with as many as there are vertices.
    fn slot<const N: usize>(&mut self, len: u32) -> Option<Vec<[f32; N]>> {
        match self.below(4) {
            0 => None,
            1 => Some(Vec::new()),
            _ => Some(self.rows(len)),
        }
    }

    /// At times one that names nothing.
    fn id(&mut self, count: u32) -> u32 {
        match self.below(20) {
            0 => u32::MAX,
            1 => count,
            _ => self.below(count.max(1)),
        }
    }

    fn some_id(&mut self, count: u32) -> Option<u32> {
        (self.below(4) > 0).then(|| self.id(count))
    }
}

const MESHES: u32 = 3;
const SKINS: u32 = 2;
const SKELETONS: u32 = 2;

/// A scene within the limits.
pub fn scene(rng: &mut Rng) -> Builder {
    let nodes = rng.below(9);
    Builder {
        nodes: rng.list(nodes, |rng| node(rng, nodes)),
        roots: {
            let count = rng.below(4);
            rng.list(count, |rng| rng.id(nodes))
        },
        channels: {
            let count = rng.below(6);
            rng.list(count, |rng| channel(rng, nodes))
        },
        meshes: rng.list(MESHES, mesh),
        skins: rng.list(SKINS, |rng| Skin {
            skeleton: rng.id(SKELETONS),
            root: rng.some_id(nodes),
        }),
        skeletons: rng.list(SKELETONS, |rng| skeleton(rng, nodes)),
    }
}

fn node(rng: &mut Rng, nodes: u32) -> Node {
    let children = rng.below(4);
    Node {
        base: if rng.is() {
            Base::Parts {
                translation: rng.floats(),
                rotation: rng.floats(),
                scale: rng.floats(),
            }
        } else {
            Base::Matrix(std::array::from_fn(|_| rng.floats()))
        },
        children: rng.list(children, |rng| rng.id(nodes)),
        mesh: rng.some_id(MESHES),
        skin: rng.some_id(SKINS),
        weights: rng.slot::<1>(3).map(|rows| rows.concat()),
    }
}

fn channel(rng: &mut Rng, nodes: u32) -> Channel {
    let keys = rng.below(4);
    let (interpolation, rows) = [
        (Interpolation::Step, 1),
        (Interpolation::Linear, 1),
        (Interpolation::CubicSpline, 3),
    ][rng.below(3) as usize];
    let count = keys * rows + u32::from(rng.below(8) == 0);
    Channel {
        node: rng.id(nodes),
        interpolation,
        keys: (0..keys).map(|key| key as f32).collect(),
        values: match rng.below(4) {
            0 => Values::Translation(rng.rows(count)),
            1 => Values::Rotation(rng.rows(count)),
            2 => Values::Scale(rng.rows(count)),
            _ => Values::Weights(rng.list(2 * count, Rng::float)),
        },
    }
}

fn mesh(rng: &mut Rng) -> Mesh {
    let (primitives, weights) = (rng.below(3), rng.below(4));
    Mesh {
        primitives: rng.list(primitives, primitive),
        weights: rng.list(weights, Rng::float),
    }
}

fn primitive(rng: &mut Rng) -> Primitive {
    let (vertices, targets) = (rng.below(5), rng.below(3));
    Primitive {
        positions: rng.rows(vertices),
        normals: rng.slot(vertices),
        tangents: rng.slot(vertices),
        joints: rng
            .is()
            .then(|| rng.list(vertices, |rng| std::array::from_fn(|_| rng.below(4)))),
        weights: rng.slot(vertices),
        targets: rng.list(targets, |rng| target(rng, vertices)),
    }
}

fn target(rng: &mut Rng, vertices: u32) -> Target {
    let stops = rng.below(3);
    Target {
        positions: rng.slot(vertices),
        normals: rng.slot(vertices),
        tangents: rng.slot(vertices),
        in_betweens: rng.list(stops, |rng| InBetween {
            weight: rng.float(),
            positions: rng.slot(vertices),
            normals: rng.slot(vertices),
        }),
    }
}

fn skeleton(rng: &mut Rng, nodes: u32) -> Skeleton {
    let joints = rng.below(4);
    Skeleton {
        joints: rng.list(joints, |rng| rng.id(nodes)),
        inverse_binds: if rng.is() {
            Vec::new()
        } else {
            rng.list(joints, |rng| std::array::from_fn(|_| rng.floats()))
        },
    }
}
