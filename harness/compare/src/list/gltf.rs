//! Two published glTF samples. Their figures are read from the files of the folder
//! that SAMPLES_SRC names, ../shared/samples beside the repository otherwise;
//! what the JSON says of nodes, meshes and tracks is said here, with the places
//! of the accessors that it draws from.

use oracle::{
    Animation, AnimationChannel, AnimationProperty, AnimationSampler, AnimationValues,
    Interpolation, Mesh, MeshId, MorphTarget, Node, NodeId, Primitive, Scene3D, Skeleton,
    SkeletonId, Skin, SkinId, Transform,
};
use std::{env, fs, io, path::PathBuf};

pub struct Sample {
    pub scene: Scene3D,
    pub animation: Animation,
}

fn path(name: &str) -> PathBuf {
    let folder = env::var_os("SAMPLES_SRC");
    folder
        .map_or(PathBuf::from("../shared/samples"), PathBuf::from)
        .join(name)
}

/// Node 0 has the mesh and the skin, node 2 below node 1 is turned.
pub fn simple_skin() -> io::Result<Sample> {
    let text = fs::read_to_string(path("simple_skin.gltf"))?;
    let inline = text.split("base64,").skip(1);
    let buffers: Vec<Buffer> = inline
        .map(|rest| Buffer(from_base64(rest.split('"').next().unwrap_or_default())))
        .collect();
    let [shape, influences, binds, turn] = &buffers[..] else {
        return Err(io::Error::other("simple_skin.gltf: four buffers"));
    };
    let scene = Scene3D {
        nodes: vec![
            Node {
                children: vec![NodeId(1)],
                mesh: Some(MeshId(0)),
                skin: Some(SkinId(0)),
                ..node([0.0; 3], UNTURNED, [1.0; 3])
            },
            Node {
                children: vec![NodeId(2)],
                ..node([0.0, 1.0, 0.0], UNTURNED, [1.0; 3])
            },
            node([0.0; 3], UNTURNED, [1.0; 3]),
        ],
        roots: vec![NodeId(0)],
        meshes: vec![mesh(strip(shape, influences), Vec::new())],
        skins: vec![Skin::new(SkeletonId(0))],
        skeletons: vec![Skeleton {
            name: None,
            joints: vec![NodeId(1), NodeId(2)],
            inverse_bind_matrices: binds.rows(0, 64, 2).into_iter().map(by_rows).collect(),
        }],
        ..Scene3D::new()
    };
    let values = AnimationValues::Quat(turn.rows(48, 16, 12));
    let animation = linear(2, AnimationProperty::Rotation, turn.numbers(0, 12), values);
    Ok(Sample { scene, animation })
}

/// Two joints move its ten vertices.
fn strip(shape: &Buffer, influences: &Buffer) -> Primitive {
    Primitive {
        positions: shape.rows(48, 12, 10),
        joints: Some(influences.rows_of(0, 16, 10, |b| u16::from_le_bytes(b).into())),
        weights: Some(influences.rows(160, 16, 10)),
        ..Primitive::default()
    }
}

/// One node, whose mesh is blended by the track.
pub fn animated_morph_cube() -> io::Result<Sample> {
    let buffer = Buffer(fs::read(path("AnimatedMorphCube.bin"))?);
    let target = |normals, positions, tangents| MorphTarget {
        position: Some(buffer.rows(positions, 12, 24)),
        normal: Some(buffer.rows(normals, 12, 24)),
        tangent: Some(buffer.rows(tangents, 12, 24)),
        inbetweens: Vec::new(),
    };
    let primitive = Primitive {
        positions: buffer.rows(672, 12, 24),
        normals: Some(buffer.rows(0, 12, 24)),
        tangents: Some(buffer.rows(288, 16, 24)),
        targets: vec![target(960, 1248, 1536), target(1824, 2112, 2400)],
        ..Primitive::default()
    };
    #[allow(clippy::approx_constant)] // as the file has them
    let rotation = [0.0, 0.7071067, -0.7071068, 0.0];
    let scene = Scene3D {
        nodes: vec![Node {
            mesh: Some(MeshId(0)),
            ..node([0.0; 3], rotation, [100.0; 3])
        }],
        roots: vec![NodeId(0)],
        meshes: vec![mesh(primitive, vec![0.0; 2])],
        ..Scene3D::new()
    };
    let values = AnimationValues::Scalar(buffer.numbers(3268, 254));
    let keys = buffer.numbers(2760, 127);
    let animation = linear(0, AnimationProperty::MorphWeights, keys, values);
    Ok(Sample { scene, animation })
}

const UNTURNED: [f32; 4] = [0.0, 0.0, 0.0, 1.0];

fn node(translation: [f32; 3], rotation: [f32; 4], scale: [f32; 3]) -> Node {
    Node {
        transform: Transform::Trs {
            translation,
            rotation,
            scale,
        },
        ..Node::new()
    }
}

fn mesh(primitive: Primitive, weights: Vec<f32>) -> Mesh {
    Mesh {
        primitives: vec![primitive],
        weights,
        ..Mesh::default()
    }
}

fn linear(
    node: u32,
    property: AnimationProperty,
    keyframes: Vec<f32>,
    values: AnimationValues,
) -> Animation {
    let sampler = AnimationSampler {
        keyframes,
        values,
        interpolation: Interpolation::Linear,
    };
    Animation {
        name: None,
        channels: vec![AnimationChannel::new(NodeId(node), property, sampler)],
    }
}

/// glTF stores columns.
fn by_rows(columns: [f32; 16]) -> [[f32; 4]; 4] {
    std::array::from_fn(|row| std::array::from_fn(|column| columns[4 * column + row]))
}

struct Buffer(Vec<u8>);

impl Buffer {
    /// So many rows of N floats, the first at a byte, each so many bytes behind
    /// the one before.
    fn rows<const N: usize>(&self, at: usize, stride: usize, count: usize) -> Vec<[f32; N]> {
        self.rows_of(at, stride, count, f32::from_le_bytes)
    }

    fn numbers(&self, at: usize, count: usize) -> Vec<f32> {
        self.rows::<1>(at, 4, count).concat()
    }

    fn rows_of<T, const W: usize, const N: usize>(
        &self,
        at: usize,
        stride: usize,
        count: usize,
        value: impl Fn([u8; W]) -> T,
    ) -> Vec<[T; N]> {
        let entry = |row: usize, k: usize| {
            let first = at + row * stride + k * W;
            value(std::array::from_fn(|byte| self.0[first + byte]))
        };
        let row = |row| std::array::from_fn(|k| entry(row, k));
        (0..count).map(row).collect()
    }
}

/// The bytes of digits of six bits, four digits to three bytes; `=` ends them.
fn from_base64(text: &str) -> Vec<u8> {
    const DIGITS: &[u8; 64] = b"ABCDEFGHIJKLMNOPQRSTUVWXYZabcdefghijklmnopqrstuvwxyz0123456789+/";
    let digits: Vec<u32> = text
        .bytes()
        .map_while(|b| DIGITS.iter().position(|d| *d == b))
        .map(|digit| digit as u32)
        .collect();
    let mut bytes = Vec::new();
    for group in digits.chunks(4) {
        let bits = group.iter().fold(0, |bits, digit| bits << 6 | digit);
        let bits = bits << (6 * (4 - group.len()));
        let three = [bits >> 16, bits >> 8, bits].map(|b| b as u8);
        bytes.extend(&three[..group.len() - 1]);
    }
    bytes
}
