//! The scene that tables say, read as docs/TABLES.md lists the words. Tables
//! that leave their slices, and numbers that it does not list, are a panic.

use super::layout::Lent;
use mesh3d::raw::Part;
use oracle::{
    Animation, AnimationChannel, AnimationProperty, AnimationSampler, AnimationTarget,
    AnimationValues, InBetween, Interpolation, Mesh, MeshId, MorphTarget, Node, NodeId, Primitive,
    Scene3D, Skeleton, SkeletonId, Skin, SkinId, Transform,
};

pub fn decode(lent: &Lent) -> (Scene3D, Animation) {
    let header = &lent.header;
    let reader = Reader { lent };
    let scene = Scene3D {
        nodes: reader.all(header.graph.nodes, 16, Reader::node),
        roots: reader.all(header.graph.roots, 1, |_, word| NodeId(word[0])),
        meshes: reader.all(header.meshes.meshes, 4, Reader::mesh),
        skins: reader.all(header.skins.skins, 4, |_, words| skin(words)),
        skeletons: reader.all(header.skins.skeletons, 4, Reader::skeleton),
        ..Scene3D::new()
    };
    let animation = Animation {
        name: None,
        channels: reader.all(header.channels, 8, Reader::channel),
    };
    (scene, animation)
}

/// A mark and an id.
fn id(words: &[u32]) -> Option<u32> {
    is_present(words[0]).then(|| words[1])
}

fn is_present(mark: u32) -> bool {
    match mark {
        0 => false,
        1 => true,
        _ => panic!("the mark {mark}"),
    }
}

fn skin(words: &[u32]) -> Skin {
    Skin {
        skeleton: SkeletonId(words[0]),
        root_node: id(&words[1..]).map(NodeId),
    }
}

/// So many entries, from a place on.
fn part<T>(slice: &[T], at: u32, count: usize) -> &[T] {
    &slice[at as usize..at as usize + count]
}

/// `floats`, N to a row.
fn rows<const N: usize>(floats: &[f32]) -> Vec<[f32; N]> {
    let rows = floats.chunks_exact(N);
    rows.map(|row| row.try_into().expect("N floats")).collect()
}

struct Reader<'a> {
    lent: &'a Lent,
}

impl Reader<'_> {
    /// What each record of a table says.
    fn all<T>(&self, table: Part, width: usize, read: impl Fn(&Self, &[u32]) -> T) -> Vec<T> {
        let words = &self.lent.words[table.at..table.at + table.count * width];
        let records = words.chunks_exact(width);
        records.map(|record| read(self, record)).collect()
    }

    /// Some records of a table: `list` is the first one and the count.
    fn some<T>(
        &self,
        table: Part,
        width: usize,
        list: &[u32],
        read: impl Fn(&Self, &[u32]) -> T,
    ) -> Vec<T> {
        let (first, count) = (list[0] as usize, list[1] as usize);
        assert!(first + count <= table.count, "a list leaves its table");
        let at = table.at + first * width;
        self.all(Part { at, count }, width, read)
    }

    fn floats(&self, at: u32, count: usize) -> &[f32] {
        part(&self.lent.floats, at, count)
    }

    /// At and count, with N floats each.
    fn list<const N: usize>(&self, words: &[u32]) -> Vec<[f32; N]> {
        rows(self.floats(words[0], N * words[1] as usize))
    }

    /// Mark, at and count, with N floats each.
    fn slot<const N: usize>(&self, words: &[u32]) -> Option<Vec<[f32; N]>> {
        is_present(words[0]).then(|| self.list(&words[1..]))
    }

    fn node_ids(&self, words: &[u32]) -> Vec<NodeId> {
        let ids = part(&self.lent.words, words[0], words[1] as usize);
        ids.iter().map(|id| NodeId(*id)).collect()
    }

    fn node(&self, words: &[u32]) -> Node {
        let weights = if is_present(words[8]) {
            part(&self.lent.node_weights, words[9], words[10] as usize)
        } else {
            &[]
        };
        Node {
            transform: self.base(words[0], words[1]),
            children: self.node_ids(&words[2..]),
            mesh: id(&words[4..]).map(MeshId),
            skin: id(&words[6..]).map(SkinId),
            weights: weights.to_vec(),
            ..Node::new()
        }
    }

    fn base(&self, form: u32, at: u32) -> Transform {
        match form {
            0 => {
                let ten = self.floats(at, 10);
                Transform::Trs {
                    translation: [ten[0], ten[1], ten[2]],
                    rotation: [ten[3], ten[4], ten[5], ten[6]],
                    scale: [ten[7], ten[8], ten[9]],
                }
            }
            1 => Transform::Matrix(self.matrices(at, 1)[0]),
            _ => panic!("the form {form}"),
        }
    }

    fn matrices(&self, at: u32, count: usize) -> Vec<[[f32; 4]; 4]> {
        let rows_of_all = rows::<4>(self.floats(at, 16 * count));
        let matrices = rows_of_all.chunks_exact(4);
        matrices.map(|m| [m[0], m[1], m[2], m[3]]).collect()
    }

    fn channel(&self, words: &[u32]) -> AnimationChannel {
        AnimationChannel {
            target: AnimationTarget {
                node: NodeId(words[0]),
                property: match words[1] {
                    0 => AnimationProperty::Translation,
                    1 => AnimationProperty::Rotation,
                    2 => AnimationProperty::Scale,
                    3 => AnimationProperty::MorphWeights,
                    other => panic!("the property {other}"),
                },
            },
            sampler: AnimationSampler {
                keyframes: self.floats(words[4], words[5] as usize).to_vec(),
                values: match words[2] {
                    0 => AnimationValues::Vec3(self.list(&words[6..])),
                    1 => AnimationValues::Quat(self.list(&words[6..])),
                    2 => AnimationValues::Scalar(self.floats(words[6], words[7] as usize).to_vec()),
                    other => panic!("the kind {other}"),
                },
                interpolation: match words[3] {
                    0 => Interpolation::Step,
                    1 => Interpolation::Linear,
                    2 => Interpolation::CubicSpline,
                    other => panic!("the interpolation {other}"),
                },
            },
        }
    }

    fn mesh(&self, words: &[u32]) -> Mesh {
        let primitives = self.lent.header.meshes.primitives;
        Mesh {
            primitives: self.some(primitives, 16, &words[..2], Self::primitive),
            weights: part(&self.lent.mesh_weights, words[2], words[3] as usize).to_vec(),
            ..Mesh::default()
        }
    }

    fn primitive(&self, words: &[u32]) -> Primitive {
        let joints = is_present(words[8]).then(|| {
            let ids = part(&self.lent.words, words[9], 4 * words[10] as usize);
            let of_a_vertex = ids.chunks_exact(4);
            of_a_vertex.map(|j| [j[0], j[1], j[2], j[3]]).collect()
        });
        let targets = self.lent.header.meshes.targets;
        Primitive {
            positions: self.list(&words[..2]),
            normals: self.slot(&words[2..5]),
            tangents: self.slot(&words[5..8]),
            joints,
            weights: self.slot(&words[11..14]),
            indices: None,
            targets: self.some(targets, 12, &words[14..], Self::target),
        }
    }

    fn target(&self, words: &[u32]) -> MorphTarget {
        let in_betweens = self.lent.header.meshes.in_betweens;
        MorphTarget {
            position: self.slot(&words[..3]),
            normal: self.slot(&words[3..6]),
            tangent: self.slot(&words[6..9]),
            inbetweens: self.some(in_betweens, 8, &words[9..11], |reader, words| InBetween {
                weight: reader.floats(words[0], 1)[0],
                position: reader.slot(&words[1..4]),
                normal: reader.slot(&words[4..7]),
            }),
        }
    }

    fn skeleton(&self, words: &[u32]) -> Skeleton {
        Skeleton {
            name: None,
            joints: self.node_ids(&words[..2]),
            inverse_bind_matrices: self.matrices(words[2], words[3] as usize),
        }
    }
}
