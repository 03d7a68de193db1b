//! How a scene lies in its tables: parts as they come, then the tables one after the other.

use crate::{
    owned::OwnedScene,
    parts::{Base, Channel, InBetween, Mesh, Node, Primitive, Skeleton, Skin, Target, Values},
    raw::{Graph, Header, Meshes, Part, Skins},
    refusal::Refusal,
};

type Laid<const N: usize> = Result<[u32; N], Refusal>;

/// A part that may be absent: mark, place, count.
const ABSENT: [u32; 3] = [0; 3];

/// The slices and the tables of records so far.
#[derive(Default)]
pub struct Layout {
    words: Vec<u32>,
    floats: Vec<f32>,
    node_weights: Vec<f32>,
    mesh_weights: Vec<f32>,
    nodes: Vec<[u32; 16]>,
    roots: Vec<[u32; 1]>,
    channels: Vec<[u32; 8]>,
    meshes: Vec<[u32; 4]>,
    primitives: Vec<[u32; 16]>,
    targets: Vec<[u32; 12]>,
    in_betweens: Vec<[u32; 8]>,
    skins: Vec<[u32; 4]>,
    skeletons: Vec<[u32; 4]>,
}

/// A place or count as a word, whole.
fn word(number: usize) -> Result<u32, Refusal> {
    u32::try_from(number).map_err(|_| Refusal::OverLimit)
}

/// Entries behind those that are there; answers place and count, of `count` entries.
fn put<T: Copy>(slice: &mut Vec<T>, entries: &[T], count: usize) -> Laid<2> {
    let part = [word(slice.len())?, word(count)?];
    slice.extend_from_slice(entries);
    Ok(part)
}

/// Records that belong together, behind those that are there; answers first and count.
fn put_records<T>(table: &mut Vec<T>, records: Vec<T>) -> Laid<2> {
    let part = [word(table.len())?, word(records.len())?];
    table.extend(records);
    Ok(part)
}

fn marked([at, count]: [u32; 2]) -> [u32; 3] {
    [1, at, count]
}

fn reference(id: Option<u32>) -> [u32; 2] {
    id.map_or([0; 2], |id| [1, id])
}

/// A record of these fields, and zeros behind them.
fn record<const N: usize>(fields: &[&[u32]]) -> [u32; N] {
    let mut record = [0; N];
    let fields = fields.concat();
    record[..fields.len()].copy_from_slice(&fields);
    record
}

impl Layout {
    pub fn nodes(&mut self, nodes: &[Node]) -> Result<(), Refusal> {
        for node in nodes {
            let node = self.node(node)?;
            self.nodes.push(node);
        }
        Ok(())
    }

    pub fn roots(&mut self, roots: &[u32]) {
        self.roots.extend(roots.iter().map(|root| [*root]));
    }

    pub fn channels(&mut self, channels: &[Channel]) -> Result<(), Refusal> {
        for channel in channels {
            let channel = self.channel(channel)?;
            self.channels.push(channel);
        }
        Ok(())
    }

    pub fn meshes(&mut self, meshes: &[Mesh]) -> Result<(), Refusal> {
        for mesh in meshes {
            let mesh = self.mesh(mesh)?;
            self.meshes.push(mesh);
        }
        Ok(())
    }

    pub fn skins(&mut self, skins: &[Skin]) {
        let records = skins
            .iter()
            .map(|skin| record(&[&[skin.skeleton], &reference(skin.root)]));
        self.skins.extend(records);
    }

    pub fn skeletons(&mut self, skeletons: &[Skeleton]) -> Result<(), Refusal> {
        for skeleton in skeletons {
            let joints = put(&mut self.words, &skeleton.joints, skeleton.joints.len())?;
            let binds = skeleton.inverse_binds.as_flattened();
            let binds = self.rows(binds.as_flattened(), skeleton.inverse_binds.len())?;
            self.skeletons.push(record(&[&joints, &binds]));
        }
        Ok(())
    }

    /// All tables behind the parts in the words, and where each of them starts.
    pub fn finish(mut self) -> OwnedScene {
        let words = &mut self.words;
        let header = Header {
            graph: Graph {
                nodes: table(words, &self.nodes),
                roots: table(words, &self.roots),
            },
            channels: table(words, &self.channels),
            meshes: Meshes {
                meshes: table(words, &self.meshes),
                primitives: table(words, &self.primitives),
                targets: table(words, &self.targets),
                in_betweens: table(words, &self.in_betweens),
            },
            skins: Skins {
                skins: table(words, &self.skins),
                skeletons: table(words, &self.skeletons),
            },
        };
        OwnedScene {
            words: self.words,
            floats: self.floats,
            node_weights: self.node_weights,
            mesh_weights: self.mesh_weights,
            header,
        }
    }

    fn node(&mut self, node: &Node) -> Laid<16> {
        let (form, base) = match &node.base {
            Base::Parts {
                translation,
                rotation,
                scale,
            } => (0, [&translation[..], rotation, scale].concat()),
            Base::Matrix(matrix) => (1, matrix.concat()),
        };
        let [base, _] = self.rows(&base, 1)?;
        let children = put(&mut self.words, &node.children, node.children.len())?;
        let (mesh, skin) = (reference(node.mesh), reference(node.skin));
        let weights = match &node.weights {
            Some(weights) => marked(put(&mut self.node_weights, weights, weights.len())?),
            None => ABSENT,
        };
        Ok(record(&[&[form, base], &children, &mesh, &skin, &weights]))
    }

    fn channel(&mut self, channel: &Channel) -> Laid<8> {
        let keys = self.rows(&channel.keys, channel.keys.len())?;
        let (property, kind, values, count) = match &channel.values {
            Values::Translation(values) => (0, 0, values.as_flattened(), values.len()),
            Values::Rotation(values) => (1, 1, values.as_flattened(), values.len()),
            Values::Scale(values) => (2, 0, values.as_flattened(), values.len()),
            Values::Weights(values) => (3, 2, &values[..], values.len()),
        };
        let values = self.rows(values, count)?;
        let tags = [channel.node, property, kind, channel.interpolation as u32];
        Ok(record(&[&tags, &keys, &values]))
    }

    fn mesh(&mut self, mesh: &Mesh) -> Laid<4> {
        let records: Result<_, _> = mesh.primitives.iter().map(|p| self.primitive(p)).collect();
        let primitives = put_records(&mut self.primitives, records?)?;
        let weights = put(&mut self.mesh_weights, &mesh.weights, mesh.weights.len())?;
        Ok(record(&[&primitives, &weights]))
    }

    fn primitive(&mut self, primitive: &Primitive) -> Laid<16> {
        let positions = self.rows(
            primitive.positions.as_flattened(),
            primitive.positions.len(),
        )?;
        let normals = self.slot(&primitive.normals)?;
        let tangents = self.slot(&primitive.tangents)?;
        let joints = match &primitive.joints {
            Some(rows) => marked(put(&mut self.words, rows.as_flattened(), rows.len())?),
            None => ABSENT,
        };
        let weights = self.slot(&primitive.weights)?;
        let records: Result<_, _> = primitive.targets.iter().map(|t| self.target(t)).collect();
        let targets = put_records(&mut self.targets, records?)?;
        Ok(record(&[
            &positions, &normals, &tangents, &joints, &weights, &targets,
        ]))
    }

    fn target(&mut self, target: &Target) -> Laid<12> {
        let positions = self.slot(&target.positions)?;
        let normals = self.slot(&target.normals)?;
        let tangents = self.slot(&target.tangents)?;
        let stops = &target.in_betweens;
        let records: Result<_, _> = stops.iter().map(|stop| self.in_between(stop)).collect();
        let in_betweens = put_records(&mut self.in_betweens, records?)?;
        Ok(record(&[&positions, &normals, &tangents, &in_betweens]))
    }

    fn in_between(&mut self, stop: &InBetween) -> Laid<8> {
        let [weight, _] = self.rows(&[stop.weight], 1)?;
        let positions = self.slot(&stop.positions)?;
        let normals = self.slot(&stop.normals)?;
        Ok(record(&[&[weight], &positions, &normals]))
    }

    fn rows(&mut self, floats: &[f32], count: usize) -> Laid<2> {
        put(&mut self.floats, floats, count)
    }

    fn slot<const N: usize>(&mut self, rows: &Option<Vec<[f32; N]>>) -> Laid<3> {
        match rows {
            Some(rows) => self.rows(rows.as_flattened(), rows.len()).map(marked),
            None => Ok(ABSENT),
        }
    }
}

fn table<const N: usize>(words: &mut Vec<u32>, records: &[[u32; N]]) -> Part {
    let part = Part {
        at: words.len(),
        count: records.len(),
    };
    words.extend_from_slice(records.as_flattened());
    part
}

#[cfg(test)]
mod tests {
    use super::*;

    #[test]
    fn a_place_of_more_than_32_bits_is_over_a_limit() {
        assert_eq!(word(u32::MAX as usize), Ok(u32::MAX));
        assert_eq!(word(u32::MAX as usize + 1), Err(Refusal::OverLimit));
        assert_eq!(word(usize::MAX), Err(Refusal::OverLimit));
    }
}
