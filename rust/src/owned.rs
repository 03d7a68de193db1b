//! A scene that has its slices, and the calls that allocate.

use crate::{
    fault::{Fault, PassedOver},
    raw::{Header, Scene, Scratch, Vec3, Vertices},
    refusal::Refusal,
    scene::{Place, Room},
};

/// A scene laid out in tables, as [`Builder::build`](crate::Builder::build) makes it of parts
/// and [`OwnedScene::from_text`] of a text.
#[derive(Clone, Debug, Default)]
pub struct OwnedScene {
    pub(crate) words: Vec<u32>,
    pub(crate) floats: Vec<f32>,
    pub(crate) node_weights: Vec<f32>,
    pub(crate) mesh_weights: Vec<f32>,
    pub(crate) header: Header,
}

/// The vertices of a node in the world, its primitives one after the other.
#[derive(Clone, Debug, Default, PartialEq)]
pub struct Baked {
    /// One a vertex.
    pub positions: Vec<Vec3>,
    /// One a vertex of each primitive that has normals.
    pub normals: Vec<Vec3>,
    /// One a vertex of each primitive that has tangents.
    pub tangents: Vec<[f32; 4]>,
}

/// Scratch room and outputs of a bake, which can be used again for the same node at
/// another time.
#[derive(Clone, Debug, Default)]
pub struct Buffers {
    marks: Vec<u32>,
    slots: Vec<f32>,
    walk: Vec<u32>,
    places: Vec<u32>,
    worlds: Vec<f32>,
    positions: Vec<f32>,
    normals: Vec<f32>,
    tangents: Vec<f32>,
}

impl Buffers {
    /// As long as the room says.
    pub fn new(room: &Room) -> Buffers {
        Buffers {
            marks: vec![0; room.marks],
            slots: vec![0.0; room.slots],
            walk: vec![0; room.walk],
            places: vec![0; room.places],
            worlds: vec![0.0; room.worlds],
            positions: vec![0.0; room.positions],
            normals: vec![0.0; room.normals],
            tangents: vec![0.0; room.tangents],
        }
    }

    /// The slices, for the calls on a scene.
    pub fn slices(&mut self) -> (Scratch<'_>, Vertices<'_>) {
        let scratch = Scratch {
            marks: &mut self.marks,
            slots: &mut self.slots,
            walk: &mut self.walk,
            places: &mut self.places,
            worlds: &mut self.worlds,
        };
        let vertices = Vertices {
            positions: &mut self.positions,
            normals: &mut self.normals,
            tangents: &mut self.tangents,
        };
        (scratch, vertices)
    }
}

impl OwnedScene {
    /// The scene for the calls on slices.
    pub fn as_scene(&self) -> Scene<'_> {
        Scene {
            words: &self.words,
            floats: &self.floats,
            node_weights: &self.node_weights,
            mesh_weights: &self.mesh_weights,
            header: self.header,
        }
    }

    /// Whether the scene is within the limits.
    pub fn check(&self) -> Result<(), Refusal> {
        self.as_scene().check()
    }

    /// Where the scene passes a limit.
    pub fn fault(&self) -> Option<Fault> {
        self.as_scene().fault()
    }

    /// The mesh of a node in the world at a time.
    pub fn bake(&self, node: u32, time: f32) -> Result<Baked, Refusal> {
        let scene = self.as_scene();
        let mut buffers = Buffers::new(&self.room_at(node, time)?);
        let (mut scratch, mut out) = buffers.slices();
        let written = scene.bake(node, time, &mut scratch, &mut out)?;
        Ok(Baked {
            positions: rows(&out.positions[..written.positions]),
            normals: rows(&out.normals[..written.normals]),
            tangents: rows(&out.tangents[..written.tangents]),
        })
    }

    /// The room of a bake, or what the bake is refused with: where there is no mesh, the time
    /// and the keys are judged first.
    fn room_at(&self, node: u32, time: f32) -> Result<Room, Refusal> {
        let scene = self.as_scene();
        scene.room(node).or_else(|refusal| {
            scene.passed_over(time, usize::MAX)?;
            Err(refusal)
        })
    }

    /// Where each node stands by the lists alone: as a root, or under the node that listed it
    /// when that was reached. A placing can differ where several nodes list one.
    pub fn parents(&self) -> Result<Vec<Place>, Refusal> {
        let mut codes = vec![0; self.header.graph.nodes.count];
        self.as_scene().parents(&mut codes)?;
        Ok(codes.into_iter().map(Place::from_code).collect())
    }

    /// The channels that give nothing at this time, and why.
    pub fn passed_over(&self, time: f32) -> Result<Vec<PassedOver>, Refusal> {
        let scene = self.as_scene();
        let mut all = Vec::new();
        let mut from = 0;
        while let Some(found) = scene.passed_over(time, from)? {
            all.push(found);
            from = found.channel + 1;
        }
        Ok(all)
    }
}

fn rows<const N: usize>(floats: &[f32]) -> Vec<[f32; N]> {
    floats.as_chunks().0.to_vec()
}
