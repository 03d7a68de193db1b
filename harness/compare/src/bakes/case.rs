//! A bake of a scene as it is lent, and what it is to answer and leave: the
//! Rust's mesh where it gives one, and the added numbers of docs/TABLES.md.

use crate::{
    graph::answers::Answers,
    pose::Moved,
    rooms::BakeRoom,
    tables::numbers::number,
    tally::{one_nan_bits, UNTOUCHED},
};
use mesh3d::raw::{self, Baked, Scene};
use oracle::{AnimationChannel, AnimationValues, Interpolation, Mesh, NodeId, Pose, Scene3D};
use std::array::from_fn;

/// What is lent to a bake beside the tables: scratch room, then outputs.
pub const LENT: [&str; 8] = [
    "walk room",
    "pose marks",
    "pose floats",
    "places",
    "worlds",
    "positions",
    "normals",
    "tangents",
];
/// How many words or floats of each.
pub type Lens = [usize; LENT.len()];
/// The first so many are scratch room.
pub const SCRATCH: usize = 5;

const SHORT_SCRATCH: u32 = 6;
const NO_SUCH_MESH: u32 = 7;
const UNPLACED: u32 = 8;
const NO_PALETTE: u32 = 9;
const SHORT_OUTPUT: u32 = 10;

pub struct Case<'a> {
    pub scene: &'a Scene3D,
    pub moved: &'a Moved,
    pub lent: Scene<'a>,
    /// What the tables draw.
    drawn: u32,
    pub time: f32,
    /// With the port's rotations where there are turns.
    pub pose: Pose,
    /// Whether a track turns between its keys.
    pub has_turns: bool,
    answers: Answers,
}

/// What a bake answers, and the bits in all that it is lent, all NaNs being one.
type Left = (Baked, [Vec<u32>; LENT.len()]);

impl<'a> Case<'a> {
    pub fn new(scene: &'a Scene3D, moved: &'a Moved, lent: Scene<'a>, time: f32) -> Self {
        let mut pose = moved.animation.sample_pose(time, scene.nodes.len());
        let has_turns = moved.animation.channels.iter().any(is_turn);
        if has_turns {
            take_rotations(&mut pose, &lent, time);
        }
        Case {
            scene,
            moved,
            lent,
            drawn: number(&lent),
            time,
            answers: Answers::of(scene, &pose),
            pose,
            has_turns,
        }
    }

    pub fn size(&self) -> (usize, usize) {
        (self.scene.nodes.len(), self.lent.words.len())
    }

    /// The lengths that suffice.
    pub fn lens(&self, node: u32) -> Lens {
        let nodes = self.scene.nodes.len();
        let [positions, normals, tangents] = self.outputs(node).map(|floats| floats.len());
        let walk = 2 * self.answers.entries;
        let (marks, slots, worlds) = (4 * nodes, 10 * nodes, 16 * nodes);
        [
            walk, marks, slots, nodes, worlds, positions, normals, tangents,
        ]
    }

    pub fn bake(&self, node: u32, lens: Lens) -> Left {
        let mut room = room(lens);
        let baked = room.bake(&self.lent, node, self.time);
        (baked, bits_of(&room))
    }

    pub fn rust_mesh(&self, node: u32) -> Option<Mesh> {
        let animation = &self.moved.animation;
        if self.has_turns {
            self.rust_mesh_in_pose(node)
        } else {
            self.scene.world_mesh_at(animation, self.time, NodeId(node))
        }
    }

    /// The weights of the pose become the node's own, since the Rust takes no pose.
    fn rust_mesh_in_pose(&self, node: u32) -> Option<Mesh> {
        let mut scene = self.scene.clone();
        if let Some(Some(weights)) = self.pose.morph_weights.get(node as usize) {
            scene.nodes[node as usize].weights.clone_from(weights);
            if weights.is_empty() {
                scene.meshes.iter_mut().for_each(|m| m.weights.clear());
            }
        }
        let worlds = scene.posed_node_transforms(&self.pose);
        scene.world_mesh_with(NodeId(node), &worlds)
    }

    /// None where the Rust gives no mesh.
    fn outputs(&self, node: u32) -> [Vec<f32>; 3] {
        let mesh = self.rust_mesh(node);
        mesh.map_or_else(Default::default, |mesh| outputs_of(&mesh))
    }

    /// The lowest that applies, or 0.
    pub fn number(&self, node: u32, lens: Lens) -> u32 {
        let enough = self.lens(node);
        let is_short = |of: usize| lens[of] < enough[of];
        let early = self.moved.number(self.time, usize::MAX, usize::MAX);
        if self.drawn != 0 {
            self.drawn
        } else if early != 0 {
            early
        } else if (0..SCRATCH).any(is_short) {
            SHORT_SCRATCH
        } else if self.mesh(node).is_none() {
            NO_SUCH_MESH
        } else if self.answers.places[node as usize] == 0 {
            UNPLACED
        } else if self.rust_mesh(node).is_none() {
            NO_PALETTE
        } else if (SCRATCH..LENT.len()).any(is_short) {
            SHORT_OUTPUT
        } else {
            0
        }
    }

    pub fn mesh(&self, node: u32) -> Option<&Mesh> {
        self.scene.mesh(self.scene.node(NodeId(node))?.mesh?)
    }

    pub fn expected(&self, node: u32, lens: Lens) -> Left {
        let number = self.number(node, lens);
        let mut room = room(lens);
        if number == 0 || number >= UNPLACED {
            self.put_scratch(&mut room);
        }
        if number != 0 {
            let refused = Baked {
                number,
                ..Baked::default()
            };
            return (refused, bits_of(&room));
        }
        let [positions, normals, tangents] = self.outputs(node);
        room.positions[..positions.len()].copy_from_slice(&positions);
        room.normals[..normals.len()].copy_from_slice(&normals);
        room.tangents[..tangents.len()].copy_from_slice(&tangents);
        let baked = Baked {
            number: 0,
            positions: positions.len(),
            normals: normals.len(),
            tangents: tangents.len(),
            taken: self.answers.taken,
        };
        (baked, bits_of(&room))
    }

    /// The pose as `sample_pose` leaves it, and the Rust's placing.
    fn put_scratch(&self, room: &mut BakeRoom) {
        let number = raw::sample_pose(&self.lent, self.time, &mut room.marks, &mut room.slots);
        assert_eq!(number, 0, "a pose that can be sampled");
        room.walk.fill(0);
        let (places, worlds) = (&self.answers.places, &self.answers.worlds);
        room.places[..places.len()].copy_from_slice(places);
        room.worlds[..worlds.len()].copy_from_slice(worlds);
    }
}

/// Positions, normals and tangents, the primitives one after the other.
pub fn outputs_of(mesh: &Mesh) -> [Vec<f32>; 3] {
    let all = mesh.primitives.iter();
    [
        all.clone().flat_map(|p| p.positions.concat()).collect(),
        all.clone()
            .flat_map(|p| p.normals.iter().flat_map(|rows| rows.concat()))
            .collect(),
        all.flat_map(|p| p.tangents.iter().flat_map(|rows| rows.concat()))
            .collect(),
    ]
}

pub fn is_turn(channel: &AnimationChannel) -> bool {
    let sampler = &channel.sampler;
    matches!(sampler.values, AnimationValues::Quat(_))
        && sampler.interpolation == Interpolation::Linear
}

/// The port's, where it gives a pose.
fn take_rotations(pose: &mut Pose, lent: &Scene, time: f32) {
    let nodes = pose.node_count();
    let (mut marks, mut slots) = (vec![0; 4 * nodes], vec![0.0; 10 * nodes]);
    if raw::sample_pose(lent, time, &mut marks, &mut slots) == 0 {
        for (node, rotation) in pose.rotations.iter_mut().enumerate() {
            let is_posed = marks[4 * node + 1] != 0;
            *rotation = is_posed.then(|| from_fn(|k| slots[10 * node + 3 + k]));
        }
    }
}

/// As it is lent.
pub fn room(lens: Lens) -> BakeRoom {
    let [walk, marks, slots, places, worlds, positions, normals, tangents] = lens;
    let words = |len| (0xdead_0000..).take(len).collect();
    let floats = |len| vec![UNTOUCHED; len];
    BakeRoom {
        walk: words(walk),
        marks: words(marks),
        slots: floats(slots),
        places: words(places),
        worlds: floats(worlds),
        positions: floats(positions),
        normals: floats(normals),
        tangents: floats(tangents),
    }
}

pub fn bits_of(room: &BakeRoom) -> [Vec<u32>; LENT.len()] {
    let bits = |floats: &[f32]| floats.iter().map(|x| one_nan_bits(*x)).collect();
    [
        room.walk.clone(),
        room.marks.clone(),
        bits(&room.slots),
        room.places.clone(),
        bits(&room.worlds),
        bits(&room.positions),
        bits(&room.normals),
        bits(&room.tangents),
    ]
}
