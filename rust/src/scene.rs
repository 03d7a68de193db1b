//! The calls on a scene, in slices that the caller has; nothing is allocated.

use crate::{
    fault::{Fault, PassedOver},
    raw,
    raw::{Scene, Scratch, Vertices},
    refusal::{accepted, Refusal},
};

/// How many entries each slice of a bake needs.
#[derive(Clone, Copy, Debug, Default, PartialEq, Eq)]
pub struct Room {
    /// Words of [`Scratch::marks`].
    pub marks: usize,
    /// Floats of [`Scratch::slots`].
    pub slots: usize,
    /// Words of [`Scratch::walk`].
    pub walk: usize,
    /// Words of [`Scratch::places`].
    pub places: usize,
    /// Floats of [`Scratch::worlds`].
    pub worlds: usize,
    /// Floats of [`Vertices::positions`].
    pub positions: usize,
    /// Floats of [`Vertices::normals`].
    pub normals: usize,
    /// Floats of [`Vertices::tangents`].
    pub tangents: usize,
}

/// What a bake wrote.
#[derive(Clone, Copy, Debug, Default, PartialEq, Eq)]
pub struct Written {
    /// Floats of the positions.
    pub positions: usize,
    /// Floats of the normals.
    pub normals: usize,
    /// Floats of the tangents.
    pub tangents: usize,
    /// Roots and child entries that the placing took.
    pub taken: usize,
}

/// Where a node stands.
#[derive(Clone, Copy, Debug, PartialEq, Eq)]
pub enum Place {
    /// No root leads to it.
    Nowhere,
    /// It is a root.
    Root,
    /// Under the node with this id.
    Under(u32),
}

impl Place {
    /// Of a code as [`Scene::parents`] and [`Scene::place`] write it.
    pub fn from_code(code: u32) -> Place {
        match code {
            0 | 2 => Place::Nowhere,
            1 => Place::Root,
            _ => Place::Under(code - 3),
        }
    }
}

impl Scene<'_> {
    /// Whether the tables keep to their slices and limits, all that is there being judged,
    /// used or not.
    pub fn check(&self) -> Result<(), Refusal> {
        accepted(raw::tables_number(self))
    }

    /// The first place at which [`Scene::check`] finds what it refuses with.
    pub fn fault(&self) -> Option<Fault> {
        Fault::of(raw::find_fault(self))
    }

    /// How much room a bake of this node needs.
    pub fn room(&self, node: u32) -> Result<Room, Refusal> {
        let room = raw::bake_room(self, node);
        accepted(room.number)?;
        Ok(Room {
            marks: room.marks,
            slots: room.slots,
            walk: room.walk,
            places: room.places,
            worlds: room.worlds,
            positions: room.positions,
            normals: room.normals,
            tangents: room.tangents,
        })
    }

    /// Writes a code for each node to the start of `out`: a root, or the node that lists it
    /// (see [`Place::from_code`]).
    pub fn parents(&self, out: &mut [u32]) -> Result<(), Refusal> {
        accepted(raw::parents(self, out))
    }

    /// Writes the pose of each node at a time to `marks` and `slots`.
    pub fn pose(&self, time: f32, scratch: &mut Scratch) -> Result<(), Refusal> {
        accepted(raw::sample_pose(self, time, scratch.marks, scratch.slots))
    }

    /// Writes where each node stands in the pose of `marks` and `slots` to `places`, and its
    /// world to `worlds`; answers how many roots and child entries were taken.
    pub fn place(&self, scratch: &mut Scratch) -> Result<usize, Refusal> {
        let (marks, slots) = (&*scratch.marks, &*scratch.slots);
        let (walk, places) = (&mut *scratch.walk, &mut *scratch.places);
        let answer = raw::place_floats(self, marks, slots, walk, places, scratch.worlds);
        accepted(answer.number).map(|()| answer.taken)
    }

    /// Writes the palette of a node's skin to the start of `out`, from `places` and `worlds`
    /// as [`Scene::place`] leaves them; answers how many floats, sixteen a joint.
    pub fn joint_matrices(
        &self,
        node: u32,
        scratch: &Scratch,
        out: &mut [f32],
    ) -> Result<usize, Refusal> {
        let told = raw::joint_matrices(self, node, scratch.places, scratch.worlds, out);
        accepted(told.number).map(|()| told.count)
    }

    /// The root of a skin: the node that it names, or the nearest one above all joints.
    pub fn skin_root(&self, skin: u32) -> Result<u32, Refusal> {
        let root = raw::skin_root(self, skin);
        accepted(root.number).map(|()| root.node)
    }

    /// Copies the weights that a node's mesh is blended with, where no channel gives any, to
    /// the start of `out`; answers how many.
    pub fn weights(&self, node: u32, out: &mut [f32]) -> Result<usize, Refusal> {
        let told = raw::effective_weights(self, node, out);
        accepted(told.number).map(|()| told.count)
    }

    /// Writes the mesh of a node in the world at a time: blended, then skinned or
    /// transformed, its primitives one after the other at the start of each output.
    pub fn bake(
        &self,
        node: u32,
        time: f32,
        scratch: &mut Scratch,
        out: &mut Vertices,
    ) -> Result<Written, Refusal> {
        let answer = raw::bake(self, node, time, scratch, out);
        accepted(answer.number)?;
        Ok(Written {
            positions: answer.positions,
            normals: answer.normals,
            tangents: answer.tangents,
            taken: answer.taken,
        })
    }

    /// The first channel, from number `from` on, that gives its node nothing at this time.
    pub fn passed_over(&self, time: f32, from: usize) -> Result<Option<PassedOver>, Refusal> {
        PassedOver::of(raw::find_passed_over(self, time, from))
    }
}
