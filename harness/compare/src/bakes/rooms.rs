//! The room that a bake is told to need, beside the lengths that suffice.

use super::case::{Case, Lens};
use crate::tally::Tally;
use mesh3d::raw::{self, Room};

pub struct Comparison {
    tally: Tally<(usize, usize)>,
}

impl Comparison {
    pub fn new() -> Self {
        Comparison {
            tally: Tally::new(),
        }
    }

    /// Of a node whose bake draws this number with room enough: where it is
    /// accepted, the lengths are known; past 7 there is a mesh, and before it
    /// nothing is known but what the tables draw.
    pub fn count(&mut self, case: &Case, node: u32, number: u32) {
        let room = raw::bake_room(&case.lent, node);
        let right = match number {
            0 => room == told(case.lens(node)),
            1 | 2 | 7 => {
                room == Room {
                    number,
                    ..Room::default()
                }
            }
            8..=10 => room.number == 0,
            _ => room.number == 0 || room.number == 7,
        };
        self.tally.count(case.size(), right, |_| {
            format!("node {node}, drawing {number}: {room:?}")
        });
    }

    pub fn report(&self) -> bool {
        self.tally.report("room of a bake", "cases", "")
    }
}

fn told([walk, marks, slots, places, worlds, positions, normals, tangents]: Lens) -> Room {
    Room {
        number: 0,
        marks,
        slots,
        walk,
        places,
        worlds,
        positions,
        normals,
        tangents,
    }
}
