//! Poses in lent slots, and the same for the Rust.

use crate::{
    matrices::inputs::{quaternion, unit_quaternion, vector},
    rng::Rng,
};
use oracle::Pose;

/// Of a node, four words and ten floats.
pub struct Posed {
    pub marks: Vec<u32>,
    pub slots: Vec<f32>,
}

impl Posed {
    /// For so many nodes and one more. Parts that are not posed, and the fourth
    /// word, are anything.
    pub fn random(rng: &mut Rng, nodes: usize) -> Self {
        let (mut marks, mut slots) = (Vec::new(), Vec::new());
        for _ in 0..=nodes {
            let is_at_rest = rng.below(3) == 0;
            let mark = |rng: &mut Rng| match is_at_rest {
                true => 0,
                false => rng.one_of(&[0, 1, 1, 1, 2, u32::MAX]),
            };
            marks.extend([mark(rng), mark(rng), mark(rng), rng.bits() as u32]);
            slots.extend(vector(rng));
            slots.extend(quaternion(rng));
            slots.extend(vector(rng));
        }
        Posed { marks, slots }
    }

    /// Every part of every node, with numbers of the unit range.
    pub fn plain(rng: &mut Rng, nodes: usize) -> Self {
        let mut slots = Vec::new();
        for _ in 0..nodes {
            slots.extend([(); 3].map(|_| rng.signed_unit()));
            slots.extend(unit_quaternion(rng));
            slots.extend([(); 3].map(|_| 0.5 + rng.unit()));
        }
        let marks = vec![1; 4 * nodes];
        Posed { marks, slots }
    }

    pub fn is_any_posed(&self, node: usize) -> bool {
        self.marks[4 * node..][..3] != [0; 3]
    }

    pub fn of_rust(&self, nodes: usize) -> Pose {
        let mut pose = Pose::new(nodes);
        let marks = self.marks.as_chunks::<4>().0;
        let slots = self.slots.as_chunks::<10>().0;
        for (i, ([t, r, s, _], v)) in marks.iter().zip(slots).take(nodes).enumerate() {
            pose.translations[i] = (*t != 0).then(|| [v[0], v[1], v[2]]);
            pose.rotations[i] = (*r != 0).then(|| [v[3], v[4], v[5], v[6]]);
            pose.scales[i] = (*s != 0).then(|| [v[7], v[8], v[9]]);
        }
        pose
    }
}
