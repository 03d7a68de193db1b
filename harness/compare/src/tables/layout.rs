//! Tables as they are lent, and the parts of a slice before it is known where
//! they lie.

use crate::rng::Rng;
use mesh3d::raw::{Header, Part, Scene};

/// The tables that a header names, in its order.
pub fn tables_of(header: &mut Header) -> [&mut Part; 9] {
    [
        &mut header.graph.nodes,
        &mut header.graph.roots,
        &mut header.channels,
        &mut header.meshes.meshes,
        &mut header.meshes.primitives,
        &mut header.meshes.targets,
        &mut header.meshes.in_betweens,
        &mut header.skins.skins,
        &mut header.skins.skeletons,
    ]
}

/// A scene as it is lent; docs/TABLES.md has the layout.
pub struct Lent {
    pub words: Vec<u32>,
    pub floats: Vec<f32>,
    pub node_weights: Vec<f32>,
    pub mesh_weights: Vec<f32>,
    pub header: Header,
}

impl Lent {
    pub fn of_port(&self) -> Scene<'_> {
        Scene {
            words: &self.words,
            floats: &self.floats,
            node_weights: &self.node_weights,
            mesh_weights: &self.mesh_weights,
            header: self.header,
        }
    }
}

/// Where the parts of a scene are put, which does not change the scene.
pub enum Layout {
    /// One after the other; words that are not read are 0.
    Compact,
    /// In any order and with gaps, some parts over others; words that are not
    /// read are anything.
    Spread(Rng),
}

impl Layout {
    /// Whether a part without entries is lent as present where it could as well
    /// be absent.
    pub fn is_empty_present(&mut self) -> bool {
        match self {
            Layout::Compact => false,
            Layout::Spread(rng) => rng.below(2) == 0,
        }
    }

    pub fn unread_word(&mut self) -> u32 {
        match self {
            Layout::Compact => 0,
            Layout::Spread(rng) => rng.bits() as u32,
        }
    }

    fn order(&mut self, parts: usize) -> Vec<usize> {
        let mut order: Vec<usize> = (0..parts).collect();
        if let Layout::Spread(rng) = self {
            for k in (1..parts).rev() {
                order.swap(k, rng.below(k as u32 + 1) as usize);
            }
        }
        order
    }

    fn gap(&mut self) -> usize {
        match self {
            Layout::Compact => 0,
            Layout::Spread(rng) => rng.below(3) as usize,
        }
    }

    /// Never 0 where there are gaps, so that a slice of which records in gaps
    /// name the first entry has one.
    fn last_gap(&mut self) -> usize {
        match self {
            Layout::Compact => 0,
            Layout::Spread(rng) => 1 + rng.below(3) as usize,
        }
    }

    /// A place among the entries that are there for a part that need not be
    /// added.
    fn place_among<T: PartialEq>(&mut self, entries: &[T], part: &[T]) -> Option<usize> {
        let Layout::Spread(rng) = self else {
            return None;
        };
        match part.len() {
            0 => Some(rng.below(entries.len() as u32 + 1) as usize),
            len if rng.below(2) == 0 => entries.windows(len).position(|there| there == part),
            _ => None,
        }
    }
}

/// The parts of one slice or table, each known by its number.
pub struct Pool<T> {
    parts: Vec<Vec<T>>,
}

/// All parts in one, and where each starts.
pub struct Laid<T> {
    pub entries: Vec<T>,
    pub starts: Vec<usize>,
}

impl<T: Clone + PartialEq> Pool<T> {
    pub fn new() -> Self {
        Pool { parts: Vec::new() }
    }

    pub fn add(&mut self, part: Vec<T>) -> usize {
        self.parts.push(part);
        self.parts.len() - 1
    }

    pub fn lay_out(&self, layout: &mut Layout, filler: T) -> Laid<T> {
        let mut entries = Vec::new();
        let mut starts = vec![0; self.parts.len()];
        for k in layout.order(self.parts.len()) {
            let part = &self.parts[k];
            starts[k] = layout.place_among(&entries, part).unwrap_or_else(|| {
                entries.resize(entries.len() + layout.gap(), filler.clone());
                entries.extend_from_slice(part);
                entries.len() - part.len()
            });
        }
        entries.resize(entries.len() + layout.last_gap(), filler);
        Laid { entries, starts }
    }
}
