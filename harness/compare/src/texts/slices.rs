//! The four slices that a text is read into, and what a reading is to leave in
//! them.

use super::reader::Read;
use crate::{sampling::bits, tally::UNTOUCHED};
use mesh3d::raw::{self, Header, Needed, Reading, Scene};

pub const SLICES: [&str; 4] = ["words", "floats", "node weights", "mesh weights"];
pub type Lens = [usize; SLICES.len()];

#[derive(Clone)]
pub struct Slices {
    pub words: Vec<u32>,
    pub floats: Vec<f32>,
    pub node_weights: Vec<f32>,
    pub mesh_weights: Vec<f32>,
}

/// A reading, its time as bits, and the bits in each slice.
pub type Left = (u32, Header, u32, u32, [Vec<u32>; SLICES.len()]);

impl Slices {
    /// As they are lent.
    pub fn lent(lens: Lens) -> Self {
        let floats = |len| vec![UNTOUCHED; len];
        Slices {
            words: (0xdead_0000..).take(lens[0]).collect(),
            floats: floats(lens[1]),
            node_weights: floats(lens[2]),
            mesh_weights: floats(lens[3]),
        }
    }

    /// Of the lengths that a text needs, with its tables.
    pub fn of(text: &[u8]) -> (Self, Reading) {
        let needed = raw::text_room(text);
        let mut slices = Slices::lent([
            needed.words,
            needed.floats,
            needed.node_weights,
            needed.mesh_weights,
        ]);
        let reading = slices.read(text);
        (slices, reading)
    }

    pub fn read(&mut self, text: &[u8]) -> Reading {
        raw::read_scene(
            text,
            &mut self.words,
            &mut self.floats,
            &mut self.node_weights,
            &mut self.mesh_weights,
        )
    }

    pub fn scene(&self, header: Header) -> Scene<'_> {
        Scene {
            words: &self.words,
            floats: &self.floats,
            node_weights: &self.node_weights,
            mesh_weights: &self.mesh_weights,
            header,
        }
    }

    /// With the tables at the start of each.
    fn put(&mut self, read: &Read) {
        self.words[..read.words.len()].copy_from_slice(&read.words);
        self.floats[..read.floats.len()].copy_from_slice(&read.floats);
        self.node_weights[..read.node_weights.len()].copy_from_slice(&read.node_weights);
        self.mesh_weights[..read.mesh_weights.len()].copy_from_slice(&read.mesh_weights);
    }

    fn bits(self) -> [Vec<u32>; SLICES.len()] {
        let [floats, node_weights, mesh_weights] =
            [self.floats, self.node_weights, self.mesh_weights].map(|floats| bits(&floats));
        [self.words, floats, node_weights, mesh_weights]
    }
}

/// What the port answers and leaves in slices of these lengths.
pub fn of_port(text: &[u8], lens: Lens) -> Left {
    let mut slices = Slices::lent(lens);
    let reading = slices.read(text);
    let Reading {
        number,
        header,
        node,
        time,
    } = reading;
    (number, header, node, time.to_bits(), slices.bits())
}

/// What it is to answer and to leave.
pub fn expected(read: &Result<Read, u32>, lens: Lens) -> Left {
    const SHORT_OUTPUT: u32 = 10;
    let mut slices = Slices::lent(lens);
    match read {
        Err(number) => (*number, Header::default(), 0, 0, slices.bits()),
        Ok(read)
            if lens_of(read)
                .iter()
                .zip(lens)
                .any(|(len, lent)| lent < *len) =>
        {
            (SHORT_OUTPUT, Header::default(), 0, 0, slices.bits())
        }
        Ok(read) => {
            slices.put(read);
            (0, read.header, read.node, read.time, slices.bits())
        }
    }
}

pub fn lens_of(read: &Read) -> Lens {
    [
        read.words.len(),
        read.floats.len(),
        read.node_weights.len(),
        read.mesh_weights.len(),
    ]
}

/// What `text_room` is to answer.
pub fn needed(read: &Result<Read, u32>) -> Needed {
    let [words, floats, node_weights, mesh_weights] = read.as_ref().map_or([0; 4], lens_of);
    Needed {
        number: read.as_ref().err().copied().unwrap_or(0),
        words,
        floats,
        node_weights,
        mesh_weights,
    }
}
