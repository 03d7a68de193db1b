//! Texts that were damaged: those that have no reading, those whose lists leave
//! their tables, and those that say another scene.

use super::{
    breaks::{self, Place},
    damages::DAMAGES,
    reader::{self, Read, BAD_FORM, OUT_OF_TABLE},
    round_trip::{shown, write_in},
    scenes::{largest, lent_scene},
    slices::{expected, lens_of, needed, of_port, Lens, Slices},
    writer,
};
use crate::{
    rng::Rng,
    tables::{
        generate::{Sizes, SMALL},
        numbers::number,
    },
    tally::{Met, Tally},
};
use mesh3d::raw;
use std::array::from_fn;

const OVER_A_LIMIT: u32 = 2;
const DAMAGES_OF_EACH: usize = 50;
/// Texts of some hundred bytes, so that a damage meets each part of a text often.
const TINY: Sizes = Sizes {
    nodes: 2,
    children: 2,
    roots: 2,
    channels: 2,
    keys: 2,
    meshes: 2,
    primitives: 2,
    vertices: 1,
    targets: 2,
    in_betweens: 2,
    skins: 2,
    skeletons: 2,
    joints: 2,
};
/// One text in so many is of a scene that is not tiny.
const SMALL_ONE_IN: u32 = 8;

pub fn compare(texts: usize, seed: u64) -> bool {
    let mut comparison = Comparison::new();
    let mut rng = Rng::new(seed);
    let mut count = 0;
    while count < texts {
        let good = good(&mut rng);
        for _ in 0..DAMAGES_OF_EACH {
            let mut text = good.clone();
            let damage = rng.below(DAMAGES.len() as u32) as usize;
            DAMAGES[damage].1(&mut text, &mut rng);
            comparison.count(damage, &text, &mut rng);
        }
        count += DAMAGES_OF_EACH;
    }
    let largest = writer::write(&largest().of_port(), 0, 0.5);
    for (damage, (_, spoil)) in DAMAGES.iter().enumerate() {
        let mut text = largest.clone();
        spoil(&mut text, &mut rng);
        comparison.count(damage, &text, &mut rng);
    }
    comparison.report()
}

fn good(rng: &mut Rng) -> Vec<u8> {
    let sizes = match rng.below(SMALL_ONE_IN) {
        0 => SMALL,
        _ => TINY,
    };
    let (lent, time) = lent_scene(&sizes, rng);
    writer::write(&lent.of_port(), rng.below(sizes.nodes + 1), time)
}

struct Comparison {
    tally: Tally<usize>,
    damages: Met<{ DAMAGES.len() }>,
    answers: Met<3>,
    places: Met<3>,
}

impl Comparison {
    fn new() -> Self {
        Comparison {
            tally: Tally::new(),
            damages: Met::new(DAMAGES.map(|damage| damage.0)),
            answers: Met::new(["read", "1", "13"]),
            places: Met::new(["a byte", "a closing bracket", "the end"]),
        }
    }

    fn count(&mut self, damage: usize, text: &[u8], rng: &mut Rng) {
        let read = reader::read(text);
        self.damages.count(damage);
        self.answers.count(match read {
            Ok(_) => 0,
            Err(OUT_OF_TABLE) => 1,
            Err(_) => 2,
        });
        let place = breaks::place(text);
        self.places.count_all(&places(text, place));
        let lens = lent_lens(&read, rng);
        let checks = [
            ("needed", raw::text_room(text) == needed(&read)),
            ("read", of_port(text, lens) == expected(&read, lens)),
            ("written back", read.is_err() || is_written_back(text)),
            ("broken", place.is_some() == matches!(read, Err(BAD_FORM))),
            ("told", breaks::is_told(text, place, &raw::find_break(text))),
        ];
        let failed: Vec<&str> = checks.iter().filter(|c| !c.1).map(|c| c.0).collect();
        self.tally.count(text.len(), failed.is_empty(), |_| {
            let (name, number) = (DAMAGES[damage].0, read.as_ref().err());
            format!("{name}, not {failed:?}, plain {number:?}: {}", shown(text))
        });
    }

    fn report(&self) -> bool {
        let note = [
            &self.damages.note()[..],
            "; answers",
            &self.answers.note(),
            "; broken at",
            &self.places.note(),
        ];
        let all = [
            self.tally.report("damaged texts", "texts", &note.concat()),
            self.damages.report(),
            self.answers.report(),
            self.places.report(),
        ];
        !all.contains(&false)
    }
}

fn places(text: &[u8], place: Option<Place>) -> [bool; 3] {
    let is_end = |at| at == text.len();
    match place {
        None => [false; 3],
        Some(Place::Byte(at)) => [!is_end(at), false, is_end(at)],
        Some(Place::Shape(at)) => [false, !is_end(at), is_end(at)],
    }
}

/// Enough, some more, or too little, where a text is read; any where it is not.
fn lent_lens(read: &Result<Read, u32>, rng: &mut Rng) -> Lens {
    let Ok(read) = read else {
        return from_fn(|_| rng.one_of(&[0, 1, 40, 400]));
    };
    match rng.below(8) {
        0 => lens_of(read).map(|len| len.saturating_sub(rng.below(2) as usize)),
        1 => [0; 4],
        2..4 => lens_of(read).map(|len| len + rng.below(30) as usize),
        _ => lens_of(read),
    }
}

/// The tables that are read from a text are written as this text, but where
/// they are over a limit.
fn is_written_back(text: &[u8]) -> bool {
    let (slices, reading) = Slices::of(text);
    let lent = slices.scene(reading.header);
    let (written, out) = write_in(&lent, reading.node, reading.time, text.len());
    match number(&lent) {
        0 => (written.number, written.length) == (0, text.len()) && out == text,
        number => (number, written.number, written.length) == (OVER_A_LIMIT, OVER_A_LIMIT, 0),
    }
}
