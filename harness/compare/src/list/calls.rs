//! The calls on a scene as it is lent, each with what it is to answer and leave.

use super::fields::{Asked, Line};
use crate::{
    bakes::case::{room, Case as BakeCase},
    graph::{answers::Answers, poses::Posed},
    matrices::nearly_affine,
    morphs::case::{targets_of, vertices_of},
    pose::Moved,
    rng::Rng,
    rooms::Vertices,
    skins::{
        case::{Case as SkinCase, Lens as PaletteLens},
        worlds::{Worlds, MORE_SLOTS},
    },
    tables::numbers::number,
    tally::{Met, UNTOUCHED},
    vertices::{
        meshes::{of_rust, over, vertices, LENGTHS},
        skinned::{influences, rust_skinned},
    },
};
use mesh3d::raw::Scene;
use oracle::{Pose, Scene3D};

const SHORT_SCRATCH: u32 = 6;
const SHORT_OUTPUT: u32 = 10;
/// Of what a bake is lent, its walk room and its outputs.
const CUT: [usize; 4] = [0, 5, 6, 7];

pub struct Listed<'a> {
    scene: &'a Scene3D,
    moved: &'a Moved,
    pub lent: Scene<'a>,
    /// What the tables draw.
    drawn: u32,
}

/// A line of the list, and the number that it has the call answer, or 0.
pub struct Call {
    pub number: u32,
    pub line: Line,
}

impl<'a> Listed<'a> {
    pub fn new(scene: &'a Scene3D, moved: &'a Moved, lent: Scene<'a>) -> Self {
        Listed {
            scene,
            moved,
            lent,
            drawn: number(&lent),
        }
    }

    pub fn calls(&self, rng: &mut Rng) -> Vec<Call> {
        let mut calls = vec![self.parents(rng)];
        calls.extend((0..3).map(|_| self.pose(rng)));
        calls.extend((0..2).map(|_| self.places(rng)));
        let worlds = Worlds::random(rng, self.scene);
        let case = SkinCase::new(self.scene, self.lent, &worlds);
        for node in ids(self.nodes(), rng) {
            calls.extend([palette(&case, node, rng), weights(&case, node)]);
        }
        for skin in ids(self.scene.skins.len(), rng) {
            calls.push(root(&case, skin));
        }
        for _ in 0..2 {
            let time = self.moved.time(rng);
            let case = BakeCase::new(self.scene, self.moved, self.lent, time);
            for node in ids(self.nodes(), rng) {
                calls.push(bake(&case, node, rng));
            }
        }
        calls.extend([transformed(rng), skinned(rng)]);
        calls.extend(self.morphed(rng));
        calls
    }

    fn nodes(&self) -> usize {
        self.scene.nodes.len()
    }

    fn parents(&self, rng: &mut Rng) -> Call {
        let lent = filled(maybe_short(self.nodes(), rng));
        let number = match self.drawn {
            0 if lent.len() < self.nodes() => SHORT_OUTPUT,
            drawn => drawn,
        };
        let mut left = lent.clone();
        if number == 0 {
            let answers = Answers::of(self.scene, &Pose::new(self.nodes()));
            left[..self.nodes()].copy_from_slice(&answers.parents);
        }
        let line = Line::of(&[0]).words(&lent).numbers(&[number]).words(&left);
        Call { number, line }
    }

    fn pose(&self, rng: &mut Rng) -> Call {
        let time = self.moved.time(rng);
        let marks = filled(maybe_short(4 * self.nodes(), rng));
        let slots = vec![UNTOUCHED; maybe_short(10 * self.nodes(), rng)];
        let line = Line::of(&[1]).words(&marks).floats(&slots).time(time);
        let number = match self.drawn {
            0 => self.moved.number(time, marks.len(), slots.len()),
            drawn => drawn,
        };
        let (mut marks, mut slots) = (marks, slots);
        if number == 0 {
            self.moved.put_rust_pose(time, &mut marks, &mut slots);
        }
        let line = line.numbers(&[number]).words(&marks).floats(&slots);
        Call { number, line }
    }

    fn places(&self, rng: &mut Rng) -> Call {
        let nodes = self.nodes();
        let posed = Posed::random(rng, nodes);
        let answers = Answers::of(self.scene, &posed.of_rust(nodes));
        let enough = [2 * answers.entries, nodes, 16 * nodes];
        let [walk, places, worlds] = enough.map(|len| maybe_short(len, rng));
        let is_short = [walk, places, worlds]
            .iter()
            .zip(enough)
            .any(|(len, enough)| *len < enough);
        let (mut walk, mut places) = (filled(walk), filled(places));
        let mut worlds = vec![UNTOUCHED; worlds];
        let line = Line::of(&[2]).words(&posed.marks).floats(&posed.slots);
        let line = line.words(&walk).words(&places).floats(&worlds);
        let number = match self.drawn {
            0 if is_short => SHORT_SCRATCH,
            drawn => drawn,
        };
        let mut taken = 0;
        if number == 0 {
            walk.fill(0);
            places[..nodes].copy_from_slice(&answers.places);
            worlds[..16 * nodes].copy_from_slice(&answers.worlds);
            taken = answers.taken as u32;
        }
        let line = line.numbers(&[number, taken]);
        let line = line.words(&walk).words(&places).floats(&worlds);
        Call { number, line }
    }

    /// Of the first primitive, where there is one.
    fn morphed(&self, rng: &mut Rng) -> Option<Call> {
        let base = self.scene.meshes.first()?.primitives.first()?;
        let targets = targets_of(&self.lent);
        let weights: Vec<f32> = (0..rng.below(4)).map(|_| 2.0 * rng.signed_unit()).collect();
        let more = [(); 3].map(|_| rng.below(3) as usize);
        let line = with_vertices(Line::of(&[9]), &vertices_of(base, more));
        let line = line.numbers(&[targets.at as u32, targets.count as u32]);
        let left = vertices_of(&base.morphed(&weights), more);
        let line = with_vertices(line.floats(&weights), &left);
        Some(Call { number: 0, line })
    }
}

/// All ids that name something, and one that does not.
fn ids(count: usize, rng: &mut Rng) -> Vec<u32> {
    let count = count as u32;
    (0..count).chain([count + rng.below(3)]).collect()
}

/// Of so many words or floats that suffice, some more or, at times, one less.
fn maybe_short(enough: usize, rng: &mut Rng) -> usize {
    match rng.below(12) {
        0 => enough.saturating_sub(1),
        _ => enough + rng.below(3) as usize,
    }
}

/// Words of which each is another, and none a code.
fn filled(len: usize) -> Vec<u32> {
    (0xdead_0000..).take(len).collect()
}

fn palette(case: &SkinCase, node: u32, rng: &mut Rng) -> Call {
    let joints = case.rust_palette(node).map_or(0, |palette| palette.len());
    let slots = case.nodes() + MORE_SLOTS;
    let lens = PaletteLens {
        places: maybe_short(case.nodes(), rng).min(slots),
        worlds: maybe_short(16 * case.nodes(), rng).min(16 * slots),
        out: maybe_short(16 * joints, rng),
    };
    let (told, left) = case.expected_palette(node, lens);
    let line = Line::of(&[3])
        .words(&case.worlds.codes[..lens.places])
        .floats(&case.worlds.slots[..lens.worlds])
        .floats(&vec![UNTOUCHED; lens.out])
        .numbers(&[node, told.number, told.count as u32])
        .words(&left);
    let number = told.number;
    Call { number, line }
}

fn root(case: &SkinCase, skin: u32) -> Call {
    let root = case.expected_root(skin);
    let line = Line::of(&[4, skin, root.number, root.node]);
    let number = root.number;
    Call { number, line }
}

fn weights(case: &SkinCase, node: u32) -> Call {
    let room = case.rust_weights(node).map_or(0, <[f32]>::len);
    let (told, weights) = case.expected_weights(node, room);
    let number = told.number;
    let line = Line::of(&[5, node, number]).words(&weights[..told.count]);
    Call { number, line }
}

fn bake(case: &BakeCase, node: u32, rng: &mut Rng) -> Call {
    let mut lens = case.lens(node);
    for of in CUT {
        lens[of] = maybe_short(lens[of], rng);
    }
    let (baked, left) = case.expected(node, lens);
    let asked = Asked {
        node,
        time: case.time,
        turns: false,
    };
    let [.., positions, normals, tangents] = &left;
    let left = [positions, normals, tangents].map(Vec::as_slice);
    let line = Line::of(&[6]).bake(&asked, &room(lens), &baked, left);
    let number = baked.number;
    Call { number, line }
}

fn transformed(rng: &mut Rng) -> Call {
    let matrix = nearly_affine(rng);
    let lent = vertices(rng, &mut Met::new(LENGTHS));
    let left = over(&lent, &of_rust(&lent).transformed(matrix));
    let line = with_vertices(Line::of(&[7]), &lent);
    let line = with_vertices(line.floats(matrix.as_flattened()), &left);
    Call { number: 0, line }
}

fn skinned(rng: &mut Rng) -> Call {
    let lent = vertices(rng, &mut Met::new(LENGTHS));
    let influences = influences(rng, lent.positions.len() / 3);
    let left = rust_skinned(&lent, &influences);
    let line = with_vertices(Line::of(&[8]), &lent)
        .floats(&influences.palette)
        .words(&influences.joints)
        .floats(&influences.weights);
    let line = with_vertices(line, &left);
    Call { number: 0, line }
}

fn with_vertices(line: Line, vertices: &Vertices) -> Line {
    let (positions, normals) = (&vertices.positions, &vertices.normals);
    line.floats(positions)
        .floats(normals)
        .floats(&vertices.tangents)
}
