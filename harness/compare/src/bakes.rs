//! The bake of one node: `bake_floats` and `bake` on scenes of every sort. Where a track
//! turns between its keys, which is compared by a rule of its own (pose.rs), the
//! Rust starts from the port's rotations.

pub mod case;
pub mod largest;
mod on_bytes;
mod rooms;
mod sorts;
pub mod speed;

use crate::{
    pose::{fit, Moved},
    rng::Rng,
    tables::{
        build::lend,
        generate::{scene, Sizes, SMALL},
        layout::Layout,
        numbers::number,
    },
    tally::{Met, Tally},
};
use case::{is_turn, Case, Lens, LENT};
use mesh3d::raw::Scene;
use oracle::{Animation, Interpolation, Scene3D};
use sorts::SORTS;

const SMALL_SCENES: usize = 100_000;
const LARGE_SCENES: usize = 50;
/// Of the long run, which has other scenes.
const LONG_SMALL_SCENES: usize = 10_000_000;
const LONG_LARGE_SCENES: usize = 5_000;
/// Scenes that are also lent to `bake` in longer slices.
const LONG_SLICES: usize = 20;
/// Of a scene, at most.
const BAKED_NODES: u32 = 8;
/// The word of a node that marks its mesh.
const MESH_MARK: usize = 4;
const ACCEPTED: u64 = 10_000;
const SMALL_STACK: usize = 64 * 1_024;
const NUMBERS: [u32; 9] = [1, 2, 3, 5, 6, 7, 8, 9, 10];
const FEW_NODES: Sizes = Sizes {
    nodes: 4,
    joints: 3,
    ..SMALL
};
const MANY_NODES: Sizes = Sizes {
    nodes: 900,
    children: 8,
    roots: 60,
    ..FEW_NODES
};

pub fn compare() -> bool {
    compare_scenes(SMALL_SCENES, LARGE_SCENES, 8)
}

pub fn compare_long() -> bool {
    compare_scenes(LONG_SMALL_SCENES, LONG_LARGE_SCENES, 9)
}

fn compare_scenes(small: usize, large: usize, seed: u64) -> bool {
    let mut comparison = Comparison::new();
    let mut rng = Rng::new(seed);
    for (count, sizes) in [(small, FEW_NODES), (large, MANY_NODES)] {
        comparison.count_scenes(count, &sizes, &mut rng);
    }
    comparison.count_largest(&mut rng);
    comparison.report()
}

/// Linear turns become Step ones.
pub fn step_turns(animation: &mut Animation) {
    let turns = animation.channels.iter_mut().filter(|c| is_turn(c));
    turns.for_each(|channel| channel.sampler.interpolation = Interpolation::Step);
}

struct Comparison {
    tally: Tally<(usize, usize)>,
    accepted: Met<1>,
    sorts: Met<{ SORTS.len() }>,
    short: Met<{ LENT.len() }>,
    refused: Met<{ NUMBERS.len() }>,
    on_bytes: on_bytes::Comparison,
    rooms: rooms::Comparison,
}

impl Comparison {
    fn new() -> Self {
        Comparison {
            tally: Tally::new(),
            accepted: Met::new(["with a mesh"]),
            sorts: Met::new(SORTS),
            short: Met::new(LENT),
            refused: Met::new(["1", "2", "3", "5", "6", "7", "8", "9", "10"]),
            on_bytes: on_bytes::Comparison::new(),
            rooms: rooms::Comparison::new(),
        }
    }

    /// So many inside the limits, lent compactly or spread.
    fn count_scenes(&mut self, count: usize, sizes: &Sizes, rng: &mut Rng) {
        let mut scenes = 0;
        while scenes < count {
            let (scene, mut animation) = scene(rng, sizes);
            animation.channels.iter_mut().for_each(fit);
            if rng.below(4) > 0 {
                step_turns(&mut animation);
            }
            let mut layout = match rng.below(2) {
                0 => Layout::Compact,
                _ => Layout::Spread(Rng::new(rng.bits())),
            };
            let lent = lend(&scene, &animation, &mut layout);
            if number(&lent.of_port()) != 0 {
                continue;
            }
            let moved = Moved::new(&scene, animation, rng);
            let time = moved.time(rng);
            let case = Case::new(&scene, &moved, lent.of_port(), time);
            self.count_nodes(&case, rng);
            if !scene.nodes.is_empty() {
                self.count_faulty(&case);
            }
            if scenes < LONG_SLICES {
                self.on_bytes.count_in_long_slices(&case, 0);
            }
            scenes += 1;
        }
    }

    /// Of as many nodes, child entries, channels and keys as the limits allow.
    fn count_largest(&mut self, rng: &mut Rng) {
        let (scene, animation) = largest::scene();
        let lent = lend(&scene, &animation, &mut Layout::Compact);
        let moved = Moved::new(&scene, animation, rng);
        for time in [0.5, 40_000.25] {
            let case = Case::new(&scene, &moved, lent.of_port(), time);
            for node in [0, 1] {
                self.count(&case, node, case.lens(node));
            }
            let is_baked = is_baked_in_small_stack(&case);
            self.tally
                .count(case.size(), is_baked, |_| String::from("on a small stack"));
        }
    }

    /// With enough of everything, then with too little of each.
    fn count_nodes(&mut self, case: &Case, rng: &mut Rng) {
        for node in ids(case.scene.nodes.len() as u32, rng) {
            let enough = case.lens(node).map(|len| len + rng.below(20) as usize);
            let number = self.count(case, node, enough);
            self.rooms.count(case, node, number);
            for (of, len) in case.lens(node).into_iter().enumerate() {
                if let Some(less) = len.checked_sub(1) {
                    let mut lens = enough;
                    lens[of] = less;
                    self.short.count(of);
                    self.count(case, node, lens);
                }
            }
        }
    }

    /// Roots past the words, and a mark above 1, with room and without.
    fn count_faulty(&mut self, case: &Case) {
        let lent = case.lent;
        let mut leaving = lent;
        leaving.header.graph.roots.at = lent.words.len() + 1;
        let mut words = lent.words.to_vec();
        words[lent.header.graph.nodes.at + MESH_MARK] = 2;
        let marked = Scene {
            words: &words,
            ..lent
        };
        for lent in [leaving, marked] {
            let faulty = Case::new(case.scene, case.moved, lent, case.time);
            let number = self.count(&faulty, 0, case.lens(0));
            self.rooms.count(&faulty, 0, number);
            self.count(&faulty, 0, [0; LENT.len()]);
        }
    }

    /// Answers the number that is expected.
    fn count(&mut self, case: &Case, node: u32, lens: Lens) -> u32 {
        let (rust, port) = (case.expected(node, lens), case.bake(node, lens));
        match NUMBERS.iter().position(|number| *number == rust.0.number) {
            Some(k) => {
                self.refused.count(k);
                self.on_bytes.count_refused(case, node, lens);
            }
            None => {
                self.accepted.count(0);
                self.on_bytes.count(case, node, lens);
                self.sorts.count_all(&sorts::sorts(case, node));
            }
        }
        self.tally.count(case.size(), rust == port, |_| {
            let (asked, scene) = (format!("node {node} with {lens:?}"), shown(case.scene));
            format!("{asked}, Rust {rust:x?}, port {port:x?}, of {scene}")
        });
        rust.0.number
    }

    fn report(&self) -> bool {
        let note = [
            self.accepted.note(),
            self.sorts.note(),
            String::from("; short"),
            self.short.note(),
            String::from("; refused with"),
            self.refused.note(),
        ];
        let all = [
            self.tally.report("bakes", "cases", &note.concat()),
            self.accepted.report_least(ACCEPTED),
            self.sorts.report(),
            self.short.report(),
            self.refused.report(),
            self.on_bytes.report(),
            self.rooms.report(),
        ];
        !all.contains(&false)
    }
}

/// Whether a bake, on numbers and on bytes, is accepted in the stack that
/// include/mesh3d.h names.
fn is_baked_in_small_stack(case: &Case) -> bool {
    let bake = || {
        let lens = case.lens(0);
        case.bake(0, lens).0.number == 0 && on_bytes::is_baked(case, 0, lens)
    };
    std::thread::scope(|scope| {
        let thread = std::thread::Builder::new().stack_size(SMALL_STACK);
        let thread = thread.spawn_scoped(scope, bake);
        thread.is_ok_and(|thread| thread.join().unwrap_or(false))
    })
}

/// Nodes, all where they are few, and ids that name none.
fn ids(nodes: u32, rng: &mut Rng) -> Vec<u32> {
    let mut ids = vec![nodes, rng.bits() as u32];
    if nodes <= BAKED_NODES {
        ids.extend(0..nodes);
    } else {
        ids.extend((0..BAKED_NODES).map(|_| rng.below(nodes)));
    }
    ids
}

fn shown(scene: &Scene3D) -> String {
    let nodes = scene.nodes.iter();
    let nodes: Vec<_> = nodes
        .map(|n| (&n.transform, &n.children, n.mesh, n.skin, &n.weights))
        .collect();
    let (roots, skins, skeletons) = (&scene.roots, &scene.skins, &scene.skeletons);
    let meshes = &scene.meshes;
    format!("roots {roots:?}, nodes {nodes:?}, {meshes:?}, {skins:?}, {skeletons:?}")
}
