//! Palettes, skin roots and morph weights: `joint_matrices_floats`, `skin_root`
//! and `effective_weights_floats` on scenes of every sort.

pub mod case;
mod scenes;
mod sorts;
pub mod speed;
pub mod worlds;

use crate::{
    graph::no_animation,
    rng::Rng,
    tables::{build::lend, generate::scene, layout::Layout},
    tally::{Met, Tally},
};
use case::{Case, Lens};
use mesh3d::raw::Scene;
use oracle::Scene3D;
use sorts::{LISTINGS, PALETTES, ROOTS, WEIGHTS};
use worlds::{Worlds, MORE_SLOTS};

const GENERATED: usize = 40_000;
const FORESTS: usize = 100;
/// The word of a node that marks its mesh.
const MESH_MARK: usize = 4;

pub fn compare() -> bool {
    let mut comparison = Comparison::new();
    let mut rng = Rng::new(1);
    for scene in scenes::all_small() {
        comparison.count_roots(&scene);
    }
    for _ in 0..GENERATED {
        let (scene, _) = scene(&mut rng, &scenes::SMALL);
        comparison.count(&scene, &mut rng);
    }
    for _ in 0..FORESTS {
        let (nodes, joints) = (1 + rng.below(1_024), 1 + rng.below(256));
        let near = rng.one_of(&[1, 2, 8, nodes]);
        let scene = scenes::forest(&mut rng, nodes, joints, near);
        comparison.count_large(&scene, &mut rng);
    }
    let at_limits = scenes::forest(&mut rng, 1_024, 256, 1);
    comparison.count_large(&at_limits, &mut rng);
    comparison.report()
}

struct Comparison {
    listings: Met<{ LISTINGS.len() }>,
    palettes: Tally<(usize, usize)>,
    palette_sorts: Met<{ PALETTES.len() }>,
    short: Met<3>,
    roots: Tally<(usize, usize)>,
    root_sorts: Met<{ ROOTS.len() }>,
    weights: Tally<(usize, usize)>,
    weight_sorts: Met<{ WEIGHTS.len() }>,
    faulty: Tally<(usize, usize)>,
    drawn: Met<2>,
}

impl Comparison {
    fn new() -> Self {
        Comparison {
            listings: Met::new(LISTINGS),
            palettes: Tally::new(),
            palette_sorts: Met::new(PALETTES),
            short: Met::new(["places", "worlds", "output"]),
            roots: Tally::new(),
            root_sorts: Met::new(ROOTS),
            weights: Tally::new(),
            weight_sorts: Met::new(WEIGHTS),
            faulty: Tally::new(),
            drawn: Met::new(["1", "2"]),
        }
    }

    /// The roots of all skins.
    fn count_roots(&mut self, scene: &Scene3D) {
        let lent = lend(scene, &no_animation(), &mut Layout::Compact);
        let worlds = Worlds::of(vec![None; scene.nodes.len()]);
        let case = Case::new(scene, lent.of_port(), &worlds);
        for skin in 0..scene.skins.len() as u32 {
            self.count_root(&case, skin);
        }
    }

    /// Every node and skin, and ids that name none, lent compactly or spread.
    fn count(&mut self, scene: &Scene3D, rng: &mut Rng) {
        self.listings.count_all(&sorts::listing(scene));
        let worlds = Worlds::random(rng, scene);
        let mut layout = match rng.below(2) {
            0 => Layout::Compact,
            _ => Layout::Spread(Rng::new(rng.bits())),
        };
        let lent = lend(scene, &no_animation(), &mut layout);
        let case = Case::new(scene, lent.of_port(), &worlds);
        assert_eq!(case.drawn, 0, "a scene inside the limits");
        for node in ids(scene.nodes.len(), rng) {
            self.count_palette(&case, node, rng);
            self.count_weights(&case, node);
        }
        for skin in ids(scene.skins.len(), rng) {
            self.count_root(&case, skin);
        }
        if !scene.nodes.is_empty() {
            self.count_faulty(&case, rng);
        }
    }

    /// One node and one skin.
    fn count_large(&mut self, scene: &Scene3D, rng: &mut Rng) {
        let lent = lend(scene, &no_animation(), &mut Layout::Compact);
        let worlds = Worlds::random(rng, scene);
        let case = Case::new(scene, lent.of_port(), &worlds);
        self.count_palette(&case, 0, rng);
        self.count_root(&case, 0);
    }

    /// With enough of everything, then with too few places, worlds or output.
    fn count_palette(&mut self, case: &Case, node: u32, rng: &mut Rng) {
        self.palette_sorts.count_all(&sorts::palette(case, node));
        let joints = case.rust_palette(node).map_or(0, |palette| palette.len());
        let nodes = case.nodes();
        let mut more = || rng.below(MORE_SLOTS as u32 + 1) as usize;
        let enough = Lens {
            places: nodes + more(),
            worlds: 16 * (nodes + more()),
            out: 16 * joints + more(),
        };
        self.count_palette_with(case, node, enough);
        if let Some(places) = nodes.checked_sub(1) {
            self.short.count(0);
            self.count_palette_with(case, node, Lens { places, ..enough });
            self.short.count(1);
            let worlds = 16 * nodes - 1;
            self.count_palette_with(case, node, Lens { worlds, ..enough });
        }
        if let Some(out) = (16 * joints).checked_sub(1) {
            self.short.count(2);
            self.count_palette_with(case, node, Lens { out, ..enough });
        }
    }

    fn count_palette_with(&mut self, case: &Case, node: u32, lens: Lens) {
        let (rust, port) = (case.expected_palette(node, lens), case.palette(node, lens));
        self.palettes.count(case.size(), rust == port, |_| {
            let asked = format!("node {node} with {lens:?}");
            format!(
                "{asked}, Rust {rust:x?}, port {port:x?}, of {}",
                shown(case)
            )
        });
    }

    fn count_root(&mut self, case: &Case, skin: u32) {
        self.root_sorts.count_all(&sorts::root(case, skin));
        let (rust, port) = (case.expected_root(skin), case.root(skin));
        self.roots.count(case.size(), rust == port, |_| {
            format!(
                "skin {skin}, Rust {rust:?}, port {port:?}, of {}",
                shown(case)
            )
        });
    }

    /// With an output that is longer, just long enough, one float short, and
    /// empty.
    fn count_weights(&mut self, case: &Case, node: u32) {
        let len = case.rust_weights(node).map_or(0, <[f32]>::len);
        for room in [len + 2, len, len.saturating_sub(1), 0] {
            self.count_weights_with(case, node, room);
        }
    }

    fn count_weights_with(&mut self, case: &Case, node: u32, room: usize) {
        let met = sorts::weights(case, node, room);
        self.weight_sorts.count_all(&met);
        let (rust, port) = (case.expected_weights(node, room), case.weights(node, room));
        self.weights.count(case.size(), rust == port, |_| {
            let asked = format!("node {node} with room for {room}");
            format!(
                "{asked}, Rust {rust:x?}, port {port:x?}, of {}",
                shown(case)
            )
        });
    }

    /// Roots past the words, and a mark above 1: every call draws what the tables
    /// draw, with room or without.
    fn count_faulty(&mut self, case: &Case, rng: &mut Rng) {
        let lent = case.lent;
        let mut leaving = lent;
        leaving.header.graph.roots.at = lent.words.len() + 1;
        let mut words = lent.words.to_vec();
        words[lent.header.graph.nodes.at + MESH_MARK] = 2;
        let marked = Scene {
            words: &words,
            ..lent
        };
        let id = rng.below(case.nodes() as u32 + 1);
        let lens = Lens {
            places: rng.below(case.nodes() as u32 + 1) as usize,
            worlds: 16 * case.nodes(),
            out: rng.below(64) as usize,
        };
        for lent in [leaving, marked] {
            let case = Case::new(case.scene, lent, case.worlds);
            assert_ne!(case.drawn, 0, "a faulty table");
            self.drawn.count(usize::from(case.drawn == 2));
            let equal = case.palette(id, lens) == case.expected_palette(id, lens)
                && case.root(id) == case.expected_root(id)
                && case.weights(id, lens.out) == case.expected_weights(id, lens.out);
            self.faulty.count(case.size(), equal, |_| {
                format!("not refused with {}: {}", case.drawn, shown(&case))
            });
        }
    }

    fn report(&self) -> bool {
        let palettes = format!("{}; short{}", self.palette_sorts.note(), self.short.note());
        let (roots, weights) = (self.root_sorts.note(), self.weight_sorts.note());
        println!("skins{}", self.listings.note().replacen(',', ":", 1));
        let all = [
            self.listings.report(),
            self.palettes.report("palettes", "cases", &palettes),
            self.roots.report("skin roots", "cases", &roots),
            self.weights.report("effective weights", "cases", &weights),
            self.faulty
                .report("skins of faulty tables", "cases", &self.drawn.note()),
            self.palette_sorts.report(),
            self.short.report(),
            self.root_sorts.report(),
            self.weight_sorts.report(),
            self.drawn.report(),
        ];
        !all.contains(&false)
    }
}

/// All that name something of so many, the next one, and any.
fn ids(count: usize, rng: &mut Rng) -> impl Iterator<Item = u32> {
    (0..=count as u32).chain([rng.bits() as u32])
}

fn shown(case: &Case) -> String {
    let scene = case.scene;
    let nodes = scene.nodes.iter();
    let nodes: Vec<_> = nodes
        .map(|n| (&n.children, n.mesh, n.skin, &n.weights))
        .collect();
    let (roots, skins, skeletons) = (&scene.roots, &scene.skins, &scene.skeletons);
    let codes = &case.worlds.codes;
    format!("roots {roots:?}, nodes {nodes:?}, {skins:?}, {skeletons:?}, worlds {codes:?}")
}
