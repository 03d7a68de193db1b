//! Where nodes stand: `parents`, `place_floats` and `place` on listings of every
//! sort, in poses of every sort.

pub mod answers;
mod case;
mod on_bytes;
pub mod poses;
pub mod scenes;
pub mod sorts;
pub mod speed;

use crate::{
    placing,
    rng::Rng,
    tables::{build::lend, generate::scene, layout::Layout, numbers::number},
    tally::{Met, Tally},
};
use answers::Answers;
use case::{Case, LENT};
use mesh3d::raw::Scene;
use oracle::{Animation, Scene3D};
use poses::Posed;
use sorts::{sorts, SORTS};

const SMALL_SCENES: usize = 20_000;
const LARGE_SCENES: usize = 20;
/// The word of a node that has it.
const MESH_MARK: usize = 4;

pub fn compare() -> bool {
    let mut comparison = Comparison::new();
    let mut rng = Rng::new(1);
    for listing in placing::all_listings() {
        let known = placing::places(&listing).into_iter();
        let known: Vec<u32> = known.map(|p| if p > 1 { p + 1 } else { p }).collect();
        assert_eq!(answers::places(&listing), known, "the plain walk");
        comparison.count(&listing, &mut rng);
    }
    for (count, sizes) in [(SMALL_SCENES, scenes::SMALL), (LARGE_SCENES, scenes::LARGE)] {
        for _ in 0..count {
            let (scene, _) = scene(&mut rng, &sizes);
            comparison.count(&scene, &mut rng);
        }
    }
    comparison.count(&scenes::at_limits(&mut rng), &mut rng);
    comparison.count_long_slices(&mut rng);
    comparison.report()
}

struct Comparison {
    parents: Tally<(usize, usize)>,
    places: Tally<(usize, usize)>,
    met: Met<{ SORTS.len() }>,
    short_parents: Met<1>,
    short_places: Met<{ LENT.len() }>,
    faulty: Tally<(usize, usize)>,
    drawn: Met<2>,
    on_bytes: on_bytes::Comparison,
}

impl Comparison {
    fn new() -> Self {
        Comparison {
            parents: Tally::new(),
            places: Tally::new(),
            met: Met::new(SORTS),
            short_parents: Met::new(["slots"]),
            short_places: Met::new(LENT),
            faulty: Tally::new(),
            drawn: Met::new(["1", "2"]),
            on_bytes: on_bytes::Comparison::new(),
        }
    }

    /// A scene in some pose, lent compactly and spread.
    fn count(&mut self, scene: &Scene3D, rng: &mut Rng) {
        let posed = Posed::random(rng, scene.nodes.len());
        let answers = Answers::of(scene, &posed.of_rust(scene.nodes.len()));
        for (sort, is_met) in sorts(scene, &posed, &answers).into_iter().enumerate() {
            if is_met {
                self.met.count(sort);
            }
        }
        for mut layout in [Layout::Compact, Layout::Spread(Rng::new(rng.bits()))] {
            let lent = lend(scene, &no_animation(), &mut layout);
            let lent = lent.of_port();
            assert_eq!(number(&lent), 0, "a scene inside the limits");
            let (posed, answers) = (&posed, &answers);
            let case = Case {
                lent,
                posed,
                answers,
            };
            self.count_parents(scene, &case, rng);
            self.count_places(scene, &case, rng);
            self.count_bytes(&case, rng);
            if !scene.nodes.is_empty() {
                self.count_faulty(scene, &case, rng);
            }
        }
    }

    /// A small scene in slices as long as `place` decodes, and one longer.
    fn count_long_slices(&mut self, rng: &mut Rng) {
        let scene = scenes::tree(rng, 7);
        let posed = Posed::random(rng, scene.nodes.len());
        let answers = Answers::of(&scene, &posed.of_rust(scene.nodes.len()));
        let lent = lend(&scene, &no_animation(), &mut Layout::Compact);
        let case = Case {
            lent: lent.of_port(),
            posed: &posed,
            answers: &answers,
        };
        self.on_bytes.count_in_long_slices(&case, rng);
    }

    fn count_parents(&mut self, scene: &Scene3D, case: &Case, rng: &mut Rng) {
        let more = rng.below(4) as usize;
        let told = |_: &_| format!("{:?}, of {}", case.run_parents(more), shown(scene));
        self.parents
            .count(case.size(), case.is_parents_equal(more), told);
        if let Some(is_refused) = case.is_short_parents_refused() {
            self.short_parents.count(0);
            let told = |_: &_| format!("not refused: {}", shown(scene));
            self.parents.count(case.size(), is_refused, told);
        }
    }

    fn count_places(&mut self, scene: &Scene3D, case: &Case, rng: &mut Rng) {
        let more = [(); LENT.len()].map(|_| rng.below(4) as usize);
        let told = |_: &_| format!("{}, of {}", case.told_places(more), shown(scene));
        self.places
            .count(case.size(), case.is_places_equal(more), told);
        for (lent, name) in LENT.iter().enumerate() {
            if let Some(is_refused) = case.is_short_places_refused(lent) {
                self.short_places.count(lent);
                let told = |_: &_| format!("not refused, short {name}: {}", shown(scene));
                self.places.count(case.size(), is_refused, told);
            }
        }
    }

    /// With more than suffices of everything, or one word or float too few of
    /// one thing.
    fn count_bytes(&mut self, case: &Case, rng: &mut Rng) {
        let mut lens = case.more_lens([(); LENT.len()].map(|_| rng.below(4) as usize));
        let of = rng.below(4 * LENT.len() as u32) as usize;
        if let Some(len) = lens.get_mut(of) {
            *len = case.lens()[of].saturating_sub(1);
        }
        self.on_bytes.count(case, lens, rng);
    }

    /// Roots past the words, and a mark above 1.
    fn count_faulty(&mut self, scene: &Scene3D, case: &Case, rng: &mut Rng) {
        let lent = case.lent;
        let mut leaving = lent;
        leaving.header.graph.roots.at = lent.words.len() + 1;
        let mut words = lent.words.to_vec();
        words[lent.header.graph.nodes.at + MESH_MARK] = 2;
        let marked = Scene {
            words: &words,
            ..lent
        };
        for lent in [leaving, marked] {
            let drawn = number(&lent);
            let is_refused = drawn != 0 && Case { lent, ..*case }.is_refused(drawn);
            self.on_bytes
                .count(&Case { lent, ..*case }, case.lens(), rng);
            self.drawn.count(usize::from(drawn == 2));
            let told = |_: &_| format!("not refused with {drawn}: {}", shown(scene));
            self.faulty.count(case.size(), is_refused, told);
        }
    }

    fn report(&self) -> bool {
        let short = |note: String| format!("; refused where short{note}");
        let parents = short(self.short_parents.note());
        let places = short(self.short_places.note());
        println!("graphs{}", self.met.note().replacen(',', ":", 1));
        let all = [
            self.parents.report("parents", "cases", &parents),
            self.places.report("place_floats", "cases", &places),
            self.faulty
                .report("graphs of faulty tables", "cases", &self.drawn.note()),
            self.met.report(),
            self.drawn.report(),
            self.short_parents.report(),
            self.short_places.report(),
            self.on_bytes.report(),
        ];
        !all.contains(&false)
    }
}

pub fn no_animation() -> Animation {
    Animation {
        name: None,
        channels: Vec::new(),
    }
}

fn shown(scene: &Scene3D) -> String {
    let nodes = scene.nodes.iter();
    let nodes: Vec<_> = nodes.map(|n| (&n.transform, &n.children)).collect();
    format!("roots {:?}, nodes {nodes:?}", scene.roots)
}
