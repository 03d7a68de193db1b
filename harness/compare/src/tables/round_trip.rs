//! Scenes lent in both layouts and read back: nothing is lost, and the number
//! that they draw is the same.

use super::{
    build::lend,
    decode::decode,
    generate::{scene, Sizes, SMALL},
    layout::Layout,
    numbers::number,
    same::Same,
};
use crate::{
    rng::Rng,
    tally::{Met, Tally},
};
use mesh3d::raw;
use oracle::{
    Animation, AnimationChannel, AnimationProperty, AnimationValues, NodeId, Scene3D, Transform,
};

const SMALL_SCENES: usize = 5_000;
const LARGE_SCENES: usize = 20;

/// Past some limits.
const LARGE: Sizes = Sizes {
    nodes: 1_100,
    children: 12,
    roots: 1_100,
    channels: 40,
    keys: 100,
    meshes: 4,
    primitives: 5,
    vertices: 200,
    targets: 4,
    in_betweens: 4,
    skins: 4,
    skeletons: 4,
    joints: 260,
};

pub fn compare() -> bool {
    let mut comparison = Comparison::new();
    let mut rng = Rng::new(1);
    for (scenes, sizes) in [(SMALL_SCENES, SMALL), (LARGE_SCENES, LARGE)] {
        for _ in 0..scenes {
            comparison.count(scene(&mut rng, &sizes), &mut rng);
        }
    }
    comparison.report()
}

struct Comparison {
    tally: Tally<(usize, usize)>,
    met: Met<13>,
    drawn: Met<2>,
}

impl Comparison {
    fn new() -> Self {
        Comparison {
            tally: Tally::new(),
            met: Met::new([
                "a matrix",
                "its own child",
                "a child twice",
                "a child that is not there",
                "absent normals",
                "empty normals",
                "normals of another count",
                "in-betweens",
                "a named root",
                "no named root",
                "no inverse binds",
                "an uneven channel",
                "a channel of another kind",
            ]),
            drawn: Met::new(["0", "2"]),
        }
    }

    fn count(&mut self, whole: (Scene3D, Animation), rng: &mut Rng) {
        let (scene, animation) = &whole;
        let layouts = [Layout::Compact, Layout::Spread(Rng::new(rng.bits()))];
        let mut drawn = Vec::new();
        let mut equal = true;
        for mut layout in layouts {
            let lent = lend(scene, animation, &mut layout);
            equal &= decode(&lent).is_same(&whole);
            let lent = lent.of_port();
            drawn.extend([number(&lent), raw::tables_number(&lent)]);
        }
        equal &= drawn[0] != 1 && drawn == [drawn[0]; 4];
        self.meet(scene, animation, drawn[0]);
        let size = (scene.nodes.len(), animation.channels.len());
        self.tally.count(size, equal, |_| {
            format!("drawn {drawn:?}, {scene:?}, {animation:?}")
        });
    }

    fn meet(&mut self, scene: &Scene3D, animation: &Animation, drawn: u32) {
        for (sort, is_met) in sorts(scene, animation).into_iter().enumerate() {
            if is_met {
                self.met.count(sort);
            }
        }
        self.drawn.count(usize::from(drawn == 2));
    }

    fn report(&self) -> bool {
        let note = [&self.met.note()[..], "; drawn", &self.drawn.note()].concat();
        let equal = self.tally.report("scenes lent and read", "scenes", &note);
        let met = [self.met.report(), self.drawn.report()];
        equal && !met.contains(&false)
    }
}

/// Whether a scene has what each sort names.
fn sorts(scene: &Scene3D, animation: &Animation) -> [bool; 13] {
    let nodes = || (0..).map(NodeId).zip(&scene.nodes);
    let primitives = || scene.meshes.iter().flat_map(|mesh| &mesh.primitives);
    let targets = || primitives().flat_map(|primitive| &primitive.targets);
    let samplers = || animation.channels.iter().map(|channel| &channel.sampler);
    let normals = || primitives().map(|primitive| &primitive.normals);
    let is_repeated = |ids: &[NodeId]| ids.iter().skip(1).any(|id| *id == ids[0]);
    [
        nodes().any(|(_, node)| matches!(node.transform, Transform::Matrix(_))),
        nodes().any(|(id, node)| node.children.contains(&id)),
        nodes().any(|(_, node)| is_repeated(&node.children)),
        nodes().any(|(_, node)| node.children.iter().any(|id| scene.node(*id).is_none())),
        normals().any(Option::is_none),
        normals().any(|normals| normals.as_ref().is_some_and(Vec::is_empty)),
        primitives().any(|p| {
            p.normals
                .as_ref()
                .is_some_and(|n| n.len() != p.positions.len())
        }),
        targets().any(|target| !target.inbetweens.is_empty()),
        scene.skins.iter().any(|skin| skin.root_node.is_some()),
        scene.skins.iter().any(|skin| skin.root_node.is_none()),
        scene
            .skeletons
            .iter()
            .any(|s| s.inverse_bind_matrices.is_empty()),
        samplers().any(|sampler| sampler.values.len() % sampler.keyframes.len().max(1) != 0),
        animation.channels.iter().any(is_of_another_kind),
    ]
}

/// Than the property that it is for.
fn is_of_another_kind(channel: &AnimationChannel) -> bool {
    let values = &channel.sampler.values;
    !matches!(
        (channel.target.property, values),
        (AnimationProperty::Rotation, AnimationValues::Quat(_))
            | (AnimationProperty::MorphWeights, AnimationValues::Scalar(_))
            | (AnimationProperty::Translation, AnimationValues::Vec3(_))
            | (AnimationProperty::Scale, AnimationValues::Vec3(_))
    )
}
