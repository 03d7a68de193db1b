//! Scenes over each limit: the builder lays them out, and they are refused by name.

use mesh3d::{
    Builder, Channel, InBetween, Interpolation, Mesh, Node, Primitive, Refusal, Skeleton, Target,
    Values,
};

/// As many as there may be, a scene with so many, and what is told of one more.
struct Limit(usize, fn(usize) -> Builder, &'static str);

#[rustfmt::skip]
const LIMITS: [Limit; 12] = [
    Limit(1_024, nodes, "there are more than 1,024 nodes"),
    Limit(1_024, roots, "there are more than 1,024 roots"),
    Limit(1_024, channels, "there are more than 1,024 channels"),
    Limit(8_192, children,
        "node 1, word 3: with its children there are more than 8,192 child entries"),
    Limit(65_535, keys, "channel 0, word 5: it has more than 65,535 keys"),
    Limit(64, frame, "channel 0, word 7: it has more than 64 weights a frame"),
    Limit(64, primitives, "mesh 0, word 1: it has more than 64 primitives"),
    Limit(65_535, positions, "primitive 0, word 1: it has more than 65,535 positions"),
    Limit(65_535, joint_rows, "primitive 0, word 10: it has more than 65,535 rows of joints"),
    Limit(64, targets, "primitive 0, word 15: it has more than 64 morph targets"),
    Limit(16, in_betweens, "morph target 0, word 10: it has more than 16 in-betweens"),
    Limit(256, joints, "skeleton 0, word 1: it has more than 256 joints"),
];

#[test]
fn one_more_than_a_limit_is_over_it() {
    for Limit(limit, scene, text) in LIMITS {
        let within = scene(limit).build().expect("words enough");
        assert_eq!((within.check(), within.fault()), (Ok(()), None), "{text}");
        let over = scene(limit + 1).build().expect("words enough");
        assert_eq!(over.check(), Err(Refusal::OverLimit), "{text}");
        assert_eq!(over.bake(0, 0.0), Err(Refusal::OverLimit), "{text}");
        assert_eq!(over.fault().expect("a fault").to_string(), text);
    }
}

fn nodes(count: usize) -> Builder {
    Builder {
        nodes: vec![Node::default(); count],
        ..Builder::new()
    }
}

fn roots(count: usize) -> Builder {
    Builder {
        roots: vec![0; count],
        ..Builder::new()
    }
}

fn channel(keys: usize, values: Values) -> Channel {
    Channel {
        node: 0,
        interpolation: Interpolation::Step,
        keys: vec![0.0; keys],
        values,
    }
}

fn channels(count: usize) -> Builder {
    Builder {
        channels: vec![channel(0, Values::Scale(Vec::new())); count],
        ..Builder::new()
    }
}

fn children(count: usize) -> Builder {
    let mut scene = nodes(3);
    scene.nodes[0].children = vec![1; 100];
    scene.nodes[1].children = vec![2; count - 100];
    scene
}

fn keys(count: usize) -> Builder {
    Builder {
        channels: vec![channel(count, Values::Scale(Vec::new()))],
        ..Builder::new()
    }
}

fn frame(count: usize) -> Builder {
    Builder {
        channels: vec![channel(2, Values::Weights(vec![0.0; 2 * count]))],
        ..Builder::new()
    }
}

fn of_primitives(primitives: Vec<Primitive>) -> Builder {
    Builder {
        meshes: vec![Mesh {
            primitives,
            ..Mesh::default()
        }],
        ..Builder::new()
    }
}

fn primitives(count: usize) -> Builder {
    of_primitives(vec![Primitive::default(); count])
}

fn positions(count: usize) -> Builder {
    of_primitives(vec![Primitive {
        positions: vec![[0.0; 3]; count],
        ..Primitive::default()
    }])
}

fn joint_rows(count: usize) -> Builder {
    of_primitives(vec![Primitive {
        joints: Some(vec![[0; 4]; count]),
        ..Primitive::default()
    }])
}

fn of_targets(targets: Vec<Target>) -> Builder {
    of_primitives(vec![Primitive {
        targets,
        ..Primitive::default()
    }])
}

fn targets(count: usize) -> Builder {
    of_targets(vec![Target::default(); count])
}

fn in_betweens(count: usize) -> Builder {
    of_targets(vec![Target {
        in_betweens: vec![InBetween::default(); count],
        ..Target::default()
    }])
}

fn joints(count: usize) -> Builder {
    Builder {
        skeletons: vec![Skeleton {
            joints: vec![0; count],
            ..Skeleton::default()
        }],
        ..Builder::new()
    }
}
