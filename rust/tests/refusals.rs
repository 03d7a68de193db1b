//! Every refusal, drawn by the calls that can draw it, and what is left after one.

use mesh3d::{
    Base, Buffers, Builder, Channel, Interpolation, Kind, Mesh, Node, OwnedScene, Part, PassedOver,
    Place, Primitive, Reason, Refusal, Room, Scene, Skeleton, Skin, Track, Values,
};

fn node(children: &[u32], mesh: Option<u32>, skin: Option<u32>) -> Node {
    Node {
        base: Base::translation([1.0, 2.0, 3.0]),
        children: children.to_vec(),
        mesh,
        skin,
        weights: None,
    }
}

/// Node 0, a root, carries node 1, which has a triangle with normals and tangents and a skin
/// of both nodes; node 2 has the mesh and stands nowhere; node 3 has none.
fn parts() -> Builder {
    let mesh = Mesh {
        primitives: vec![Primitive {
            positions: vec![[1.0, 0.0, 0.0]; 3],
            normals: Some(vec![[0.0, 0.0, 1.0]; 3]),
            tangents: Some(vec![[1.0, 0.0, 0.0, 1.0]; 3]),
            joints: Some(vec![[0, 1, 0, 0]; 3]),
            weights: Some(vec![[0.5, 0.5, 0.0, 0.0]; 3]),
            ..Primitive::default()
        }],
        weights: vec![0.5, 0.25],
    };
    Builder {
        nodes: vec![
            node(&[1], None, None),
            node(&[3], Some(0), Some(0)),
            node(&[], Some(0), None),
            node(&[], None, Some(9)),
        ],
        roots: vec![0],
        channels: vec![channel(
            0,
            vec![0.0, 1.0],
            Values::Scale(vec![[1.0; 3], [2.0; 3]]),
        )],
        meshes: vec![mesh],
        skins: vec![Skin::default()],
        skeletons: vec![Skeleton {
            joints: vec![0, 1],
            inverse_binds: Vec::new(),
        }],
    }
}

fn channel(node: u32, keys: Vec<f32>, values: Values) -> Channel {
    Channel {
        node,
        interpolation: Interpolation::Linear,
        keys,
        values,
    }
}

fn built(change: impl FnOnce(&mut Builder)) -> OwnedScene {
    let mut scene = parts();
    change(&mut scene);
    scene.build().expect("words enough")
}

#[test]
fn bakes_are_refused_by_name() {
    let good = built(|_| ());
    assert_eq!(good.bake(1, 0.5).map(|baked| baked.positions.len()), Ok(3));
    assert_eq!(good.bake(1, f32::NAN), Err(Refusal::NoTime));
    assert_eq!(good.bake(4, 0.0), Err(Refusal::NoSuchNode));
    assert_eq!(good.bake(0, 0.0), Err(Refusal::NoSuchNode));
    assert_eq!(good.bake(2, 0.0), Err(Refusal::Unplaced));
    let bad_keys = built(|scene| scene.channels[0].keys = vec![0.0, 0.0]);
    assert_eq!(bad_keys.bake(1, 0.0), Err(Refusal::KeysOutOfLine));
    let bad_joint = built(|scene| scene.skeletons[0].joints[1] = 2);
    assert_eq!(bad_joint.bake(1, 0.0), Err(Refusal::NoPalette));
}

/// Of several that apply, the lowest: as a bake with room enough answers.
#[test]
fn the_lowest_number_is_answered() {
    let bad_keys = built(|scene| scene.channels[0].keys = vec![0.0, f32::INFINITY]);
    assert_eq!(bad_keys.bake(9, f32::NAN), Err(Refusal::NoTime));
    assert_eq!(bad_keys.bake(9, 0.0), Err(Refusal::KeysOutOfLine));
    let over = built(|scene| scene.roots = vec![0; 1_025]);
    assert_eq!(over.bake(9, f32::NAN), Err(Refusal::OverLimit));
}

#[test]
fn tables_from_elsewhere_can_be_out_of_table() {
    let good = built(|_| ());
    let mut scene = good.as_scene();
    scene.floats = &scene.floats[1..];
    assert_eq!(scene.check(), Err(Refusal::OutOfTable));
    assert_eq!(scene.room(1), Err(Refusal::OutOfTable));
    assert_eq!(scene.passed_over(0.0, 0), Err(Refusal::OutOfTable));
    assert_eq!(scene.skin_root(0), Err(Refusal::OutOfTable));
    assert!(scene.fault().is_some());
}

/// Room that is one entry short of what is told in one slice.
fn shorter(room: Room) -> [(Room, Refusal); 8] {
    let less = |change: fn(&mut Room), refusal| {
        let mut short = room;
        change(&mut short);
        (short, refusal)
    };
    [
        less(|room| room.marks -= 1, Refusal::ShortScratch),
        less(|room| room.slots -= 1, Refusal::ShortScratch),
        less(|room| room.walk -= 1, Refusal::ShortScratch),
        less(|room| room.places -= 1, Refusal::ShortScratch),
        less(|room| room.worlds -= 1, Refusal::ShortScratch),
        less(|room| room.positions -= 1, Refusal::ShortOutput),
        less(|room| room.normals -= 1, Refusal::ShortOutput),
        less(|room| room.tangents -= 1, Refusal::ShortOutput),
    ]
}

#[test]
fn room_is_enough_and_no_less_is() {
    let good = built(|_| ());
    let scene = good.as_scene();
    let room = scene.room(1).expect("a mesh");
    let bake = |room: &Room| {
        let mut buffers = Buffers::new(room);
        let (mut scratch, mut out) = buffers.slices();
        let baked = scene.bake(1, 0.5, &mut scratch, &mut out);
        let is_untouched = out.positions.iter().all(|x| x.to_bits() == 0);
        (baked.map(|written| written.positions), is_untouched)
    };
    assert_eq!(bake(&room), (Ok(9), false));
    for (short, refusal) in shorter(room) {
        assert_eq!(bake(&short), (Err(refusal), true), "{short:?}");
    }
    assert_eq!(scene.room(0), Err(Refusal::NoSuchNode));
    assert_eq!(scene.room(4), Err(Refusal::NoSuchNode));
}

#[test]
fn poses_and_places_are_refused_short_scratch() {
    let good = built(|_| ());
    let scene = good.as_scene();
    let room = scene.room(1).expect("a mesh");
    for (short, refusal) in shorter(room) {
        let mut buffers = Buffers::new(&short);
        let (mut scratch, _) = buffers.slices();
        let is_pose = short.marks < room.marks || short.slots < room.slots;
        let posed = if is_pose { Err(refusal) } else { Ok(()) };
        assert_eq!(scene.pose(0.5, &mut scratch), posed, "{short:?}");
        let is_scratch = refusal == Refusal::ShortScratch;
        let placed = if is_scratch { Err(refusal) } else { Ok(3) };
        assert_eq!(scene.place(&mut scratch), placed, "{short:?}");
    }
    assert_eq!(
        scene.pose(f32::NAN, &mut Default::default()),
        Err(Refusal::NoTime)
    );
}

#[test]
fn palettes_roots_weights_and_parents() {
    let good = built(|_| ());
    let scene = good.as_scene();
    let mut buffers = Buffers::new(&scene.room(1).expect("a mesh"));
    let (mut scratch, _) = buffers.slices();
    let mut out = [0.0; 32];
    let short = scene.joint_matrices(1, &Default::default(), &mut out);
    assert_eq!(short, Err(Refusal::ShortScratch));
    scene.pose(0.0, &mut scratch).expect("a pose");
    scene.place(&mut scratch).expect("places");
    assert_eq!(scene.joint_matrices(1, &scratch, &mut out), Ok(32));
    assert_eq!(out[16..20], [1.0, 0.0, 0.0, 2.0]);
    let mut palette = |node, len: usize| scene.joint_matrices(node, &scratch, &mut out[..len]);
    assert_eq!(palette(1, 31), Err(Refusal::ShortOutput));
    assert_eq!(palette(0, 32), Err(Refusal::NoPalette));
    assert_eq!(palette(4, 32), Err(Refusal::NoSuchNode));

    assert_eq!(scene.skin_root(0), Ok(0));
    assert_eq!(scene.skin_root(1), Err(Refusal::NoCommonRoot));
    assert_eq!(scene.weights(1, &mut out), Ok(2));
    assert_eq!(scene.weights(1, &mut out[..1]), Err(Refusal::ShortOutput));
    assert_eq!(scene.weights(0, &mut out), Err(Refusal::NoSuchNode));

    let places = [
        Place::Root,
        Place::Under(0),
        Place::Nowhere,
        Place::Under(1),
    ];
    assert_eq!(good.parents().as_deref(), Ok(&places[..]));
    assert_eq!(scene.parents(&mut [0; 3]), Err(Refusal::ShortOutput));
}

#[test]
fn tracks_are_refused_by_name() {
    let floats = [0.0, 1.0, 0.0, 10.0, 20.0];
    let track = |keys: usize, values: usize| Track {
        floats: &floats,
        kind: Kind::Scalar,
        interpolation: Interpolation::Linear,
        keys: Part { at: 0, count: keys },
        values: Part {
            at: 2,
            count: values,
        },
    };
    let mut out = [0.0; 1];
    assert_eq!(track(2, 4).sample(0.5, &mut out), Err(Refusal::OutOfTable));
    assert_eq!(track(2, 3).sample(0.5, &mut out), Err(Refusal::UnevenTrack));
    assert_eq!(track(2, 2).sample(f32::NAN, &mut out), Err(Refusal::NoTime));
    assert_eq!(
        track(3, 3).sample(0.5, &mut out),
        Err(Refusal::KeysOutOfLine)
    );
    assert_eq!(track(2, 2).sample(0.5, &mut []), Err(Refusal::ShortOutput));
    assert_eq!(track(2, 2).frame(2, &mut out), Err(Refusal::NoSuchFrame));
    assert_eq!(
        track(2, 2).cubic_frame(0, &mut out),
        Err(Refusal::NoSuchFrame)
    );
}

#[test]
fn channels_that_do_nothing_are_told() {
    let scene = built(|scene| {
        let turns = vec![[0.0; 4], [0.0, 0.0, 0.0, 1.0]];
        scene.channels.extend([
            channel(4, vec![0.0], Values::Scale(vec![[1.0; 3]])),
            channel(1, vec![0.0, 1.0], Values::Scale(vec![[1.0; 3]; 3])),
            channel(1, vec![0.0, 1.0], Values::Rotation(turns)),
        ]);
    });
    let told = |channel, reason| PassedOver { channel, reason };
    let always = [told(1, Reason::NoSuchNode), told(2, Reason::Uneven)];
    assert_eq!(scene.passed_over(1.0).as_deref(), Ok(&always[..]));
    let at_first = [always[0], always[1], told(3, Reason::NoLength)];
    assert_eq!(scene.passed_over(0.0).as_deref(), Ok(&at_first[..]));
    assert_eq!(scene.passed_over(f32::NAN), Err(Refusal::NoTime));
    let text = "channel 1 does nothing: it is aimed past the last node";
    assert_eq!(always[0].to_string(), text);

    // A kind that does not fit can be said in the tables alone.
    let scene = scene.as_scene();
    let mut words = scene.words.to_vec();
    words[scene.header.channels.at + 1] = 3;
    let scene = Scene {
        words: &words,
        ..scene
    };
    let found = scene.passed_over(1.0, 0);
    assert_eq!(found, Ok(Some(told(0, Reason::KindDoesNotFit))));
}
