//! Tracks sampled, and vertices moved in place.

use mesh3d::{
    are_keys_in_line, Builder, Interpolation, Kind, Mesh, Part, Primitive, Target, Track, Value,
    Vertices,
};

fn part(at: usize, count: usize) -> Part {
    Part { at, count }
}

#[test]
fn tracks_give_their_values() {
    let floats = [0.0, 1.0, 0.0, 10.0, 2.0, 30.0, 6.0, 8.0, 7.0];
    let mut track = Track {
        floats: &floats,
        kind: Kind::Scalar,
        interpolation: Interpolation::Linear,
        keys: part(0, 2),
        values: part(2, 4),
    };
    let mut out = [9.0; 3];
    assert_eq!(track.stride(), 2);
    assert_eq!(track.sample(0.25, &mut out), Ok(Value::Weights(2)));
    assert_eq!(out, [0.5, 15.0, 9.0]);
    assert_eq!(track.frame(1, &mut out), Ok(2));
    assert_eq!(out, [2.0, 30.0, 9.0]);
    track.kind = Kind::Vec3;
    track.values = part(2, 2);
    let middle = Value::Vec3([15.0, 8.0, 5.0]);
    assert_eq!(track.sample(0.5, &mut []), Ok(middle));
    assert_eq!(track.stride(), 0);
    track.kind = Kind::Quat;
    track.values = part(2, 1);
    track.keys = part(0, 1);
    let only = Value::Quat([0.0, 10.0, 2.0, 30.0]);
    assert_eq!(track.sample(0.5, &mut []), Ok(only));
}

#[test]
fn cubic_frames_have_three_rows() {
    let floats = [0.0, 1.0, 2.0, 3.0];
    let track = Track {
        floats: &floats,
        kind: Kind::Scalar,
        interpolation: Interpolation::CubicSpline,
        keys: part(0, 1),
        values: part(1, 3),
    };
    let mut out = [9.0; 4];
    assert_eq!(track.cubic_frame(0, &mut out), Ok(3));
    assert_eq!(out, [1.0, 2.0, 3.0, 9.0]);
    assert_eq!(track.frame(0, &mut out), Ok(1));
    assert_eq!(out, [2.0, 2.0, 3.0, 9.0]);
}

#[test]
fn keys_are_judged() {
    assert!(are_keys_in_line(&[]));
    assert!(are_keys_in_line(&[-1.0, 0.0, 5.0]));
    assert!(!are_keys_in_line(&[0.0, 0.0]));
    assert!(!are_keys_in_line(&[f32::NAN]));
}

#[test]
fn vertices_are_moved_in_place() {
    let mut positions = [1.0, 2.0, 3.0, 7.0];
    let mut normals = [0.0, 0.0, 1.0];
    let mut vertices = Vertices {
        positions: &mut positions,
        normals: &mut normals,
        tangents: &mut [],
    };
    let matrix = [
        [2.0, 0.0, 0.0, 1.0],
        [0.0, 2.0, 0.0, 0.0],
        [0.0, 0.0, 2.0, 0.0],
        [0.0, 0.0, 0.0, 1.0],
    ];
    vertices.transform(&matrix);
    assert_eq!(positions, [3.0, 4.0, 6.0, 7.0]);
    assert_eq!(normals, [0.0, 0.0, 1.0]);
    let identity = [
        1.0, 0.0, 0.0, 0.0, 0.0, 1.0, 0.0, 0.0, 0.0, 0.0, 1.0, 0.0, 0.0, 0.0, 0.0, 1.0,
    ];
    let mut positions = [2.0, 4.0, 6.0];
    let mut vertices = Vertices {
        positions: &mut positions,
        ..Vertices::default()
    };
    vertices.skin(&identity, &[0, 0, 0, 1], &[0.5, f32::NAN, -1.0, 0.5]);
    assert_eq!(positions, [1.0, 2.0, 3.0]);
}

#[test]
fn targets_are_added() {
    let target = |x: f32| Target {
        positions: Some(vec![[x, 0.0, 0.0]]),
        ..Target::default()
    };
    let mut scene = Builder::new();
    scene.mesh(Mesh {
        primitives: vec![Primitive {
            targets: vec![target(1.0), target(10.0), target(100.0)],
            ..Primitive::default()
        }],
        ..Mesh::default()
    });
    let scene = scene.build().expect("words enough");
    let mut positions = [5.0, 5.0, 5.0];
    let mut vertices = Vertices {
        positions: &mut positions,
        ..Vertices::default()
    };
    vertices.morph(&scene.as_scene(), part(1, 2), &[0.5, 0.25]);
    assert_eq!(positions, [35.0, 5.0, 5.0]);
}
