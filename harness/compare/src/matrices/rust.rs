//! The Rust's side. Of scene.rs the oracle's build script cuts all functions
//! and makes them public. Those of transform.rs and skinning.rs are private, and
//! are reached through `Primitive::transformed` and `Primitive::skinned` on one
//! vertex; `mat4_madd`, `linear_det` and `linear_inverse_transpose`, of which
//! these show too little (sums that start at 0 and positive weights, a sign, and
//! directions), are cut from skinning.rs as well.

use mesh3d::raw::{Mat3, Mat4, Quat, Vec3};
use oracle::{MorphTarget, Primitive};
use std::array::from_fn;

pub use oracle::{
    parts::{linear_det, linear_inverse_transpose, mat4_madd},
    scene::{
        mat3_det_of_world, mat4_affine_inverse, mat4_mul, rot_matrix_to_quat, trs_to_matrix,
        vec3_len,
    },
};

/// What `transformed` makes of one vertex.
pub struct Rigid {
    /// `transform_point`.
    pub point: Vec3,
    /// The linear part of the matrix, and `transform_dir` by it, from a morph
    /// target's displacement.
    pub turned: Vec3,
    /// `transform_dir` by the linear part, `normalize3`, and the sign of
    /// `linear_det`.
    pub tangent: Quat,
}

pub fn rigid(m: Mat4, point: Vec3, displacement: Vec3, tangent: Quat) -> Rigid {
    let target = MorphTarget {
        position: Some(vec![displacement]),
        ..MorphTarget::default()
    };
    let vertex = Primitive {
        positions: vec![point],
        tangents: Some(vec![tangent]),
        targets: vec![target],
        ..Primitive::default()
    };
    let done = vertex.transformed(m);
    Rigid {
        point: done.positions[0],
        turned: first(&done.targets[0].position),
        tangent: first(&done.tangents),
    }
}

/// What `skinned` makes of one vertex under two joints, whose weights are
/// finite and above 0: of their matrices, `mat4_madd` from zeros on; of the
/// point, the first three rows times it; of the tangent, as `transformed`.
pub fn skinned(joints: [Mat4; 2], weights: [f32; 2], point: Vec3, tangent: Quat) -> (Vec3, Quat) {
    let vertex = Primitive {
        positions: vec![point],
        tangents: Some(vec![tangent]),
        joints: Some(vec![[0, 1, 0, 0]]),
        weights: Some(vec![[weights[0], weights[1], 0.0, 0.0]]),
        ..Primitive::default()
    };
    let done = vertex.skinned(&joints);
    (done.positions[0], first(&done.tangents))
}

/// `normalize3`, from `transformed`: the matrix with v in its first column and
/// -0 in the next two takes (1, 0, 0) to v, whatever v is. A tangent that is
/// left alone shows that there is no direction: where x is positive, it and v
/// are taken with the other sign, so that no direction looks so.
pub fn normalize3(v: Vec3) -> Option<Vec3> {
    let sign = if v[0] > 0.0 { -1.0 } else { 1.0 };
    let row = |x: f32| [sign * x, -0.0, -0.0, 0.0];
    let m = [row(v[0]), row(v[1]), row(v[2]), [0.0, 0.0, 0.0, 1.0]];
    let along = [sign, 0.0, 0.0];
    let [x, y, z, _] = rigid(m, [0.0; 3], [0.0; 3], [sign, 0.0, 0.0, 1.0]).tangent;
    ([x, y, z] != along).then_some([x, y, z])
}

/// The normal matrix, from `transformed`: a displacement of the normal by 1 on
/// an axis gives a column. The zeros beside the 1 are taken with either sign,
/// since an entry -0 shows only where the products with both of them are -0.
/// Displacements that are all left alone show that there is no matrix: no
/// matrix keeps the signs of all these zeros.
pub fn normal_matrix(m: Mat4) -> Option<Mat3> {
    const ZEROS: [[f32; 2]; 4] = [[0.0, 0.0], [0.0, -0.0], [-0.0, 0.0], [-0.0, -0.0]];
    let given = ZEROS.map(|[a, b]| [[1.0, a, b], [a, 1.0, b], [a, b, 1.0]]);
    let given = given.as_flattened();
    let target = MorphTarget {
        normal: Some(given.to_vec()),
        ..MorphTarget::default()
    };
    let vertex = Primitive {
        targets: vec![target],
        ..Primitive::default()
    };
    let done = vertex.transformed(m).targets.remove(0).normal;
    let done = done.expect("an attribute that was handed in");

    let bits = |v: &Vec3| v.map(f32::to_bits);
    let is_left_alone = done.iter().map(bits).eq(given.iter().map(bits));
    let entry = |row: usize, column: usize| {
        let found = done.iter().skip(column).step_by(3).map(|v| v[row]);
        found.min_by(f32::total_cmp).expect("one of each sign") // -0 before 0
    };
    (!is_left_alone).then(|| from_fn(|row| from_fn(|column| entry(row, column))))
}

fn first<T: Copy>(values: &Option<Vec<T>>) -> T {
    values.as_ref().expect("an attribute that was handed in")[0]
}
