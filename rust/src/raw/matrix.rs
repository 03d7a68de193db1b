//! Matrices, quaternions and points, over arrays of fixed length. Where a number is
//! answered it is 1 and `out` holds the result, or 0 and `out` is as it was.

use super::{Mat3, Mat4, Quat, Vec3};

// SAFETY: the functions take pointers to arrays of these lengths, read or fill them, and
// ask for nothing more.
unsafe extern "C" {
    /// The length of a vector.
    #[link_name = "mesh3d_vec3_len"]
    pub safe fn vec3_len(v: &Vec3) -> f32;
    /// A vector divided by its length; answers 1 or 0.
    #[link_name = "mesh3d_normalize3"]
    pub safe fn normalize3(v: &Vec3, out: &mut Vec3) -> u32;
    /// A matrix times a vector.
    #[link_name = "mesh3d_mul3"]
    pub safe fn mul3(l: &Mat3, v: &Vec3, out: &mut Vec3);
    /// The identity.
    #[link_name = "mesh3d_identity"]
    pub safe fn identity(out: &mut Mat4);
    /// a times b.
    #[link_name = "mesh3d_mat4_mul"]
    pub safe fn mat4_mul(a: &Mat4, b: &Mat4, out: &mut Mat4);
    /// m plus w times n.
    #[link_name = "mesh3d_mat4_madd"]
    pub safe fn mat4_madd(m: &Mat4, w: f32, n: &Mat4, out: &mut Mat4);
    /// The upper left nine.
    #[link_name = "mesh3d_linear_part"]
    pub safe fn linear_part(m: &Mat4, out: &mut Mat3);
    /// The determinant of the linear part.
    #[link_name = "mesh3d_linear_det"]
    pub safe fn linear_det(m: &Mat4) -> f32;
    /// A point by the first three rows.
    #[link_name = "mesh3d_affine_point"]
    pub safe fn affine_point(m: &Mat4, p: &Vec3, out: &mut Vec3);
    /// A point with the perspective division.
    #[link_name = "mesh3d_transform_point"]
    pub safe fn transform_point(m: &Mat4, p: &Vec3, out: &mut Vec3);
    /// The matrix of translation, rotation and scale.
    #[link_name = "mesh3d_trs_to_matrix"]
    pub safe fn trs_to_matrix(t: &Vec3, r: &Quat, s: &Vec3, out: &mut Mat4);
    /// Of the parts where the mark is 0, otherwise m itself.
    #[link_name = "mesh3d_to_matrix"]
    pub safe fn to_matrix(mark: u32, t: &Vec3, r: &Quat, s: &Vec3, m: &Mat4, out: &mut Mat4);
    /// The quaternion of a rotation from its three columns.
    #[link_name = "mesh3d_rot_matrix_to_quat"]
    pub safe fn rot_matrix_to_quat(a: &Vec3, b: &Vec3, c: &Vec3, out: &mut Quat);
    /// A matrix split into translation, rotation and scale.
    #[link_name = "mesh3d_from_matrix"]
    pub safe fn from_matrix(m: &Mat4, t: &mut Vec3, r: &mut Quat, s: &mut Vec3);
    /// What normals of skinned vertices turn by; answers 1 or 0.
    #[link_name = "mesh3d_linear_inverse_transpose"]
    pub safe fn linear_inverse_transpose(m: &Mat4, out: &mut Mat3) -> u32;
    /// The inverse of an affine matrix; answers 1 or 0.
    #[link_name = "mesh3d_mat4_affine_inverse"]
    pub safe fn mat4_affine_inverse(m: &Mat4, out: &mut Mat4) -> u32;
    /// What normals of transformed vertices turn by; answers 1 or 0.
    #[link_name = "mesh3d_normal_matrix"]
    pub safe fn normal_matrix(m: &Mat4, out: &mut Mat3) -> u32;
}
