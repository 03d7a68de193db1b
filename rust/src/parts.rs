//! What a scene is made of, in vectors and options. Ids count from 0 in the order in which
//! nodes, meshes, skins and skeletons are added; one that names nothing is no fault. A part
//! that is present with no entries is not an absent one.

use crate::{
    raw::{Mat4, Quat, Vec3},
    track::Interpolation,
};

/// The transform of a node where no channel moves it.
#[derive(Clone, Debug, PartialEq)]
pub enum Base {
    /// Translation, rotation (x, y, z, w) and scale.
    Parts {
        /// x, y, z.
        translation: Vec3,
        /// x, y, z, w.
        rotation: Quat,
        /// Along x, y, z.
        scale: Vec3,
    },
    /// A matrix, row by row.
    Matrix(Mat4),
}

impl Base {
    /// A translation alone.
    pub fn translation(translation: Vec3) -> Base {
        Base::Parts {
            translation,
            rotation: [0.0, 0.0, 0.0, 1.0],
            scale: [1.0; 3],
        }
    }
}

impl Default for Base {
    /// Parts that change nothing.
    fn default() -> Base {
        Base::translation([0.0; 3])
    }
}

/// A node.
#[derive(Clone, Debug, Default, PartialEq)]
pub struct Node {
    /// Its transform where no channel moves it.
    pub base: Base,
    /// Ids of nodes.
    pub children: Vec<u32>,
    /// The id of its mesh.
    pub mesh: Option<u32>,
    /// The id of its skin.
    pub skin: Option<u32>,
    /// Its own morph weights, which, where it has any, take the place of its mesh's.
    pub weights: Option<Vec<f32>>,
}

/// What a channel gives its node. A CubicSpline channel has three entries a key,
/// in-tangent, value and out-tangent; the others have one.
#[derive(Clone, Debug, PartialEq)]
pub enum Values {
    /// One an entry.
    Translation(Vec<Vec3>),
    /// One an entry: x, y, z, w.
    Rotation(Vec<Quat>),
    /// One an entry.
    Scale(Vec<Vec3>),
    /// As many an entry as the mesh has targets, one entry after the other.
    Weights(Vec<f32>),
}

/// A keyframe track that is aimed at a node.
#[derive(Clone, Debug, PartialEq)]
pub struct Channel {
    /// The id of the node.
    pub node: u32,
    /// How a value between two keys is found.
    pub interpolation: Interpolation,
    /// Times, each above the one before.
    pub keys: Vec<f32>,
    /// What it gives.
    pub values: Values,
}

/// A mesh.
#[derive(Clone, Debug, Default, PartialEq)]
pub struct Mesh {
    /// Its primitives, which a bake puts out one after the other.
    pub primitives: Vec<Primitive>,
    /// The morph weights of a node that has none of its own.
    pub weights: Vec<f32>,
}

/// Vertices of a mesh.
#[derive(Clone, Debug, Default, PartialEq)]
pub struct Primitive {
    /// One a vertex.
    pub positions: Vec<Vec3>,
    /// One a vertex.
    pub normals: Option<Vec<Vec3>>,
    /// One a vertex: the direction and the handedness.
    pub tangents: Option<Vec<[f32; 4]>>,
    /// Four a vertex, counted in the joints of the skeleton.
    pub joints: Option<Vec<[u32; 4]>>,
    /// Four a vertex.
    pub weights: Option<Vec<[f32; 4]>>,
    /// Morph targets.
    pub targets: Vec<Target>,
}

/// A morph target: what is added at weight 1.
#[derive(Clone, Debug, Default, PartialEq)]
pub struct Target {
    /// One a vertex.
    pub positions: Option<Vec<Vec3>>,
    /// One a vertex.
    pub normals: Option<Vec<Vec3>>,
    /// One a vertex, the direction alone.
    pub tangents: Option<Vec<Vec3>>,
    /// Shapes at weights between.
    pub in_betweens: Vec<InBetween>,
}

/// What a target adds at a weight other than 0 and 1.
#[derive(Clone, Debug, Default, PartialEq)]
pub struct InBetween {
    /// Where it stands.
    pub weight: f32,
    /// One a vertex.
    pub positions: Option<Vec<Vec3>>,
    /// One a vertex.
    pub normals: Option<Vec<Vec3>>,
}

/// A skin.
#[derive(Clone, Debug, Default, PartialEq)]
pub struct Skin {
    /// The id of its skeleton.
    pub skeleton: u32,
    /// The id of the node that it names as its root.
    pub root: Option<u32>,
}

/// Joints that skins share.
#[derive(Clone, Debug, Default, PartialEq)]
pub struct Skeleton {
    /// Ids of nodes.
    pub joints: Vec<u32>,
    /// One a joint, row by row; with none each is the identity.
    pub inverse_binds: Vec<Mat4>,
}
