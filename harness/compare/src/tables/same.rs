//! Equality of scenes in all that tables say, floats by their bits.

use oracle::{
    Animation, AnimationChannel, AnimationProperty, AnimationSampler, AnimationTarget,
    AnimationValues, InBetween, Interpolation, Mesh, MeshId, MorphTarget, Node, NodeId, Primitive,
    Scene3D, Skeleton, SkeletonId, Skin, SkinId, Transform,
};

pub trait Same {
    fn is_same(&self, other: &Self) -> bool;
}

impl Same for f32 {
    fn is_same(&self, other: &Self) -> bool {
        self.to_bits() == other.to_bits()
    }
}

impl<T: Same> Same for [T] {
    fn is_same(&self, other: &Self) -> bool {
        let both = || self.iter().zip(other);
        self.len() == other.len() && both().all(|(a, b)| a.is_same(b))
    }
}

impl<T: Same, const N: usize> Same for [T; N] {
    fn is_same(&self, other: &Self) -> bool {
        self[..].is_same(&other[..])
    }
}

impl<T: Same> Same for Vec<T> {
    fn is_same(&self, other: &Self) -> bool {
        self[..].is_same(&other[..])
    }
}

impl<T: Same> Same for Option<T> {
    fn is_same(&self, other: &Self) -> bool {
        self.as_slice().is_same(other.as_slice())
    }
}

impl<A: Same, B: Same> Same for (A, B) {
    fn is_same(&self, other: &Self) -> bool {
        self.0.is_same(&other.0) && self.1.is_same(&other.1)
    }
}

macro_rules! same_where_equal {
    ($($kind:ty),*) => { $(
        impl Same for $kind {
            fn is_same(&self, other: &Self) -> bool {
                self == other
            }
        }
    )* };
}

same_where_equal!(u32, NodeId, MeshId, SkinId, SkeletonId);
same_where_equal!(AnimationProperty, Interpolation);

macro_rules! same_in_fields {
    ($kind:ty: $($field:ident),*) => {
        impl Same for $kind {
            fn is_same(&self, other: &Self) -> bool {
                $(self.$field.is_same(&other.$field))&&*
            }
        }
    };
}

same_in_fields!(Scene3D: nodes, roots, meshes, skins, skeletons);
same_in_fields!(Node: transform, children, mesh, skin, weights);
same_in_fields!(Mesh: primitives, weights);
same_in_fields!(Primitive: positions, normals, tangents, joints, weights, targets);
same_in_fields!(MorphTarget: position, normal, tangent, inbetweens);
same_in_fields!(InBetween: weight, position, normal);
same_in_fields!(Skin: skeleton, root_node);
same_in_fields!(Skeleton: joints, inverse_bind_matrices);
same_in_fields!(Animation: channels);
same_in_fields!(AnimationChannel: target, sampler);
same_in_fields!(AnimationTarget: node, property);
same_in_fields!(AnimationSampler: keyframes, values, interpolation);

impl Same for AnimationValues {
    fn is_same(&self, other: &Self) -> bool {
        match (self, other) {
            (Self::Vec3(a), Self::Vec3(b)) => a.is_same(b),
            (Self::Quat(a), Self::Quat(b)) => a.is_same(b),
            (Self::Scalar(a), Self::Scalar(b)) => a.is_same(b),
            _ => false,
        }
    }
}

impl Same for Transform {
    fn is_same(&self, other: &Self) -> bool {
        match (*self, *other) {
            (Self::Matrix(a), Self::Matrix(b)) => a.is_same(&b),
            (
                Self::Trs {
                    translation,
                    rotation,
                    scale,
                },
                Self::Trs {
                    translation: t,
                    rotation: r,
                    scale: s,
                },
            ) => translation.is_same(&t) && rotation.is_same(&r) && scale.is_same(&s),
            _ => false,
        }
    }
}
