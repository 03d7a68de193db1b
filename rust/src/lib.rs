//! Keyframes, poses, skins and morph targets of glTF scenes, baked into vertices.
//!
//! The work is done by libmesh3d.a, whose functions on scenes, tracks and vertices are
//! proved: each call, on every input, gives a result or one [`Refusal`], without a fault,
//! and always ends. The archive is linked from the folder that `MESH3D_LIB_DIR` names, by
//! default from `target/lib` of the repository, where `make` puts it.
//!
//! There are three ways in:
//!
//! * [`Builder`] takes a scene in plain structs and lays it out in tables, none of whose
//!   places can be wrong; an [`OwnedScene`] bakes its nodes and allocates what that needs.
//!   It can be read from a text and written as one, too.
//! * [`Scene`], [`Track`] and [`Vertices`] are calls on slices that the caller has, and
//!   allocate nothing.
//! * [`raw`] has the C functions as they are, with any numbers in their tables.
//!
//! No call keeps anything behind, so calls in several threads do not disturb each other.
//!
//! # Example
//!
//! Two nodes: the first is moved by a channel, and the second, which it carries, has a
//! triangle.
//!
//! ```
//! use mesh3d::{Base, Builder, Channel, Interpolation, Mesh, Node, Primitive, Refusal, Values};
//!
//! let mut scene = Builder::new();
//! let mesh = scene.mesh(Mesh {
//!     primitives: vec![Primitive {
//!         positions: vec![[0.0, 0.0, 0.0], [1.0, 0.0, 0.0], [0.0, 1.0, 0.0]],
//!         ..Primitive::default()
//!     }],
//!     ..Mesh::default()
//! });
//! let blade = scene.node(Node {
//!     base: Base::translation([2.0, 0.0, 0.0]),
//!     mesh: Some(mesh),
//!     ..Node::default()
//! });
//! let carrier = scene.node(Node {
//!     children: vec![blade],
//!     ..Node::default()
//! });
//! scene.root(carrier);
//! scene.channel(Channel {
//!     node: carrier,
//!     interpolation: Interpolation::Linear,
//!     keys: vec![0.0, 1.0],
//!     values: Values::Translation(vec![[0.0; 3], [4.0, 0.0, 0.0]]),
//! });
//!
//! let scene = scene.build()?;
//! let baked = scene.bake(blade, 0.5)?;
//! assert_eq!(baked.positions, [[4.0, 0.0, 0.0], [5.0, 0.0, 0.0], [4.0, 1.0, 0.0]]);
//! assert_eq!(scene.bake(carrier, 0.5), Err(Refusal::NoSuchNode));
//! # Ok::<(), Refusal>(())
//! ```

mod builder;
mod fault;
mod layout;
mod owned;
mod parts;
mod refusal;
mod scene;
mod text;
mod track;
mod vertices;

pub mod raw;

pub use builder::Builder;
pub use fault::{Fault, PassedOver, Reason, Table};
pub use owned::{Baked, Buffers, OwnedScene};
pub use parts::{Base, Channel, InBetween, Mesh, Node, Primitive, Skeleton, Skin, Target, Values};
pub use raw::{Header, Mat4, Part, Quat, Scene, Scratch, Vec3, Vertices};
pub use refusal::Refusal;
pub use scene::{Place, Room, Written};
pub use text::{find_break, Request};
pub use track::{are_keys_in_line, Interpolation, Kind, Track, Value};
