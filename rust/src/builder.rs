//! A scene put together from its parts.

use crate::{
    layout::Layout,
    owned::OwnedScene,
    parts::{Channel, Mesh, Node, Skeleton, Skin},
    refusal::Refusal,
};

/// The parts of a scene. Each call that adds one answers its id.
#[derive(Clone, Debug, Default, PartialEq)]
pub struct Builder {
    /// By id.
    pub nodes: Vec<Node>,
    /// Ids of nodes.
    pub roots: Vec<u32>,
    /// Of several for one node and property the last that gives a value stands.
    pub channels: Vec<Channel>,
    /// By id.
    pub meshes: Vec<Mesh>,
    /// By id.
    pub skins: Vec<Skin>,
    /// By id.
    pub skeletons: Vec<Skeleton>,
}

impl Builder {
    /// A scene without parts.
    pub fn new() -> Builder {
        Builder::default()
    }

    /// Adds a node; answers its id.
    pub fn node(&mut self, node: Node) -> u32 {
        add(&mut self.nodes, node)
    }

    /// Adds a root.
    pub fn root(&mut self, node: u32) {
        self.roots.push(node);
    }

    /// Adds a channel behind those that are there.
    pub fn channel(&mut self, channel: Channel) {
        self.channels.push(channel);
    }

    /// Adds a mesh; answers its id.
    pub fn mesh(&mut self, mesh: Mesh) -> u32 {
        add(&mut self.meshes, mesh)
    }

    /// Adds a skin; answers its id.
    pub fn skin(&mut self, skin: Skin) -> u32 {
        add(&mut self.skins, skin)
    }

    /// Adds a skeleton; answers its id.
    pub fn skeleton(&mut self, skeleton: Skeleton) -> u32 {
        add(&mut self.skeletons, skeleton)
    }

    /// Lays the parts out in tables, none of which leaves its slice.
    ///
    /// `OverLimit` where a place or count has more than 32 bits. The other limits are those
    /// of the calls: [`OwnedScene::check`] judges them, and [`OwnedScene::fault`] says where
    /// one is passed.
    pub fn build(&self) -> Result<OwnedScene, Refusal> {
        let mut layout = Layout::default();
        layout.nodes(&self.nodes)?;
        layout.roots(&self.roots);
        layout.channels(&self.channels)?;
        layout.meshes(&self.meshes)?;
        layout.skins(&self.skins);
        layout.skeletons(&self.skeletons)?;
        Ok(layout.finish())
    }
}

/// An id of more than 32 bits is the last that there is, which names nothing where the
/// tables can be laid out.
fn add<T>(list: &mut Vec<T>, part: T) -> u32 {
    let id = u32::try_from(list.len()).unwrap_or(u32::MAX);
    list.push(part);
    id
}
