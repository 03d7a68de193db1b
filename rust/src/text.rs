//! Scenes as bracketed text, read and written. docs/TEXT.md of the repository has the
//! grammar.

use crate::{
    owned::OwnedScene,
    raw,
    raw::Scene,
    refusal::{accepted, Refusal},
};

/// What a text says: a scene, and the node and the time that are asked for.
#[derive(Clone, Debug, Default)]
pub struct Request {
    /// The scene; [`OwnedScene::check`] judges its limits.
    pub scene: OwnedScene,
    /// The id of the node, which may name none.
    pub node: u32,
    /// The time.
    pub time: f32,
}

/// Where a text that has no reading breaks: at the first byte that departs from the grammar;
/// where none does, at the closing bracket of the first field or form of the wrong shape, or
/// at the end of the text.
pub fn find_break(text: &[u8]) -> Option<usize> {
    let found = raw::find_break(text);
    (found.number != 0).then_some(found.at)
}

impl OwnedScene {
    /// Reads a scene from a text. `BadForm` where the text has no reading ([`find_break`] tells
    /// where it breaks), `OutOfTable` where a list of primitives, targets or in-betweens leaves
    /// its table.
    ///
    /// ```
    /// use mesh3d::{find_break, OwnedScene, Refusal};
    ///
    /// let text = "\
    /// (scene (node 1) (time 3f000000) (roots 0))
    /// (node (parts 00000000 00000000 00000000 00000000 00000000 00000000 3f800000 3f800000 \
    ///     3f800000 3f800000) (children 1))
    /// (node (matrix 3f800000 00000000 00000000 40000000 00000000 3f800000 00000000 00000000 \
    ///     00000000 00000000 3f800000 00000000 00000000 00000000 00000000 3f800000) (children) \
    ///     (mesh 0))
    /// (channel (target 0) (translation) (linear) (keys 00000000 3f800000) \
    ///     (vec3 00000000 00000000 00000000 40800000 00000000 00000000))
    /// (mesh (primitives 0 1) (weights))
    /// (primitive (positions 00000000 00000000 00000000 3f800000 00000000 00000000 00000000 \
    ///     3f800000 00000000) (targets 0 0))
    /// ";
    /// let asked = OwnedScene::from_text(text.as_bytes())?;
    /// let baked = asked.scene.bake(asked.node, asked.time)?;
    /// assert_eq!(baked.positions, [[4.0, 0.0, 0.0], [5.0, 0.0, 0.0], [4.0, 1.0, 0.0]]);
    /// assert_eq!(asked.scene.to_text(asked.node, asked.time)?, text.as_bytes());
    ///
    /// let damaged = text.replace("\n", "\r\n");
    /// let refused = OwnedScene::from_text(damaged.as_bytes());
    /// assert_eq!(refused.err(), Some(Refusal::BadForm));
    /// assert_eq!(find_break(damaged.as_bytes()), damaged.find('\r'));
    /// # Ok::<(), Refusal>(())
    /// ```
    pub fn from_text(text: &[u8]) -> Result<Request, Refusal> {
        let needed = raw::text_room(text);
        accepted(needed.number)?;
        let mut scene = OwnedScene {
            words: vec![0; needed.words],
            floats: vec![0.0; needed.floats],
            node_weights: vec![0.0; needed.node_weights],
            mesh_weights: vec![0.0; needed.mesh_weights],
            ..OwnedScene::default()
        };
        let reading = raw::read_scene(
            text,
            &mut scene.words,
            &mut scene.floats,
            &mut scene.node_weights,
            &mut scene.mesh_weights,
        );
        accepted(reading.number)?;
        scene.header = reading.header;
        Ok(Request {
            scene,
            node: reading.node,
            time: reading.time,
        })
    }

    /// The scene as text, with the node and the time that are asked for, in the one way in
    /// which it is written.
    pub fn to_text(&self, node: u32, time: f32) -> Result<Vec<u8>, Refusal> {
        let scene = self.as_scene();
        let mut text = vec![0; scene.text_length(node, time)?];
        scene.write_text(node, time, &mut text)?;
        Ok(text)
    }
}

impl Scene<'_> {
    /// How many bytes the scene has as text.
    pub fn text_length(&self, node: u32, time: f32) -> Result<usize, Refusal> {
        let text = raw::text_length(self, node, time);
        accepted(text.number).map(|()| text.length)
    }

    /// Writes the scene as text, with the node and the time that are asked for, to the start
    /// of `out`; answers how many bytes.
    pub fn write_text(&self, node: u32, time: f32, out: &mut [u8]) -> Result<usize, Refusal> {
        let text = raw::write_scene(self, node, time, out);
        accepted(text.number).map(|()| text.length)
    }
}
