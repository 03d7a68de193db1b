//! A scene in tables: what the tables draw, where each node stands, and its pose.

/// Where a table or part starts, and how many records or entries it has.
#[derive(Clone, Copy, Debug, Default, PartialEq, Eq)]
#[repr(C)]
pub struct Part {
    /// Where it starts.
    pub at: usize,
    /// How many records or entries it has.
    pub count: usize,
}

/// The tables of nodes and roots.
#[derive(Clone, Copy, Debug, Default, PartialEq, Eq)]
#[repr(C)]
pub struct Graph {
    /// Records of sixteen words.
    pub nodes: Part,
    /// Ids of nodes, a word each.
    pub roots: Part,
}

/// The tables of meshes and of what they list.
#[derive(Clone, Copy, Debug, Default, PartialEq, Eq)]
#[repr(C)]
pub struct Meshes {
    /// Records of four words.
    pub meshes: Part,
    /// Records of sixteen words.
    pub primitives: Part,
    /// Records of twelve words.
    pub targets: Part,
    /// Records of eight words.
    pub in_betweens: Part,
}

/// The tables of skins and skeletons.
#[derive(Clone, Copy, Debug, Default, PartialEq, Eq)]
#[repr(C)]
pub struct Skins {
    /// Records of four words.
    pub skins: Part,
    /// Records of four words.
    pub skeletons: Part,
}

/// Where each table of a scene starts in the words, and how many records it has.
#[derive(Clone, Copy, Debug, Default, PartialEq, Eq)]
#[repr(C)]
pub struct Header {
    /// Nodes and roots.
    pub graph: Graph,
    /// Records of eight words.
    pub channels: Part,
    /// Meshes and what they list.
    pub meshes: Meshes,
    /// Skins and skeletons.
    pub skins: Skins,
}

/// A scene: four slices and a header. docs/TABLES.md of the repository has the layout.
#[derive(Clone, Copy, Debug)]
pub struct Scene<'a> {
    /// Records and lists of ids.
    pub words: &'a [u32],
    /// All floats but weights.
    pub floats: &'a [f32],
    /// The morph weights of nodes.
    pub node_weights: &'a [f32],
    /// The morph weights of meshes.
    pub mesh_weights: &'a [f32],
    /// Where each table lies in the words.
    pub header: Header,
}

/// A refusal number, or 0, and the entries taken.
#[derive(Clone, Copy, Debug, PartialEq, Eq)]
#[repr(C)]
pub struct Placed {
    /// The refusal number, or 0.
    pub number: u32,
    /// Roots and child entries that the placing took.
    pub taken: usize,
}

/// Where a scene draws 1 or 2; all 0 where it draws neither.
#[derive(Clone, Copy, Debug, Default, PartialEq, Eq)]
#[repr(C)]
pub struct Fault {
    /// 1, 2 or 0.
    pub number: u32,
    /// The number of the table, in the header's order.
    pub table: u32,
    /// The number of the record in its table.
    pub record: usize,
    /// The word of the record; 16 for the table itself.
    pub word: u32,
}

/// A refusal number, or 0, and a channel that gives nothing.
#[derive(Clone, Copy, Debug, Default, PartialEq, Eq)]
#[repr(C)]
pub struct PassedOver {
    /// The refusal number, or 0.
    pub number: u32,
    /// 1 no such node, 2 uneven, 3 a kind that does not fit the property, 4 a rotation
    /// without length; 0: there is no such channel.
    pub reason: u32,
    /// The number of the channel.
    pub channel: usize,
}

/// A refusal number, or 0, and how many entries each slice of a bake needs.
#[derive(Clone, Copy, Debug, Default, PartialEq, Eq)]
#[repr(C)]
pub struct Room {
    /// The refusal number, or 0.
    pub number: u32,
    /// Words of `marks`.
    pub marks: usize,
    /// Floats of `slots`.
    pub slots: usize,
    /// Words of `walk`.
    pub walk: usize,
    /// Words of `places`.
    pub places: usize,
    /// Floats of `worlds`.
    pub worlds: usize,
    /// Floats of `positions`.
    pub positions: usize,
    /// Floats of `normals`.
    pub normals: usize,
    /// Floats of `tangents`.
    pub tangents: usize,
}

mod foreign {
    use super::{Fault, Header, PassedOver, Placed, Room};

    extern "C" {
        #[link_name = "mesh3d_tables_number"]
        pub fn tables_number(
            words: *const u32,
            words_len: usize,
            floats: *const f32,
            floats_len: usize,
            node_weights: *const f32,
            node_weights_len: usize,
            mesh_weights: *const f32,
            mesh_weights_len: usize,
            header: Header,
        ) -> u32;
        #[link_name = "mesh3d_find_fault"]
        pub fn find_fault(
            words: *const u32,
            words_len: usize,
            floats: *const f32,
            floats_len: usize,
            node_weights: *const f32,
            node_weights_len: usize,
            mesh_weights: *const f32,
            mesh_weights_len: usize,
            header: Header,
        ) -> Fault;
        #[link_name = "mesh3d_parents"]
        pub fn parents(
            words: *const u32,
            words_len: usize,
            floats: *const f32,
            floats_len: usize,
            node_weights: *const f32,
            node_weights_len: usize,
            mesh_weights: *const f32,
            mesh_weights_len: usize,
            header: Header,
            out: *mut u32,
            out_len: usize,
        ) -> u32;
        #[link_name = "mesh3d_sample_pose"]
        pub fn sample_pose(
            words: *const u32,
            words_len: usize,
            floats: *const f32,
            floats_len: usize,
            node_weights: *const f32,
            node_weights_len: usize,
            mesh_weights: *const f32,
            mesh_weights_len: usize,
            header: Header,
            time: f32,
            marks: *mut u32,
            marks_len: usize,
            slots: *mut f32,
            slots_len: usize,
        ) -> u32;
        #[link_name = "mesh3d_find_passed_over"]
        pub fn find_passed_over(
            words: *const u32,
            words_len: usize,
            floats: *const f32,
            floats_len: usize,
            node_weights: *const f32,
            node_weights_len: usize,
            mesh_weights: *const f32,
            mesh_weights_len: usize,
            header: Header,
            time: f32,
            from: usize,
        ) -> PassedOver;
        #[link_name = "mesh3d_place_floats"]
        pub fn place_floats(
            words: *const u32,
            words_len: usize,
            floats: *const f32,
            floats_len: usize,
            node_weights: *const f32,
            node_weights_len: usize,
            mesh_weights: *const f32,
            mesh_weights_len: usize,
            header: Header,
            marks: *const u32,
            marks_len: usize,
            slots: *const f32,
            slots_len: usize,
            walk: *mut u32,
            walk_len: usize,
            places: *mut u32,
            places_len: usize,
            worlds: *mut f32,
            worlds_len: usize,
        ) -> Placed;
        #[link_name = "mesh3d_bake_room"]
        pub fn bake_room(
            words: *const u32,
            words_len: usize,
            floats: *const f32,
            floats_len: usize,
            node_weights: *const f32,
            node_weights_len: usize,
            mesh_weights: *const f32,
            mesh_weights_len: usize,
            header: Header,
            node: u32,
        ) -> Room;
    }
}

// The functions read and write inside the slices, whatever the header and the words say.

/// What the tables draw, over all that is there: 1, 2 or 0.
pub fn tables_number(scene: &Scene) -> u32 {
    // SAFETY: see above.
    unsafe { call!(tables_number, scene scene,) }
}

/// The first place that draws what the tables draw.
pub fn find_fault(scene: &Scene) -> Fault {
    // SAFETY: see above.
    unsafe { call!(find_fault, scene scene,) }
}

/// The mark of each node, at the start of `out`: 0 for none, 1 for a root, p + 3 under
/// node p. Answers 1, 2, 10 or 0.
pub fn parents(scene: &Scene, out: &mut [u32]) -> u32 {
    // SAFETY: see above.
    unsafe { call!(parents, scene scene, write out,) }
}

/// The pose of every node, four words and ten floats each. Answers 1, 2, 3, 5, 6 or 0.
pub fn sample_pose(scene: &Scene, time: f32, marks: &mut [u32], slots: &mut [f32]) -> u32 {
    // SAFETY: see above.
    unsafe { call!(sample_pose, scene scene, value time, write marks, write slots,) }
}

/// The first channel, from number `from` on, that gives nothing at this time. Answers 1,
/// 2, 3, 5 or 0.
pub fn find_passed_over(scene: &Scene, time: f32, from: usize) -> PassedOver {
    // SAFETY: see above.
    unsafe { call!(find_passed_over, scene scene, value time, value from,) }
}

/// The code of each node's place and its world, in a pose of four marks and ten floats a
/// node; the walk room has two words an entry. Answers 1, 2, 6 or 0.
pub fn place_floats(
    scene: &Scene,
    marks: &[u32],
    slots: &[f32],
    walk: &mut [u32],
    places: &mut [u32],
    worlds: &mut [f32],
) -> Placed {
    // SAFETY: see above.
    unsafe {
        call!(place_floats, scene scene, read marks, read slots, write walk, write places,
            write worlds,)
    }
}

/// How long the slices of a bake of this node have to be. Answers 1, 2, 7 or 0.
pub fn bake_room(scene: &Scene, node: u32) -> Room {
    // SAFETY: see above.
    unsafe { call!(bake_room, scene scene, value node,) }
}
