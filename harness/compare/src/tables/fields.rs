//! What docs/TABLES.md lists of the records, for tables that are made to be at
//! fault.

use super::layout::tables_of;
use mesh3d::raw::{Header, Part};

/// In the order of the header.
#[derive(Clone, Copy, Debug)]
pub enum Table {
    Nodes,
    Roots,
    Channels,
    Meshes,
    Primitives,
    Targets,
    InBetweens,
    Skins,
    Skeletons,
}

use Table::{Channels, InBetweens, Meshes, Nodes, Primitives, Roots, Skeletons, Skins, Targets};

pub const TABLES: [Table; 9] = [
    Nodes, Roots, Channels, Meshes, Primitives, Targets, InBetweens, Skins, Skeletons,
];

impl Table {
    /// The words of a record.
    pub fn width(self) -> usize {
        [16, 1, 8, 4, 16, 12, 8, 4, 4][self as usize]
    }

    pub fn in_header(self, header: &mut Header) -> &mut Part {
        let mut tables = tables_of(header).into_iter();
        tables.nth(self as usize).expect("one of nine")
    }
}

/// Where the entries of a part lie.
#[derive(Clone, Copy, Debug)]
pub enum Place {
    Words,
    Floats,
    NodeWeights,
    MeshWeights,
    Records(Table),
}

impl Place {
    /// `lens` are those of the slices, in their order.
    pub fn len(self, lens: [usize; 4], mut header: Header) -> usize {
        match self {
            Place::Words => lens[0],
            Place::Floats => lens[1],
            Place::NodeWeights => lens[2],
            Place::MeshWeights => lens[3],
            Place::Records(table) => table.in_header(&mut header).count,
        }
    }
}

/// A part that a record names: a mark where it may be absent, then where it
/// starts or its first record, then its count.
#[derive(Clone, Copy, Debug)]
pub struct Listed {
    pub table: Table,
    /// The word that the mark stands in.
    pub mark: Option<usize>,
    /// The word that the start stands in, before the count.
    pub start: usize,
    pub place: Place,
    /// Of one entry.
    pub width: usize,
    pub limit: Option<u32>,
}

/// The values of a channel are those of kind 0, Vec3.
pub const LISTED: [Listed; 20] = [
    always(Nodes, 2, Place::Words, 1, Some(8_192)),
    marked(Nodes, 8, Place::NodeWeights, 1, None),
    always(Channels, 4, Place::Floats, 1, Some(65_535)),
    always(Channels, 6, Place::Floats, 3, None),
    always(Meshes, 0, Place::Records(Primitives), 1, Some(64)),
    always(Meshes, 2, Place::MeshWeights, 1, None),
    always(Primitives, 0, Place::Floats, 3, Some(65_535)),
    marked(Primitives, 2, Place::Floats, 3, Some(65_535)),
    marked(Primitives, 5, Place::Floats, 4, Some(65_535)),
    marked(Primitives, 8, Place::Words, 4, Some(65_535)),
    marked(Primitives, 11, Place::Floats, 4, Some(65_535)),
    always(Primitives, 14, Place::Records(Targets), 1, Some(64)),
    marked(Targets, 0, Place::Floats, 3, Some(65_535)),
    marked(Targets, 3, Place::Floats, 3, Some(65_535)),
    marked(Targets, 6, Place::Floats, 3, Some(65_535)),
    always(Targets, 9, Place::Records(InBetweens), 1, Some(16)),
    marked(InBetweens, 1, Place::Floats, 3, Some(65_535)),
    marked(InBetweens, 4, Place::Floats, 3, Some(65_535)),
    always(Skeletons, 0, Place::Words, 1, Some(256)),
    always(Skeletons, 2, Place::Floats, 16, None),
];

const fn always(
    table: Table,
    start: usize,
    place: Place,
    width: usize,
    limit: Option<u32>,
) -> Listed {
    Listed {
        table,
        mark: None,
        start,
        place,
        width,
        limit,
    }
}

const fn marked(
    table: Table,
    mark: usize,
    place: Place,
    width: usize,
    limit: Option<u32>,
) -> Listed {
    Listed {
        mark: Some(mark),
        ..always(table, mark + 1, place, width, limit)
    }
}
