//! Why a call was refused.

use crate::raw;
use std::{error::Error, fmt};

/// Why a call was refused: of all that applies, the one with the lowest number; `BadForm`
/// comes before all others.
#[derive(Clone, Copy, Debug, PartialEq, Eq, Hash)]
#[repr(u32)]
pub enum Refusal {
    /// An offset or count leaves the slice or table that it lies in.
    OutOfTable = 1,
    /// Over a limit, or a mark or tag that names nothing.
    OverLimit,
    /// The time is NaN.
    NoTime,
    /// A single track whose values do not divide evenly among its keys.
    UnevenTrack,
    /// A key is not finite, or not above the one before.
    KeysOutOfLine,
    /// Too little scratch room.
    ShortScratch,
    /// No such node or, where a mesh is read, no mesh.
    NoSuchNode,
    /// No path leads to the node from a root.
    Unplaced,
    /// The joints of a skin have no palette.
    NoPalette,
    /// An output is shorter than the result.
    ShortOutput,
    /// The joints of a skin have no common root.
    NoCommonRoot,
    /// The track has no such frame.
    NoSuchFrame,
    /// A text has no reading.
    BadForm = 13,
}

use Refusal::*;

impl Refusal {
    /// In the order of their numbers, from 1 on.
    pub const ALL: [Refusal; 13] = [
        OutOfTable,
        OverLimit,
        NoTime,
        UnevenTrack,
        KeysOutOfLine,
        ShortScratch,
        NoSuchNode,
        Unplaced,
        NoPalette,
        ShortOutput,
        NoCommonRoot,
        NoSuchFrame,
        BadForm,
    ];

    /// From 1 to 13, as the C functions answer it.
    pub fn number(self) -> u32 {
        self as u32
    }

    /// The refusal with this number; `None` of 0 and of what names none.
    pub fn from_number(number: u32) -> Option<Refusal> {
        Self::ALL
            .into_iter()
            .find(|refusal| refusal.number() == number)
    }
}

/// What a C function answered: 0 is no refusal.
///
/// # Panics
///
/// Where the number is above 13, which no function of this version answers.
pub(crate) fn accepted(number: u32) -> Result<(), Refusal> {
    if number == 0 {
        return Ok(());
    }
    let known = Refusal::from_number(number);
    Err(known.unwrap_or_else(|| panic!("libmesh3d.a is of another version: it answers {number}")))
}

impl fmt::Display for Refusal {
    fn fmt(&self, f: &mut fmt::Formatter) -> fmt::Result {
        f.write_str(&raw::refusal_text(self.number()).to_string_lossy())
    }
}

impl Error for Refusal {}
