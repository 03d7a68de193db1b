//! Where a scene breaks the rules of its tables, and which channels do nothing.

use crate::{
    raw,
    refusal::{accepted, Refusal},
};
use std::fmt;

/// A table of a scene, in the header's order.
#[derive(Clone, Copy, Debug, PartialEq, Eq, Hash)]
#[repr(u32)]
#[allow(missing_docs)]
pub enum Table {
    Nodes,
    Roots,
    Channels,
    Meshes,
    Primitives,
    Targets,
    InBetweens,
    Skins,
    Skeletons,
}

impl Table {
    /// In the header's order.
    pub const ALL: [Table; 9] = [
        Table::Nodes,
        Table::Roots,
        Table::Channels,
        Table::Meshes,
        Table::Primitives,
        Table::Targets,
        Table::InBetweens,
        Table::Skins,
        Table::Skeletons,
    ];
}

/// The word that stands for a table itself.
const WHOLE_TABLE: u32 = 16;
/// Of a fault in words, with the 0 behind it; the longest has 101 bytes.
const LONGEST_TEXT: usize = 102;

/// The first place at which a scene draws what it draws. Its `Display` says in words what
/// is wrong.
#[derive(Clone, Copy, Debug, PartialEq, Eq)]
pub struct Fault {
    /// `OutOfTable` or `OverLimit`.
    pub refusal: Refusal,
    /// The table that is at fault or has the record that is.
    pub table: Table,
    /// The number of the record, 0 where it is the table itself.
    pub record: usize,
    /// The word of the record, or `None` where it is the table itself.
    pub word: Option<u32>,
}

impl Fault {
    /// `None` where there is no fault.
    pub(crate) fn of(found: raw::Fault) -> Option<Fault> {
        Some(Fault {
            refusal: accepted(found.number).err()?,
            table: Table::ALL[found.table as usize],
            record: found.record,
            word: (found.word != WHOLE_TABLE).then_some(found.word),
        })
    }
}

impl fmt::Display for Fault {
    fn fmt(&self, f: &mut fmt::Formatter) -> fmt::Result {
        let fault = raw::Fault {
            number: self.refusal.number(),
            table: self.table as u32,
            record: self.record,
            word: self.word.unwrap_or(WHOLE_TABLE),
        };
        let mut text = [0; LONGEST_TEXT];
        let len = raw::fault_text(fault, &mut text);
        f.write_str(&String::from_utf8_lossy(&text[..len.min(LONGEST_TEXT - 1)]))
    }
}

/// Why a channel gives its node nothing.
#[derive(Clone, Copy, Debug, PartialEq, Eq, Hash)]
#[repr(u32)]
pub enum Reason {
    /// It is aimed past the last node.
    NoSuchNode = 1,
    /// It has no keys, no values, or values that do not divide by its rows.
    Uneven,
    /// The kind of its values does not fit its property.
    KindDoesNotFit,
    /// Its rotation at this time has a length of 0, or one that is not finite.
    NoLength,
}

impl Reason {
    /// In the order of their numbers, from 1 on.
    pub const ALL: [Reason; 4] = [
        Reason::NoSuchNode,
        Reason::Uneven,
        Reason::KindDoesNotFit,
        Reason::NoLength,
    ];
}

impl fmt::Display for Reason {
    fn fmt(&self, f: &mut fmt::Formatter) -> fmt::Result {
        f.write_str(&raw::reason_text(*self as u32).to_string_lossy())
    }
}

/// A channel that a pose passes over.
#[derive(Clone, Copy, Debug, PartialEq, Eq)]
pub struct PassedOver {
    /// The number of the channel.
    pub channel: usize,
    /// Why it gives nothing.
    pub reason: Reason,
}

impl PassedOver {
    pub(crate) fn of(found: raw::PassedOver) -> Result<Option<PassedOver>, Refusal> {
        accepted(found.number)?;
        let reason = Reason::ALL.into_iter().find(|r| *r as u32 == found.reason);
        Ok(reason.map(|reason| PassedOver {
            channel: found.channel,
            reason,
        }))
    }
}

impl fmt::Display for PassedOver {
    fn fmt(&self, f: &mut fmt::Formatter) -> fmt::Result {
        write!(f, "channel {} does nothing: {}", self.channel, self.reason)
    }
}
