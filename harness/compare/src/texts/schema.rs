//! The table of docs/TEXT.md: the forms, and the fields of each.

pub struct Kind {
    pub title: &'static str,
    pub fields: &'static [Field],
}

pub struct Field {
    pub name: &'static str,
    pub sort: Sort,
    pub count: Count,
    group: Group,
}

#[derive(Clone, Copy)]
pub enum Sort {
    Number,
    Float,
}

#[derive(Clone, Copy)]
pub enum Count {
    Just(usize),
    /// Any number of so many.
    Times(usize),
}

impl Count {
    pub fn holds(self, items: usize) -> bool {
        match self {
            Count::Just(count) => items == count,
            Count::Times(width) => items.is_multiple_of(width),
        }
    }
}

/// What a form must have: of a group just one field.
#[derive(Clone, Copy, PartialEq)]
enum Group {
    MayBeAbsent,
    Alone,
    First,
    Second,
    Third,
}

use Count::{Just, Times};
use Group::{Alone, First, MayBeAbsent, Second, Third};
use Sort::{Float, Number};

impl Kind {
    /// Whether just the fields must be there that are.
    pub fn holds(&self, present: &[bool]) -> bool {
        let fields = || self.fields.iter().zip(present);
        let alone = fields().all(|(field, is_there)| field.group != Alone || *is_there);
        alone
            && [First, Second, Third].into_iter().all(|group| {
                let mut members = fields()
                    .filter(|(field, _)| field.group == group)
                    .peekable();
                members.peek().is_none() || members.filter(|(_, is_there)| **is_there).count() == 1
            })
    }
}

const fn field(name: &'static str, sort: Sort, count: Count, group: Group) -> Field {
    Field {
        name,
        sort,
        count,
        group,
    }
}

pub const KINDS: [Kind; 9] = [
    Kind {
        title: "scene",
        fields: &[
            field("node", Number, Just(1), Alone),
            field("time", Float, Just(1), Alone),
            field("roots", Number, Times(1), Alone),
        ],
    },
    Kind {
        title: "node",
        fields: &[
            field("parts", Float, Just(10), First),
            field("matrix", Float, Just(16), First),
            field("children", Number, Times(1), Alone),
            field("mesh", Number, Just(1), MayBeAbsent),
            field("skin", Number, Just(1), MayBeAbsent),
            field("weights", Float, Times(1), MayBeAbsent),
        ],
    },
    Kind {
        title: "channel",
        fields: &[
            field("target", Number, Just(1), Alone),
            field("translation", Number, Just(0), First),
            field("rotation", Number, Just(0), First),
            field("scale", Number, Just(0), First),
            field("weights", Number, Just(0), First),
            field("step", Number, Just(0), Second),
            field("linear", Number, Just(0), Second),
            field("cubicspline", Number, Just(0), Second),
            field("keys", Float, Times(1), Alone),
            field("vec3", Float, Times(3), Third),
            field("quat", Float, Times(4), Third),
            field("scalar", Float, Times(1), Third),
        ],
    },
    Kind {
        title: "mesh",
        fields: &[
            field("primitives", Number, Just(2), Alone),
            field("weights", Float, Times(1), Alone),
        ],
    },
    Kind {
        title: "primitive",
        fields: &[
            field("positions", Float, Times(3), Alone),
            field("normals", Float, Times(3), MayBeAbsent),
            field("tangents", Float, Times(4), MayBeAbsent),
            field("joints", Number, Times(4), MayBeAbsent),
            field("weights", Float, Times(4), MayBeAbsent),
            field("targets", Number, Just(2), Alone),
        ],
    },
    Kind {
        title: "target",
        fields: &[
            field("positions", Float, Times(3), MayBeAbsent),
            field("normals", Float, Times(3), MayBeAbsent),
            field("tangents", Float, Times(3), MayBeAbsent),
            field("betweens", Number, Just(2), Alone),
        ],
    },
    Kind {
        title: "between",
        fields: &[
            field("weight", Float, Just(1), Alone),
            field("positions", Float, Times(3), MayBeAbsent),
            field("normals", Float, Times(3), MayBeAbsent),
        ],
    },
    Kind {
        title: "skin",
        fields: &[
            field("skeleton", Number, Just(1), Alone),
            field("root", Number, Just(1), MayBeAbsent),
        ],
    },
    Kind {
        title: "skeleton",
        fields: &[
            field("joints", Number, Times(1), Alone),
            field("binds", Float, Times(16), Alone),
        ],
    },
];
