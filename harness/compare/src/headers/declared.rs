//! The functions that the header declares, and those that harness/c/text.c defines.

use super::{enclosed, read, Functions, Signature, ROOT};
use std::{collections::BTreeMap, path::Path};

const HEADER: &str = "include/mesh3d.h";
const TEXTS: &str = "harness/c/text.c";

/// As written, with the names of structs in it.
#[derive(Default)]
struct Declarations {
    /// By name, the types of the fields.
    structs: BTreeMap<String, Vec<String>>,
    functions: Functions,
}

/// Those of the header; then those of harness/c/text.c.
pub fn functions() -> [Functions; 2] {
    let file = |name: &str| read(&Path::new(ROOT).join(name));
    let mut header = Declarations::default();
    header.read(&plain(&file(HEADER)));
    let mut texts = Declarations {
        structs: header.structs.clone(),
        ..Declarations::default()
    };
    for line in file(TEXTS).lines() {
        if line.ends_with(") {") && !line.starts_with([' ', '\t']) && !line.starts_with("static") {
            texts.add_function(line);
        }
    }
    [header.all(), texts.all()]
}

/// Without comments and lines of the preprocessor.
fn plain(text: &str) -> String {
    let mut rest = text;
    let mut plain = String::new();
    while let Some((before, comment)) = rest.split_once("/*") {
        plain.push_str(before);
        rest = comment.split_once("*/").expect("the end of a comment").1;
    }
    plain.push_str(rest);
    let plain = plain.replace("\\\n", " ");
    let lines = plain.lines().filter(|line| !line.starts_with('#'));
    lines.collect::<Vec<_>>().join(" ")
}

impl Declarations {
    fn read(&mut self, text: &str) {
        let mut rest = text.trim();
        while !rest.is_empty() {
            let behind = if rest.starts_with("typedef") {
                self.add_struct(rest)
            } else if rest.starts_with("enum") {
                rest.split_once(';').expect("the end of an enum").1
            } else if rest.starts_with("static inline") {
                enclosed(rest, '{', '}').1
            } else if let Some(behind) = rest.strip_prefix("extern \"C\" {") {
                behind
            } else if let Some(behind) = rest.strip_prefix('}') {
                behind
            } else {
                let behind = self.add_function(rest);
                behind.trim_start().strip_prefix(';').expect("its end")
            };
            rest = behind.trim();
        }
    }

    fn add_struct<'a>(&mut self, text: &'a str) -> &'a str {
        let (fields, behind) = enclosed(text, '{', '}');
        let (name, behind) = behind.split_once(';').expect("the end of a struct");
        let fields = fields.split(';').filter(|field| !field.trim().is_empty());
        let name = name.trim();
        let twice = self
            .structs
            .insert(name.to_string(), fields.map(type_of).collect());
        assert!(twice.is_none(), "{name} is declared twice");
        behind
    }

    fn add_function<'a>(&mut self, text: &'a str) -> &'a str {
        let (parameters, behind) = enclosed(text, '(', ')');
        let head = text.split('(').next().expect("a function");
        let name = head.split([' ', '*']).next_back().expect("a name");
        let types = parameters.split(',').chain([head]);
        let twice = self
            .functions
            .insert(name.to_string(), types.map(type_of).collect());
        assert!(twice.is_none(), "{name} is declared twice");
        behind
    }

    fn all(&self) -> Functions {
        let signature = |types: &Signature| -> Signature {
            let types = types.iter().map(|name| self.resolved(name));
            types.collect()
        };
        let functions = self.functions.iter();
        functions
            .map(|(name, types)| (name.clone(), signature(types)))
            .collect()
    }

    /// A type, with each struct in it by its fields.
    fn resolved(&self, name: &str) -> String {
        let (plain, array) = name.split_at(name.find('[').unwrap_or(name.len()));
        let words = plain.split(' ').map(|word| match self.structs.get(word) {
            Some(fields) => {
                let types = fields.iter().map(|field| self.resolved(field));
                types.collect::<Vec<_>>().join(",")
            }
            None => word.to_string(),
        });
        words.collect::<Vec<_>>().join(" ") + array
    }
}

/// The type of a parameter, field or function, its name behind it.
fn type_of(declared: &str) -> String {
    let spaced = declared.replace('*', " * ");
    let mut words: Vec<&str> = spaced.split_whitespace().collect();
    let name = words.pop().expect("a name");
    let array = name.find('[').map_or("", |at| &name[at..]);
    words.join(" ") + array
}
