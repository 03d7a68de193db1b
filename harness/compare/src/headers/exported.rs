//! The functions that the crates export, with their types as C has them.

use super::{enclosed, entries, files, read, Functions, Signature, ROOT};
use std::path::{Path, PathBuf};

const EXPORTED: &str = "pub extern \"C\" fn ";

/// A file of a crate, and the folder of the crate's sources.
struct Source {
    folder: PathBuf,
    text: String,
}

pub fn functions() -> Functions {
    let crates = entries(&Path::new(ROOT).join("crates")).into_iter();
    let exported = crates
        .map(|folder| folder.join("src"))
        .flat_map(sources)
        .flat_map(exports);
    let mut functions = Functions::new();
    for (name, signature) in exported {
        let twice = functions.insert(name.clone(), signature);
        assert!(twice.is_none(), "{name} is exported twice");
    }
    functions
}

fn sources(folder: PathBuf) -> impl Iterator<Item = Source> {
    let paths = files(&folder, "rt").into_iter();
    paths.map(move |path| Source {
        folder: folder.clone(),
        text: read(&path),
    })
}

fn exports(source: Source) -> Vec<(String, Signature)> {
    let items = source.text.split(EXPORTED).skip(1);
    items.map(|item| source.export(item)).collect()
}

fn number(name: &str) -> Option<&'static str> {
    Some(match name {
        "bool" => "bool",
        "u8" => "uint8_t",
        "u32" => "uint32_t",
        "usize" => "size_t",
        "f32" => "float",
        "f64" => "double",
        _ => return None,
    })
}

impl Source {
    /// Of what stands behind the words that export it.
    fn export(&self, item: &str) -> (String, Signature) {
        let name = item.split(['(', '<']).next().expect("a name");
        let (parameters, behind) = enclosed(item, '(', ')');
        let parameters = parameters.split(',').map(str::trim);
        let types = parameters.filter_map(|p| Some(p.split_once(": ")?.1));
        let mut signature: Signature = types.flat_map(|name| self.parameters(name)).collect();
        let line = behind.lines().next().unwrap_or_default().trim();
        signature.push(match line.strip_prefix("-> ") {
            Some(result) => self.by_value(result),
            None => String::from("void"),
        });
        (name.to_string(), signature)
    }

    /// What a parameter of this type is in C: two for a slice.
    fn parameters(&self, name: &str) -> Vec<String> {
        let Some(lent) = name.strip_prefix('&') else {
            return vec![self.by_value(name)];
        };
        let lent = lent.trim_start_matches("'a ");
        let (constant, lent) = match lent.strip_prefix("mut ") {
            Some(lent) => ("", lent),
            None => ("const ", lent),
        };
        let (inner, _) = enclosed(lent, '[', ']');
        match inner.split_once("; ") {
            Some((of, len)) => vec![format!("{constant}{}[{len}]", self.by_value(of))],
            None => {
                let pointer = format!("{constant}{} *", self.by_value(inner));
                vec![pointer, String::from("size_t")]
            }
        }
    }

    fn by_value(&self, name: &str) -> String {
        number(name).map_or_else(|| self.fields(name), String::from)
    }

    /// Of a struct that is named by its crate, by a `use`, or declared here.
    fn fields(&self, name: &str) -> String {
        let path = self.used(name).unwrap_or_else(|| String::from(name));
        let (first, _) = path.split_once("::").unwrap_or(("crate", &path));
        let folder = match first {
            "crate" => self.folder.clone(),
            other => Path::new(ROOT).join("crates").join(other).join("src"),
        };
        let name = path.rsplit("::").next().expect("a name");
        let head = format!("pub struct {name} {{");
        let for_c = |text: &str, at: usize| {
            let mut above = text[..at].lines().rev().take_while(|line| line.starts_with("#["));
            above.any(|line| line == "#[repr(C)]")
        };
        let mut sources = sources(folder).filter_map(|s| {
            let at = s.text.find(&head)?;
            for_c(&s.text, at).then_some((at, s))
        });
        let (at, source) = sources.next().unwrap_or_else(|| panic!("no {path} for C"));
        let (fields, _) = enclosed(&source.text[at..], '{', '}');
        let fields = fields.lines().filter_map(|line| line.split_once(": "));
        let types = fields.map(|(_, name)| source.by_value(name.trim_end_matches(',')));
        types.collect::<Vec<_>>().join(",")
    }

    fn used(&self, name: &str) -> Option<String> {
        let lines = self.text.lines();
        let mut paths = lines.filter_map(|l| l.strip_prefix("use ")?.strip_suffix(';'));
        paths.find_map(|path| {
            let (first, last) = path.rsplit_once("::")?;
            let names = last.trim_start_matches('{').trim_end_matches('}');
            let is_there = names.split(", ").any(|n| n == name);
            is_there.then(|| format!("{first}::{name}"))
        })
    }
}
