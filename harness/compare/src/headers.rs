//! The C header beside the exported functions of the crates, and those of
//! harness/c/text.c: each function is declared once, with the same types of parameters
//! and result, and its name has the prefix. A slice is a pointer and a length,
//! and a struct is compared field by field.

mod declared;
mod exported;

use std::{
    collections::{BTreeMap, BTreeSet},
    fs,
    path::{Path, PathBuf},
};

const ROOT: &str = concat!(env!("CARGO_MANIFEST_DIR"), "/../..");

/// The types of the parameters, then that of the result.
type Signature = Vec<String>;
type Functions = BTreeMap<String, Signature>;

const PREFIX: &str = "mesh3d_";

pub fn compare() -> bool {
    let [declared, texts] = declared::functions();
    let mut exported = exported::functions();
    exported.extend(texts);
    let names: BTreeSet<&String> = declared.keys().chain(exported.keys()).collect();
    let mut differing = 0;
    for name in &names {
        let (header, source) = (declared.get(*name), exported.get(*name));
        if header != source || !name.starts_with(PREFIX) {
            differing += 1;
            println!("  {name}: declared {header:?}, exported {source:?}");
        }
    }
    println!("header: {} functions, {differing} differ", names.len());
    differing == 0 && !names.is_empty()
}

/// What a folder holds, by name: no file system's order decides.
fn entries(folder: &Path) -> Vec<PathBuf> {
    let entries = fs::read_dir(folder).unwrap_or_else(|e| panic!("{}: {e}", folder.display()));
    let mut paths: Vec<PathBuf> = entries
        .map(|entry| entry.expect("an entry of a folder").path())
        .collect();
    paths.sort();
    paths
}

fn files(folder: &Path, extension: &str) -> Vec<PathBuf> {
    let mut paths = entries(folder);
    paths.retain(|path| path.extension().is_some_and(|e| e == extension));
    paths
}

fn read(path: &Path) -> String {
    fs::read_to_string(path).unwrap_or_else(|e| panic!("{}: {e}", path.display()))
}

/// What stands in the first brackets of a text, and what follows them.
fn enclosed(text: &str, open: char, close: char) -> (&str, &str) {
    let start = text.find(open).expect("an opening bracket") + 1;
    let mut depth = 1;
    for (at, c) in text[start..].char_indices() {
        depth += i32::from(c == open) - i32::from(c == close);
        if depth == 0 {
            return (&text[start..start + at], &text[start + at + 1..]);
        }
    }
    panic!("no closing bracket: {text}")
}
