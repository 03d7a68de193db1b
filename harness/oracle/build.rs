//! Takes the original's files, unchanged, from the folder ORACLE_SRC (by
//! default from the repository's sibling folder `shared`). Six files are
//! compiled whole, by `#[path]`. Of scene.rs, which names many modules that
//! are not at hand, the items listed here are cut out by name, so that
//! nothing of it is typed anew; its functions are made public. So are three
//! functions of skinning.rs whose answers no public function shows: they stand
//! in a module of their own, `parts`, beside skinning.rs as it is.

use std::{
    env, fs,
    path::{Path, PathBuf},
};

const DEFAULT_SOURCE: &str = "../../../shared/docs/src/src";

const WHOLE_FILES: [&str; 6] = [
    "animation",
    "pose",
    "graph",
    "skin",
    "skinning",
    "transform",
];

const SCENE_ITEMS: [&str; 9] = [
    "pub enum Axis {",
    "pub enum Unit {",
    "pub enum Transform {",
    "impl Transform {",
    "pub struct Node {",
    "impl Node {",
    "impl Default for Node {",
    "pub struct Scene3D {",
    "impl Default for Scene3D {",
];

const SCENE_FUNCTIONS: [&str; 6] = [
    "fn vec3_len(",
    "pub(crate) fn mat4_mul(",
    "fn mat3_det_of_world(",
    "pub(crate) fn mat4_affine_inverse(",
    "fn trs_to_matrix(",
    "fn rot_matrix_to_quat(",
];

const SCENE_METHODS: [&str; 9] = [
    "pub fn new(",
    "pub fn add_node(",
    "pub fn add_mesh(",
    "pub fn add_skeleton(",
    "pub fn add_skin(",
    "pub fn add_root(",
    "pub fn node(",
    "pub fn mesh(",
    "pub fn world_node_transforms(",
];

const SKINNING_FUNCTIONS: [&str; 3] = [
    "fn mat4_madd(",
    "fn linear_det(",
    "fn linear_inverse_transpose(",
];

fn main() {
    let source = source_folder();
    let out = PathBuf::from(env::var("OUT_DIR").expect("OUT_DIR"));

    let read = |name| fs::read_to_string(watched(&source, name)).expect(name);
    let (scene, parts) = (out.join("scene.rs"), out.join("parts.rs"));
    fs::write(&scene, cut_scene(&read("scene"))).expect("write scene.rs");
    let functions = cut_functions(&read("skinning"), &SKINNING_FUNCTIONS);
    fs::write(&parts, functions).expect("write parts.rs");

    let mut modules = String::new();
    for name in WHOLE_FILES {
        modules += &module(name, &watched(&source, name));
    }
    modules += &module("scene", &scene);
    modules += &module("parts", &parts);
    fs::write(out.join("modules.rs"), modules).expect("write modules.rs");
}

fn source_folder() -> PathBuf {
    println!("cargo:rerun-if-changed=build.rs");
    println!("cargo:rerun-if-env-changed=ORACLE_SRC");
    let here = PathBuf::from(env::var("CARGO_MANIFEST_DIR").expect("CARGO_MANIFEST_DIR"));
    let folder = env::var_os("ORACLE_SRC").map_or(here.join(DEFAULT_SOURCE), PathBuf::from);
    folder
        .canonicalize()
        .unwrap_or_else(|e| panic!("the original's source, {}: {e}", folder.display()))
}

/// The path of an original file; a change to it builds the package again.
fn watched(source: &Path, name: &str) -> PathBuf {
    let path = source.join(name).with_extension("rs");
    println!("cargo:rerun-if-changed={}", path.display());
    path
}

/// Declares a module of the original, which is not held to our warnings.
fn module(name: &str, path: &Path) -> String {
    let allowed = "dead_code, unused_imports, clippy::all";
    format!("#[allow({allowed})]\n#[path = {path:?}]\npub mod {name};\n")
}

fn cut_scene(scene: &str) -> String {
    let mut out = String::from("use crate::serde_json;\nuse std::collections::HashMap;\n");
    out += &cut(scene, "use crate::{");
    out += &cut(scene, "macro_rules! id_newtype");
    out += &cut_all(scene, "id_newtype!(").concat();
    for head in SCENE_ITEMS {
        out += &cut(scene, head);
    }
    out += &cut_functions(scene, &SCENE_FUNCTIONS);
    let methods = cut(scene, "impl Scene3D {");
    out += "impl Scene3D {\n";
    for head in SCENE_METHODS {
        out += &cut(&methods, &format!("    {head}"));
    }
    out + "}\n"
}

/// The functions of these heads, each made public.
fn cut_functions(source: &str, heads: &[&str]) -> String {
    let public = |head: &&str| {
        let name = head.trim_start_matches("pub(crate) ");
        cut(source, head).replacen(head, &format!("pub {name}"), 1)
    };
    heads.iter().map(public).collect()
}

/// The one item whose line begins with `head`.
fn cut(source: &str, head: &str) -> String {
    let found = cut_all(source, head);
    assert_eq!(found.len(), 1, "`{head}` found {} times", found.len());
    found.concat()
}

/// Every item whose line begins with `head`, indent included, each with the
/// comments and attributes above it.
fn cut_all(source: &str, head: &str) -> Vec<String> {
    let mut found = Vec::new();
    let mut line_start = 0;
    let mut lead_start = None; // of the comments and attributes just above the line
    for line in source.split_inclusive('\n') {
        if line.starts_with(head) {
            let end = item_end(source.as_bytes(), line_start);
            found.push(format!(
                "{}\n",
                &source[lead_start.unwrap_or(line_start)..end]
            ));
        }
        let text = line.trim_start();
        lead_start = (text.starts_with("///") || text.starts_with("#["))
            .then(|| lead_start.unwrap_or(line_start));
        line_start += line.len();
    }
    found
}

/// The end of the item that begins at `start`: past the first `}` or `;` that
/// stands outside every bracket.
fn item_end(text: &[u8], start: usize) -> usize {
    let mut depth = 0;
    let mut i = start;
    while i < text.len() {
        i = last_of_literal(text, i).unwrap_or(i);
        match text[i] {
            b'(' | b'[' | b'{' => depth += 1,
            b')' | b']' => depth -= 1,
            b'}' => {
                depth -= 1;
                if depth == 0 && text.get(i + 1) != Some(&b';') {
                    return i + 1;
                }
            }
            b';' if depth == 0 => return i + 1,
            _ => {}
        }
        i += 1;
    }
    panic!("item without an end")
}

/// Where a line comment, string or character begins at `i`: its last byte.
fn last_of_literal(text: &[u8], i: usize) -> Option<usize> {
    let closing = |from: usize, mark: u8| {
        let mut k = from;
        while text[k] != mark {
            k += if text[k] == b'\\' { 2 } else { 1 };
        }
        k
    };
    match text[i..] {
        [b'/', b'/', ..] => text[i..].iter().position(|&b| b == b'\n').map(|n| i + n),
        [b'"', ..] => Some(closing(i + 1, b'"')),
        [b'\'', b'\\', ..] => Some(closing(i + 1, b'\'')),
        [b'\'', _, b'\'', ..] => Some(i + 2),
        _ => None,
    }
}
