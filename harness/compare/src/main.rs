//! Compares the port with the Rust that it was made from, and measures both.
//! From the folder harness:
//!
//! ```text
//! cargo run --release -- gate     every comparison, or of one area with its name
//!                                 behind; status 1 where an area differs
//! cargo run --release -- roots    the root on all 2^32 patterns
//! cargo run --release -- long     the bakes of 10^7 scenes, and 10^5 texts with 10^6
//!                                 damaged ones, or one of the two
//! cargo run --release -- speed    CPU time of both sides, or of one area
//! cargo run --release -- list     the Rust's answers, for crates/replay; with
//!                                 the word samples those for crates/replay_samples,
//!                                 with published those for crates/samples, with
//!                                 scenes those for crates/replay_scenes
//! ```
//!
//! ORACLE_SRC names the folder of the Rust's source and MESH3D_LIB_DIR that of
//! the port's library, where they are not in their usual places (see the build
//! scripts of oracle and of rust/).

mod bakes;
mod clock;
mod graph;
mod headers;
mod in_bytes;
mod leaves;
mod list;
mod matrices;
mod measure;
mod morphs;
mod placing;
mod pose;
mod rng;
mod rooms;
mod sampling;
mod skins;
mod tables;
mod tally;
mod texts;
mod vertices;

use std::{
    collections::VecDeque,
    env, io,
    num::NonZero,
    process::ExitCode,
    sync::{
        atomic::{AtomicBool, Ordering},
        Mutex,
    },
    thread,
};

/// A name, and comparisons that give false where something differs.
type Area = (&'static str, fn() -> bool);

/// From the leaves up.
const AREAS: [Area; 13] = [
    ("headers", headers::compare),
    ("leaves", leaves::compare),
    ("matrices", matrices::compare),
    ("vertices", vertices::compare),
    ("sampling", sampling::compare),
    ("placing", placing::compare),
    ("tables", tables::compare),
    ("pose", pose::compare),
    ("graph", graph::compare),
    ("morphs", morphs::compare),
    ("skins", skins::compare),
    ("texts", texts::compare),
    ("bakes", bakes::compare),
];

/// Of more cases than the gate has.
const LONG: [Area; 2] = [
    ("texts", texts::compare_long),
    ("bakes", bakes::compare_long),
];

/// A name, and measurements that are printed.
const SPEEDS: [(&str, fn()); 11] = [
    ("leaves", leaves::speed::measure),
    ("matrices", matrices::speed::measure),
    ("vertices", vertices::speed::measure),
    ("sampling", sampling::speed::measure),
    ("tables", tables::speed::measure),
    ("pose", pose::speed::measure),
    ("graph", graph::speed::measure),
    ("morphs", morphs::speed::measure),
    ("skins", skins::speed::measure),
    ("bakes", bakes::speed::measure),
    ("texts", texts::speed::measure),
];

/// The stack of a thread that compares: the calls on bytes take up to 2 MB.
const STACK: usize = 16 << 20;

fn main() -> io::Result<ExitCode> {
    let arguments: Vec<String> = env::args().skip(1).collect();
    let arguments: Vec<&str> = arguments.iter().map(String::as_str).collect();
    match arguments[..] {
        ["gate"] => return Ok(status(compare("", &AREAS))),
        ["gate", area] if is_name(area, &AREAS) => return Ok(status(compare(area, &AREAS))),
        ["long"] => return Ok(status(compare("", &LONG))),
        ["long", area] if is_name(area, &LONG) => return Ok(status(compare(area, &LONG))),
        ["roots"] => return Ok(status(leaves::roots::compare_all())),
        ["speed"] => speed(""),
        ["speed", area] if is_name(area, &SPEEDS) => speed(area),
        ["list"] => list::write(&mut io::stdout().lock())?,
        ["list", "samples"] => sampling::list::write(&mut io::stdout().lock())?,
        ["list", "published"] => list::published::write(&mut io::stdout().lock())?,
        ["list", "scenes"] => list::scenes::write(&mut io::stdout().lock())?,
        _ => {
            eprintln!(
                "usage: compare gate [AREA] | roots | long [AREA] | speed [AREA] | \
                 list [samples | published | scenes]"
            );
            return Ok(ExitCode::from(2));
        }
    }
    Ok(ExitCode::SUCCESS)
}

fn is_name<T>(area: &str, areas: &[(&str, T)]) -> bool {
    areas.iter().any(|(name, _)| *name == area)
}

fn status(equal: bool) -> ExitCode {
    if equal {
        ExitCode::SUCCESS
    } else {
        ExitCode::FAILURE
    }
}

/// Of all areas, or of the one that is named: as many at a time as there are
/// processors, the last of the list, which takes longest, first. None is begun
/// after one that differs.
fn compare(area: &str, areas: &[Area]) -> bool {
    let areas = areas
        .iter()
        .rev()
        .filter(|(name, _)| area.is_empty() || *name == area);
    let areas: Mutex<VecDeque<&Area>> = Mutex::new(areas.collect());
    let equal = AtomicBool::new(true);
    let next = || areas.lock().expect("the areas").pop_front();
    let compare = || {
        while let Some((name, compare)) = next() {
            if !compare() {
                eprintln!("{name}: something differs");
                equal.store(false, Ordering::Relaxed);
                areas.lock().expect("the areas").clear();
            }
        }
    };
    let lanes = thread::available_parallelism().map_or(1, NonZero::get);
    thread::scope(|scope| {
        for _ in 0..lanes {
            let lane = thread::Builder::new().stack_size(STACK);
            lane.spawn_scoped(scope, compare).expect("a thread");
        }
    });
    equal.into_inner()
}

fn speed(area: &str) {
    measure::start();
    let areas = SPEEDS
        .iter()
        .filter(|(name, _)| area.is_empty() || *name == area);
    areas.for_each(|(_, measure)| measure());
}
