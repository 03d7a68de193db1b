//! The example of docs/TEXT.md, which is the small scene of docs/TABLES.md: written
//! it is this text, and the text is read.

use super::{
    reader,
    round_trip::write_in,
    slices::{expected, lens_of, of_port},
    writer,
};
use crate::tables::example::lent;
use std::fs;

const DOCUMENT: &str = concat!(env!("CARGO_MANIFEST_DIR"), "/../../docs/TEXT.md");
const ASKED: (u32, f32) = (1, 0.5);

pub fn compare() -> bool {
    let text = text();
    let lent = lent();
    let lent = lent.of_port();
    let (_, written) = write_in(&lent, ASKED.0, ASKED.1, text.len());
    let is_written = [written, writer::write(&lent, ASKED.0, ASKED.1)]
        .iter()
        .all(|written| *written == text);
    let read = reader::read(&text);
    let lens = read.as_ref().map_or([0; 4], lens_of);
    let is_read = read.is_ok() && of_port(&text, lens) == expected(&read, lens);
    println!("example of docs/TEXT.md: written {is_written}, read {is_read}");
    is_written && is_read
}

/// The first indented lines of the document; what a line is broken into is
/// indented by two more.
fn text() -> Vec<u8> {
    let document = fs::read_to_string(DOCUMENT).unwrap_or_else(|e| panic!("{DOCUMENT}: {e}"));
    let lines = document.lines().map(|line| line.strip_prefix("    "));
    let example = lines.skip_while(Option::is_none).map_while(|line| line);
    let whole: Vec<&str> = example.collect();
    let text = whole.join("\n").replace("\n  ", " ");
    [text.as_bytes(), b"\n"].concat()
}
