//! Ways to damage a text.

use crate::rng::Rng;
use std::ops::Range;

pub type Damage = (&'static str, fn(&mut Vec<u8>, &mut Rng));

pub const DAMAGES: [Damage; 24] = [
    ("a byte changed", |text, rng| change_byte(text, rng)),
    ("a byte dropped", drop_byte),
    ("a byte doubled", double_byte),
    ("a byte inserted", insert_byte),
    ("two bytes exchanged", |text, rng| exchange_bytes(text, rng)),
    ("two lines exchanged", |text, rng| {
        exchange(text, lines(text), rng)
    }),
    ("a line dropped", |text, rng| {
        drop_one(text, lines(text), rng)
    }),
    ("a line doubled", |text, rng| double(text, lines(text), rng)),
    ("cut short", cut_short),
    ("bytes behind the end", bytes_behind),
    ("CR before a line's end", |text, rng| {
        carriage_return(text, rng, false)
    }),
    ("CR before every line's end", |text, rng| {
        carriage_return(text, rng, true)
    }),
    ("an upper-case digit", |text, rng| {
        upper_case_digit(text, rng)
    }),
    ("a leading zero", leading_zero),
    ("another NaN", other_nan),
    ("a number of 2^32 or more", large_number),
    ("a number changed", change_number),
    ("an item dropped", |text, rng| {
        drop_one(text, items(text), rng)
    }),
    ("an item doubled", |text, rng| {
        double(text, items(text), rng)
    }),
    ("two items exchanged", |text, rng| {
        exchange(text, items(text), rng)
    }),
    ("a field dropped", |text, rng| {
        drop_one(text, fields(text), rng)
    }),
    ("a field doubled", |text, rng| {
        double(text, fields(text), rng)
    }),
    ("fields exchanged", exchange_fields),
    ("another name", other_name),
];

/// A blank and eight digits.
const FLOAT: usize = 9;
/// What a text has, and near misses.
const BYTES: &[u8] = b"()  \n\r\t0123456789abcdefABFgnx\0\x80\xff";
const NAMES: [&[u8]; 12] = [
    b"node",
    b"scene",
    b"skin",
    b"skeleton",
    b"mesh",
    b"weight",
    b"weights",
    b"matrix",
    b"root",
    b"roots",
    b"scale",
    b"scalar",
];

fn any_byte(rng: &mut Rng) -> u8 {
    match rng.below(8) {
        0 => rng.bits() as u8,
        _ => rng.one_of(BYTES),
    }
}

fn place(text: &[u8], rng: &mut Rng) -> usize {
    rng.below(text.len() as u32) as usize
}

fn change_byte(text: &mut [u8], rng: &mut Rng) {
    let at = place(text, rng);
    text[at] = any_byte(rng);
}

fn drop_byte(text: &mut Vec<u8>, rng: &mut Rng) {
    text.remove(place(text, rng));
}

fn double_byte(text: &mut Vec<u8>, rng: &mut Rng) {
    let at = place(text, rng);
    text.insert(at, text[at]);
}

fn insert_byte(text: &mut Vec<u8>, rng: &mut Rng) {
    text.insert(place(text, rng), any_byte(rng));
}

/// Beside each other, or anywhere.
fn exchange_bytes(text: &mut [u8], rng: &mut Rng) {
    let (one, other) = (place(text, rng), place(text, rng));
    match rng.below(2) {
        0 => text.swap(one, other),
        _ => text.swap(one, one.saturating_sub(1)),
    }
}

fn cut_short(text: &mut Vec<u8>, rng: &mut Rng) {
    let len = match rng.below(4) {
        0 => text.len() - 1,
        _ => place(text, rng),
    };
    text.truncate(len);
}

fn bytes_behind(text: &mut Vec<u8>, rng: &mut Rng) {
    let behind: &[u8] = rng.one_of(&[
        &b"\n"[..],
        b" ",
        b"\0",
        b"(",
        b"(skeleton",
        b"()\n",
        b"\r\n",
    ]);
    text.extend_from_slice(behind);
}

fn carriage_return(text: &mut Vec<u8>, rng: &mut Rng, everywhere: bool) {
    let ends: Vec<usize> = (0..text.len()).filter(|at| text[*at] == b'\n').collect();
    let only = one_of(&ends, rng);
    for end in ends.into_iter().rev() {
        if everywhere || only == Some(end) {
            text.insert(end, b'\r');
        }
    }
}

fn upper_case_digit(text: &mut [u8], rng: &mut Rng) {
    if let Some(item) = one_of(&items(text), rng) {
        let digits: Vec<usize> = item.filter(|at| text[*at].is_ascii_lowercase()).collect();
        if let Some(at) = one_of(&digits, rng) {
            text[at].make_ascii_uppercase();
        }
    }
}

fn leading_zero(text: &mut Vec<u8>, rng: &mut Rng) {
    if let Some(item) = one_of(&numbers(text), rng) {
        text.insert(item.start + 1, b'0');
    }
}

fn other_nan(text: &mut Vec<u8>, rng: &mut Rng) {
    let mut floats = items(text);
    floats.retain(|item| item.len() == FLOAT);
    if let Some(item) = one_of(&floats, rng) {
        let any = rng.bits() as u32;
        let bits = rng.one_of(&[0x7f80_0001, 0xffc0_0000, 0x7fc0_0001, any | 0x7f80_0000]);
        text.splice(item, format!(" {bits:08x}").into_bytes());
    }
}

fn large_number(text: &mut Vec<u8>, rng: &mut Rng) {
    let (any, more) = (u64::from(rng.bits() as u32), rng.bits() >> rng.below(32));
    let number = rng.one_of(&[
        u64::from(u32::MAX),
        1 << 32,
        (1 << 32) + any,
        more,
        10 << 32,
    ]);
    let zeros = rng.one_of(&["", "", "00000000000"]);
    put_number(text, &format!(" {number}{zeros}"), rng);
}

fn change_number(text: &mut Vec<u8>, rng: &mut Rng) {
    let number = rng.below(6);
    put_number(text, &format!(" {number}"), rng);
}

fn put_number(text: &mut Vec<u8>, number: &str, rng: &mut Rng) {
    if let Some(item) = one_of(&numbers(text), rng) {
        text.splice(item, number.bytes());
    }
}

/// Of one form, or anywhere.
fn exchange_fields(text: &mut Vec<u8>, rng: &mut Rng) {
    let fields = fields(text);
    if fields.len() < 2 || rng.below(2) == 0 {
        return exchange(text, fields, rng);
    }
    let k = rng.below(fields.len() as u32 - 1) as usize;
    let both = [&text[fields[k + 1].clone()], &text[fields[k].clone()]].concat();
    if fields[k].end == fields[k + 1].start {
        text.splice(fields[k].start..fields[k + 1].end, both);
    }
}

fn other_name(text: &mut Vec<u8>, rng: &mut Rng) {
    let starts: Vec<usize> = (0..text.len()).filter(|at| text[*at] == b'(').collect();
    if let Some(start) = one_of(&starts, rng) {
        let name = text[start + 1..].iter().take_while(|b| !b" )".contains(b));
        let end = start + 1 + name.count();
        text.splice(start + 1..end, rng.one_of(&NAMES).iter().copied());
    }
}

fn one_of<T: Clone>(choices: &[T], rng: &mut Rng) -> Option<T> {
    let count = choices.len() as u32;
    (count > 0).then(|| choices[rng.below(count) as usize].clone())
}

fn drop_one(text: &mut Vec<u8>, choices: Vec<Range<usize>>, rng: &mut Rng) {
    if let Some(range) = one_of(&choices, rng) {
        text.drain(range);
    }
}

fn double(text: &mut Vec<u8>, choices: Vec<Range<usize>>, rng: &mut Rng) {
    if let Some(range) = one_of(&choices, rng) {
        let again = text[range.clone()].to_vec();
        text.splice(range.end..range.end, again);
    }
}

fn exchange(text: &mut Vec<u8>, choices: Vec<Range<usize>>, rng: &mut Rng) {
    let Some([one, other]) = one_of(&choices, rng)
        .zip(one_of(&choices, rng))
        .map(<[_; 2]>::from)
    else {
        return;
    };
    let (first, last) = if one.start < other.start {
        (one, other)
    } else {
        (other, one)
    };
    if first.end <= last.start {
        let between = [
            &text[last.clone()],
            &text[first.end..last.start],
            &text[first.clone()],
        ];
        let between = between.concat();
        text.splice(first.start..last.end, between);
    }
}

fn lines(text: &[u8]) -> Vec<Range<usize>> {
    let mut start = 0;
    let lines = text.split_inclusive(|byte| *byte == b'\n');
    lines
        .map(|line| {
            start += line.len();
            start - line.len()..start
        })
        .collect()
}

/// With the blank before each.
fn fields(text: &[u8]) -> Vec<Range<usize>> {
    let mut fields = Vec::new();
    let mut start = None;
    for (at, pair) in text.windows(2).enumerate() {
        match pair {
            b" (" => start = Some(at),
            [b')', _] => fields.extend(start.take().map(|start| start..at + 1)),
            _ => {}
        }
    }
    fields
}

/// With the blank before each.
fn items(text: &[u8]) -> Vec<Range<usize>> {
    let mut items = Vec::new();
    let mut start = 0;
    for (at, byte) in text.iter().enumerate() {
        if b" ()\n".contains(byte) {
            items.push(start..at);
            start = at;
        }
    }
    items.retain(|item| text[item.start] == b' ' && item.len() > 1);
    items
}

/// The items that are not of eight digits, as floats are.
fn numbers(text: &[u8]) -> Vec<Range<usize>> {
    let mut items = items(text);
    items.retain(|item| item.len() != FLOAT);
    items
}
