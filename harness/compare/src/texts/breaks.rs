//! Where a text breaks: at the first byte that departs from the grammar of
//! docs/TEXT.md; where none does, at the closing bracket of the first field or
//! form whose shape breaks, or at the end of the text. A text departs in one of
//! its words: a blank or an opening bracket and what stands behind it. The
//! place may be any byte of that word up to the first that nothing can follow.

use super::{
    reader::BAD_FORM,
    schema::{Field, Kind, Sort, KINDS},
};
use mesh3d::raw::Break;

#[derive(Clone, Copy)]
pub enum Place {
    /// The first byte that departs.
    Byte(usize),
    /// The closing bracket of what broke, or the end of the text.
    Shape(usize),
}

/// Whether this is what is to be told of a text.
pub fn is_told(text: &[u8], place: Option<Place>, told: &Break) -> bool {
    let (number, at) = (told.number, told.at);
    match place {
        None => (number, at) == (0, 0),
        Some(Place::Shape(place)) => (number, at) == (BAD_FORM, place),
        Some(Place::Byte(byte)) => {
            number == BAD_FORM && (word_before(text, byte)..=byte).contains(&at)
        }
    }
}

/// None where the text has a reading.
pub fn place(text: &[u8]) -> Option<Place> {
    let mut scan = Scan {
        text,
        at: 0,
        broken: None,
    };
    match scan.document() {
        Err(byte) => Some(Place::Byte(byte)),
        Ok(scenes) => {
            let end = (scenes != 1).then_some(text.len());
            scan.broken.or(end).map(Place::Shape)
        }
    }
}

/// Where the word starts in which, or right behind which, a byte stands.
fn word_before(text: &[u8], byte: usize) -> usize {
    let before = &text[..byte];
    let start = before.iter().rposition(|b| b" (\n".contains(b));
    let start = start.unwrap_or(0);
    match before.get(start.saturating_sub(1)..=start) {
        Some(b" (") => start - 1,
        Some([_, b'\n']) => start + 1,
        _ => start,
    }
}

/// A text as far as it was gone through, and where a shape broke first.
struct Scan<'a> {
    text: &'a [u8],
    at: usize,
    broken: Option<usize>,
}

/// Of a step that departs: the byte.
type Step<T> = Result<T, usize>;

impl Scan<'_> {
    /// Answers how many scene forms there are.
    fn document(&mut self) -> Step<usize> {
        let mut kind = 0;
        let mut scenes = 0;
        while self.at < self.text.len() {
            self.take(b'(')?;
            kind += self.word(KINDS[kind..].iter().map(|kind| kind.title))?;
            scenes += usize::from(kind == 0);
            self.form(&KINDS[kind])?;
        }
        Ok(scenes)
    }

    fn form(&mut self, kind: &Kind) -> Step<()> {
        let mut present = vec![false; kind.fields.len()];
        let mut next = 0;
        while next < present.len() && self.next() == Some(b' ') {
            self.at += 1;
            self.take(b'(')?;
            next += self.word(kind.fields[next..].iter().map(|field| field.name))?;
            present[next] = true;
            self.field(&kind.fields[next])?;
            next += 1;
        }
        self.close(kind.holds(&present))?;
        self.take(b'\n')
    }

    fn field(&mut self, field: &Field) -> Step<()> {
        let mut items = 0;
        let mut are_floats = true;
        while self.next() == Some(b' ') {
            self.at += 1;
            match field.sort {
                Sort::Number => self.number()?,
                Sort::Float => are_floats &= self.float()?,
            }
            items += 1;
        }
        self.close(are_floats && field.count.holds(items))
    }

    fn close(&mut self, holds: bool) -> Step<()> {
        let close = self.at;
        self.take(b')')?;
        if !holds {
            self.broken.get_or_insert(close);
        }
        Ok(())
    }

    fn next(&self) -> Option<u8> {
        self.text.get(self.at).copied()
    }

    fn take(&mut self, byte: u8) -> Step<()> {
        if self.next() != Some(byte) {
            return Err(self.at);
        }
        self.at += 1;
        Ok(())
    }

    /// One of these, with a blank or a closing bracket behind; answers which.
    fn word<'a>(&mut self, words: impl Iterator<Item = &'a str> + Clone) -> Step<usize> {
        let rest = &self.text[self.at..];
        let as_far = |word: &str| {
            let both = word.bytes().zip(rest);
            both.take_while(|(expected, found)| expected == *found)
                .count()
        };
        let length = words.clone().map(as_far).max().unwrap_or(0);
        self.at += length;
        let is_whole = matches!(self.next(), Some(b' ' | b')'));
        let which = words
            .map(str::as_bytes)
            .position(|word| *word == rest[..length]);
        which.filter(|_| is_whole).ok_or(self.at)
    }

    fn number(&mut self) -> Step<()> {
        let start = self.at;
        while let Some(digit) = self.next().filter(u8::is_ascii_digit) {
            let digits = [&self.text[start..self.at], &[digit]].concat();
            let number = str::from_utf8(&digits).map(str::parse::<u32>);
            let is_zero_led = digits.len() > 1 && digits[0] == b'0';
            if is_zero_led || !matches!(number, Ok(Ok(_))) {
                return Err(self.at);
            }
            self.at += 1;
        }
        let is_there = self.at > start;
        is_there.then_some(()).ok_or(self.at)
    }

    /// Eight digits; answers whether they are the bits of a float: another NaN than
    /// the one breaks the shape of its field.
    fn float(&mut self) -> Step<bool> {
        let mut bits = 0;
        for _ in 0..8 {
            let digit = match self.next() {
                Some(digit @ b'0'..=b'9') => digit - b'0',
                Some(digit @ b'a'..=b'f') => digit - b'a' + 10,
                _ => return Err(self.at),
            };
            bits = bits << 4 | u32::from(digit);
            self.at += 1;
        }
        Ok(!f32::from_bits(bits).is_nan() || bits == 0x7fc0_0000)
    }
}
