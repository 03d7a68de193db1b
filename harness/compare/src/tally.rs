//! What the comparisons share: the count of cases with the smallest that
//! differs, which sorts of cases were met, equality of floats, and batches.

use std::fmt::LowerHex;

pub struct Tally<Input> {
    cases: u64,
    differing: u64,
    smallest: Option<(Input, String)>,
}

impl<Input: Ord> Tally<Input> {
    pub fn new() -> Self {
        Tally {
            cases: 0,
            differing: 0,
            smallest: None,
        }
    }

    /// Counts one case; `told` is what to print should it be the smallest that
    /// differs.
    pub fn count(&mut self, input: Input, equal: bool, told: impl FnOnce(&Input) -> String) {
        self.cases += 1;
        if !equal {
            self.differing += 1;
            if self
                .smallest
                .as_ref()
                .is_none_or(|(least, _)| input < *least)
            {
                let told = told(&input);
                self.smallest = Some((input, told));
            }
        }
    }

    /// Prints the line of this comparison, at once, since others print beside
    /// it; true if nothing differs.
    pub fn report(&self, name: &str, unit: &str, note: &str) -> bool {
        let (cases, differing) = (self.cases, self.differing);
        let smallest = self.smallest.as_ref();
        let smallest = smallest.map_or(String::new(), |(_, told)| format!("\n  smallest: {told}"));
        println!("{name}: {cases} {unit}, {differing} differ{note}{smallest}");
        differing == 0
    }
}

impl<Input: Ord + LowerHex> Tally<Input> {
    /// Counts one case whose input is a bit pattern and whose answer is an f32.
    pub fn count_answer(&mut self, input: Input, rust: f32, port: f32) {
        let (rust, port) = (one_nan_bits(rust), one_nan_bits(port));
        self.count(input, rust == port, |input| {
            let digits = 2 * size_of::<Input>();
            format!("{input:0digits$x}, Rust {rust:08x}, port {port:08x}")
        });
    }
}

impl Tally<Vec<u32>> {
    /// Counts one case of several numbers in and several out.
    pub fn count_numbers(&mut self, input: &[&[f32]], rust: &[f32], port: &[f32]) {
        let bits = |xs: &[f32]| xs.iter().map(|x| x.to_bits()).collect::<Vec<u32>>();
        let compared = |x: &f32| one_nan_bits(*x);
        let equal = rust.iter().map(compared).eq(port.iter().map(compared));
        let input = if equal {
            Vec::new() // which is not kept
        } else {
            bits(&input.concat())
        };
        self.count(input, equal, |input| {
            let (rust, port) = (bits(rust), bits(port));
            format!("{input:08x?}, Rust {rust:08x?}, port {port:08x?}")
        });
    }
}

/// How often each of some sorts of cases was met.
pub struct Met<const N: usize> {
    names: [&'static str; N],
    counts: [u64; N],
}

impl<const N: usize> Met<N> {
    pub fn new(names: [&'static str; N]) -> Self {
        Met {
            names,
            counts: [0; N],
        }
    }

    pub fn count(&mut self, sort: usize) {
        self.counts[sort] += 1;
    }

    /// Counts each sort that is met.
    pub fn count_all(&mut self, is_met: &[bool; N]) {
        for (count, is_met) in self.counts.iter_mut().zip(is_met) {
            *count += u64::from(*is_met);
        }
    }

    /// The counts, to follow a line.
    pub fn note(&self) -> String {
        let all = self.names.iter().zip(&self.counts);
        all.map(|(name, count)| format!(", {name} {count}"))
            .collect()
    }

    /// Names each sort that was never met; true if there is none.
    pub fn report(&self) -> bool {
        self.report_least(1)
    }

    /// Names each sort that was met less than `least` times; true if there is
    /// none.
    pub fn report_least(&self, least: u64) -> bool {
        for (name, count) in self.names.iter().zip(self.counts) {
            if count < least {
                println!("  met {count} times, expected {least}: {name}");
            }
        }
        self.counts.iter().all(|count| *count >= least)
    }
}

/// The bits of `x`, all NaNs counting as one. A NaN is told by its bits: the
/// compiler takes a choice by `is_nan` between a root and NaN for the root alone.
pub fn one_nan_bits(x: f32) -> u32 {
    let bits = x.to_bits();
    if bits & 0x7fff_ffff > 0x7f80_0000 {
        0x7fc0_0000
    } else {
        bits
    }
}

/// In room that a call is to fill: no answer, so that a number which it leaves
/// alone shows.
pub const UNTOUCHED: f32 = f32::from_bits(0xdead_beef);

pub const BATCH: usize = 4096;

/// Hands the items on in slices of at most `BATCH`.
pub fn in_batches<T>(items: impl Iterator<Item = T>, mut work: impl FnMut(&[T])) {
    let mut items = items.fuse();
    let mut batch = Vec::with_capacity(BATCH);
    loop {
        batch.clear();
        batch.extend(items.by_ref().take(BATCH));
        if batch.is_empty() {
            return;
        }
        work(&batch);
    }
}
