//! Slices of different lengths: an entry fills as much as all of them reach,
//! returns that count, and leaves the rest as it was.

use crate::tally::{Tally, UNTOUCHED};
use mesh3d::raw;

const LENGTHS: [usize; 14] = [0, 1, 2, 3, 4, 5, 7, 8, 9, 15, 16, 17, 32, 33];
const LONGEST: usize = 33;

/// Calls an entry with inputs of the given lengths.
type Call<'a> = &'a dyn Fn(&[usize], &mut [f32]) -> usize;

/// An entry's name, the lengths of its inputs, and that of its output.
type Lengths = (&'static str, Vec<usize>, usize);

pub fn compare() -> bool {
    let rising: [f32; LONGEST] = std::array::from_fn(|k| k as f32 / LONGEST as f32);
    let wide = rising.map(f64::from);
    let sqrt: Call = &|lens, out| raw::sqrt_all(&rising[..lens[0]], out);
    let narrow: Call = &|lens, out| raw::narrow_all(&wide[..lens[0]], out);
    let turn_weight: Call =
        &|lens, out| raw::turn_weight_all(&rising[..lens[0]], &rising[..lens[1]], out);

    let mut tally = Tally::new();
    for out in LENGTHS {
        for first in LENGTHS {
            check(&mut tally, sqrt, ("sqrt_all", vec![first], out));
            check(&mut tally, narrow, ("narrow_all", vec![first], out));
            for second in LENGTHS {
                let lengths = ("turn_weight_all", vec![first, second], out);
                check(&mut tally, turn_weight, lengths);
            }
        }
    }
    tally.report("lengths", "calls", "")
}

/// Compares with what the call gives where all lengths are the longest.
fn check(tally: &mut Tally<Lengths>, call: Call, lengths: Lengths) {
    let mut whole = [UNTOUCHED; LONGEST];
    call(&[LONGEST; 2], &mut whole);

    // The output stands within a larger sheet, so that a write past either end
    // is seen.
    let (_, inputs, out) = &lengths;
    let mut sheet = [UNTOUCHED; LONGEST + 2];
    let count = call(inputs, &mut sheet[1..=*out]);

    let least = inputs.iter().fold(*out, |least, len| least.min(*len));
    let mut expected = [UNTOUCHED; LONGEST + 2];
    expected[1..=least].copy_from_slice(&whole[..least]);
    let equal = count == least && sheet.map(f32::to_bits) == expected.map(f32::to_bits);
    tally.count(lengths, equal, |(name, inputs, out)| {
        format!("{name}, inputs {inputs:?}, output {out}: returned {count} of {least}")
    });
}
