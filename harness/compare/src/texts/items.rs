//! The items of a field, as the plain reader takes them from what is still to be
//! read.

/// Of so many items, entries of `width` items, where they are whole.
pub fn part(at: usize, items: usize, width: usize) -> Option<[u32; 2]> {
    let part = [at as u32, (items / width) as u32];
    items.is_multiple_of(width).then_some(part)
}

/// The items of a field of floats up to its end, to the end of `out`.
pub fn floats(rest: &mut &[u8], out: &mut Vec<f32>, width: usize) -> Option<[u32; 2]> {
    let at = out.len();
    while let Some(digits) = rest.strip_prefix(b" ") {
        *rest = digits;
        out.push(float(rest)?);
    }
    *rest = rest.strip_prefix(b")")?;
    part(at, out.len() - at, width)
}

/// Eight digits; of NaNs there is one.
pub fn float(rest: &mut &[u8]) -> Option<f32> {
    let (digits, behind) = rest.split_first_chunk::<8>()?;
    let mut bits = 0;
    for byte in digits {
        let digit = DIGITS[usize::from(*byte)];
        if digit == NO_DIGIT {
            return None;
        }
        bits = bits << 4 | u32::from(digit);
    }
    *rest = behind;
    let float = f32::from_bits(bits);
    (!float.is_nan() || bits == 0x7fc0_0000).then_some(float)
}

const NO_DIGIT: u8 = 16;
/// What each byte says as a digit of a float.
const DIGITS: [u8; 256] = {
    let mut digits = [NO_DIGIT; 256];
    let mut digit = 0;
    while digit < NO_DIGIT {
        digits[b"0123456789abcdef"[digit as usize] as usize] = digit;
        digit += 1;
    }
    digits
};

/// Decimal, below 2^32, with no leading zero.
pub fn number(rest: &mut &[u8]) -> Option<u32> {
    let mut number: u32 = 0;
    let mut digits = 0;
    while let [digit @ b'0'..=b'9', behind @ ..] = rest {
        number = number
            .checked_mul(10)?
            .checked_add(u32::from(digit - b'0'))?;
        digits += 1;
        if digits == 2 && number < 10 {
            return None;
        }
        *rest = behind;
    }
    (digits > 0).then_some(number)
}
