//! Hexadecimal in and out, written so that the compiler makes vector code of the loops.

/// The value of a digit, or a value above 15.
#[inline]
fn digit(c: u8) -> u8 {
    let d = c.wrapping_sub(b'0');
    let l = (c | 0x20).wrapping_sub(b'a');
    let letter = if l < 6 { l + 10 } else { 0x80 };
    if d < 10 { d } else { letter }
}

/// Appends the bytes that `text` spells; false where it is no even number, not 0, of digits.
pub fn decode(text: &[u8], out: &mut Vec<u8>) -> bool {
    if text.is_empty() || !text.len().is_multiple_of(2) {
        return false;
    }
    let mut bad = 0;
    out.extend(text.chunks_exact(2).map(|pair| {
        let (hi, lo) = (digit(pair[0]), digit(pair[1]));
        bad |= hi | lo;
        hi << 4 | lo
    }));
    bad < 16
}

#[inline]
fn letter(n: u8) -> u8 {
    n + if n < 10 { b'0' } else { b'a' - 10 }
}

pub fn encode(bytes: &[u8], out: &mut Vec<u8>) {
    out.reserve(2 * bytes.len());
    let mut digits = [0; 128];
    for chunk in bytes.chunks(64) {
        for (pair, &b) in digits.chunks_exact_mut(2).zip(chunk) {
            pair[0] = letter(b >> 4);
            pair[1] = letter(b & 15);
        }
        out.extend_from_slice(&digits[..2 * chunk.len()]);
    }
}
