//! Hashes as lower-case hex digits, and back. Both are plain sums over all digits at once, without a
//! table and without a branch, which the compiler does many digits at a time.

use refile_model::sizes::HASH_BYTES;

use crate::baseline::Hash;

const HASH_DIGITS: usize = 2 * HASH_BYTES;

/// How far the letters lie above where the digits would go on.
const LETTERS: u8 = b'a' - (b'0' + 10);

/// The hash whose digits stand at the front, if a quote follows them.
pub fn hash_before_quote(text: &[u8]) -> Option<Hash> {
    let (digits, rest) = text.split_first_chunk()?;
    match rest {
        [b'"', ..] => unhex(digits),
        _ => None,
    }
}

fn unhex(digits: &[u8; HASH_DIGITS]) -> Option<Hash> {
    let mut values = [0; HASH_DIGITS];
    let mut sound = true;
    for (value, digit) in values.iter_mut().zip(digits) {
        let decimal = digit.wrapping_sub(b'0');
        let letter = digit.wrapping_sub(b'a');
        sound &= (decimal < 10) | (letter < 6);
        *value = if decimal < 10 {
            decimal
        } else {
            letter.wrapping_add(10)
        };
    }
    let mut hash = [0; HASH_BYTES];
    for (byte, [high, low]) in hash.iter_mut().zip(values.as_chunks().0) {
        *byte = high << 4 | low;
    }
    sound.then_some(hash)
}

pub fn hex(hash: &Hash) -> [u8; HASH_DIGITS] {
    let mut digits = [0; HASH_DIGITS];
    for (pair, byte) in digits.as_chunks_mut().0.iter_mut().zip(hash) {
        *pair = [byte >> 4, byte & 15];
    }
    digits.map(|value| value + b'0' + if value < 10 { 0 } else { LETTERS })
}
