//! Numbers in a script: decimal digits only, leading zeros allowed, a minus for figures alone.

/// An unsigned number of at most `most`.
fn magnitude(word: &[u8], most: u128) -> Option<u128> {
    if word.is_empty() {
        return None;
    }
    let mut value: u128 = 0;
    for byte in word {
        if !byte.is_ascii_digit() {
            return None;
        }
        value = value * 10 + u128::from(byte - b'0');
        if value > most {
            return None;
        }
    }
    Some(value)
}

pub fn number_32(word: &[u8]) -> Option<u32> {
    magnitude(word, u32::MAX.into()).map(|value| value as u32)
}

pub fn number_64(word: &[u8]) -> Option<u64> {
    magnitude(word, u64::MAX.into()).map(|value| value as u64)
}

pub fn figure(word: &[u8]) -> Option<i64> {
    let (digits, sign) = match word {
        [b'-', digits @ ..] => (digits, -1),
        digits => (digits, 1),
    };
    let value = magnitude(digits, 1 << 63)? as i128 * sign;
    i64::try_from(value).ok()
}
