//! Hex digits: without a branch, or, where it is compiled with `--cfg by_digit`, as the crate `hex` 0.4.3 has them.

#[cfg(not(by_digit))]
pub use without_branches::{decode, encode};

#[cfg(by_digit)]
pub use by_digit::{decode, encode};

/// The bytes of just as many hex digits.
pub fn array<const N: usize>(digits: &[u8]) -> Option<[u8; N]> {
    let mut bytes = [0; N];
    decode(digits, &mut bytes)?;
    Some(bytes)
}

#[cfg(not(by_digit))]
mod without_branches {
    /// Fills the text, which is twice as long, by the digits of bytes.
    #[inline(always)]
    pub fn encode(bytes: &[u8], text: &mut [u8]) {
        for (pair, byte) in text.chunks_exact_mut(2).zip(bytes) {
            pair[0] = digit(byte >> 4);
            pair[1] = digit(byte & 15);
        }
    }

    /// A lower-case hex digit.
    fn digit(value: u8) -> u8 {
        b'0' + value + (b'a' - b'9' - 1) * u8::from(value > 9)
    }

    /// Fills bytes by hex digits of either case, in blocks. None where they are no such digits, or not two for each byte.
    pub fn decode(digits: &[u8], bytes: &mut [u8]) -> Option<()> {
        if digits.len() != 2 * bytes.len() {
            return None;
        }
        let mut wrong = 0;
        let mut blocks = bytes.chunks_exact_mut(16);
        let mut pairs = digits.chunks_exact(32);
        for (block, pairs) in (&mut blocks).zip(&mut pairs) {
            let mut values = [0; 32];
            for (value, digit) in values.iter_mut().zip(pairs) {
                *value = value_of(*digit);
                wrong |= *value;
            }
            for (byte, pair) in block.iter_mut().zip(values.chunks_exact(2)) {
                *byte = pair[0] << 4 | pair[1];
            }
        }
        for (byte, pair) in blocks
            .into_remainder()
            .iter_mut()
            .zip(pairs.remainder().chunks_exact(2))
        {
            let (high, low) = (value_of(pair[0]), value_of(pair[1]));
            wrong |= high | low;
            *byte = high << 4 | low;
        }
        (wrong < 16).then_some(())
    }

    /// A hex digit's value, or 255.
    fn value_of(digit: u8) -> u8 {
        let (number, letter) = (digit.wrapping_sub(b'0'), (digit | 32).wrapping_sub(b'a'));
        let letter = if letter < 6 { letter + 10 } else { 255 };
        if number < 10 { number } else { letter }
    }
}

#[cfg(by_digit)]
mod by_digit {
    /// Fills the text, which is twice as long, by the digits of bytes.
    pub fn encode(bytes: &[u8], text: &mut [u8]) {
        const DIGITS: &[u8; 16] = b"0123456789abcdef";
        for (pair, byte) in text.chunks_exact_mut(2).zip(bytes) {
            pair[0] = DIGITS[usize::from(byte >> 4)];
            pair[1] = DIGITS[usize::from(byte & 15)];
        }
    }

    /// Fills bytes by hex digits of either case. None where they are no such digits, or not two for each byte.
    pub fn decode(digits: &[u8], bytes: &mut [u8]) -> Option<()> {
        if digits.len() != 2 * bytes.len() {
            return None;
        }
        for (byte, pair) in bytes.iter_mut().zip(digits.chunks_exact(2)) {
            *byte = value_of(pair[0])? << 4 | value_of(pair[1])?;
        }
        Some(())
    }

    fn value_of(digit: u8) -> Option<u8> {
        match digit {
            b'A'..=b'F' => Some(digit - b'A' + 10),
            b'a'..=b'f' => Some(digit - b'a' + 10),
            b'0'..=b'9' => Some(digit - b'0'),
            _ => None,
        }
    }
}
