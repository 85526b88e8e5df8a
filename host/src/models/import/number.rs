//! Whole numbers in decimal, as both texts have them.

use crate::error::{Error, Result};

/// White space as C has it.
pub fn is_space(byte: u8) -> bool {
    matches!(byte, b' ' | b'\t'..=b'\r')
}

/// A word as it can be told: no control characters, and no more than a line of it.
pub fn shown_word(word: &[u8]) -> String {
    match word.get(..24) {
        Some(part) if word.len() > 24 => format!("`{}...`", part.escape_ascii()),
        _ => format!("`{}`", word.escape_ascii()),
    }
}

/// Digits with or without a sign; what is too large stands at the end of the range.
pub fn whole_number(word: &[u8]) -> Result<i64> {
    let (sign, digits) = match word {
        [b'-', digits @ ..] => (-1, digits),
        [b'+', digits @ ..] => (1, digits),
        digits => (1, digits),
    };
    if digits.is_empty() || !digits.iter().all(u8::is_ascii_digit) {
        return Err(Error::undone(format!("{} is no whole number", shown_word(word))));
    }
    Ok(sign * digits.iter().fold(0i64, |sum, digit| sum.saturating_mul(10).saturating_add(i64::from(digit - b'0'))))
}

/// A weight or a bias, as the signed byte that it is in a `.rnn`.
pub fn weight(word: &[u8]) -> Result<u8> {
    let number = whole_number(word)?;
    i8::try_from(number)
        .map(|number| number as u8)
        .map_err(|_| Error::undone(format!("{} is not from -128 to 127", shown_word(word))))
}

/// A count or an activation, as the writer is given it: one that it can't be given is larger than all that it takes.
pub fn count(word: &[u8]) -> Result<u32> {
    Ok(u32::try_from(whole_number(word)?).unwrap_or(u32::MAX))
}

#[cfg(test)]
mod tests {
    use super::*;

    #[test]
    fn numbers_and_others() {
        for (word, number) in [("0", 0), ("-128", -128), ("+7", 7), ("007", 7), ("-0", 0)] {
            assert_eq!(whole_number(word.as_bytes()), Ok(number));
        }
        assert_eq!(whole_number(&[b'9'; 400]), Ok(i64::MAX));
        for word in ["", "-", "+", "--1", "1-", "1.5", "0x10", "1e2", "\u{661}"] {
            assert!(whole_number(word.as_bytes()).is_err(), "{word}");
        }
        assert_eq!((weight(b"-128"), weight(b"127")), (Ok(0x80), Ok(0x7F)));
        assert!(weight(b"-129").is_err() && weight(b"128").is_err() && weight(&[b'9'; 400]).is_err());
        assert_eq!((count(b"127"), count(b"-1"), count(&[b'9'; 400])), (Ok(127), Ok(u32::MAX), Ok(u32::MAX)));
    }

    #[test]
    fn words_are_told_in_one_line() {
        assert_eq!(shown_word(b"\x1B[2J\xFF"), r"`\x1b[2J\xff`");
        assert_eq!(shown_word(&[b'9'; 24]), format!("`{}`", "9".repeat(24)));
        assert_eq!(shown_word(&[b'9'; 25]), format!("`{}...`", "9".repeat(24)));
    }
}
