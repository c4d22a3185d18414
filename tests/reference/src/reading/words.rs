//! The form of names and numbers.

use crate::limits::{MOST_BYTES_OF_A_NAME, MOST_DIGITS_OF_A_NUMBER};

/// A decimal number of one or two digits without a leading zero; `0` is one.
pub fn number(word: &[u8]) -> Option<usize> {
    let right_length = (1..=MOST_DIGITS_OF_A_NUMBER).contains(&word.len());
    let leading_zero = word.len() > 1 && word[0] == b'0';
    if !right_length || leading_zero || !word.iter().all(u8::is_ascii_digit) {
        return None;
    }
    Some(word.iter().fold(0, |number, digit| number * 10 + usize::from(digit - b'0')))
}

/// A word with the form of a name: a lower-case letter, then letters and
/// digits. Whether it is the name of an action is not asked here.
pub fn name(word: &[u8]) -> Option<&[u8]> {
    let (first, rest) = word.split_first()?;
    let right_bytes = first.is_ascii_lowercase()
        && rest.iter().all(|byte| byte.is_ascii_lowercase() || byte.is_ascii_digit());
    (right_bytes && word.len() <= MOST_BYTES_OF_A_NAME).then_some(word)
}

/// Words that have the form of a name but stand for something else.
pub fn is_reserved(word: &[u8]) -> bool {
    [&b"tau"[..], b"none", b"all"].contains(&word)
}
