//! Where in a line a fault begins (request 2026-04). Columns count the bytes of
//! a line from 1.

use super::shapes::{reach, Shape};

/// Of a line without its form (2): the first byte, or the end, with which no
/// line of this key and value goes on. The LF belongs to the form.
pub fn stuck(line: &[u8], key: &'static str, value: &Shape) -> usize {
    reach(line, &[Shape::Word(key), Shape::Word("="), *value, Shape::Word("\n")]) + 1
}

/// The value of a line with one: a count of lines that is out of range (2), a
/// name that is given again (3), a body or a root (4).
pub fn value(line: &[u8]) -> usize {
    behind(line, b'=', 0)
}

/// The first name that is not among those given (3), in the last part of a line.
pub fn unknown_name(line: &[u8], names: &[String]) -> usize {
    let mut column = last_part(line);
    for word in line[column - 1..].split(|byte| !byte.is_ascii_alphanumeric()) {
        let is_name = word.first().map_or(false, u8::is_ascii_lowercase);
        if is_name && !names.iter().any(|name| name.as_bytes() == word) {
            break;
        }
        column += word.len() + 1;
    }
    column
}

/// An operand (4), counted from 0.
pub fn operand(line: &[u8], number: usize) -> usize {
    behind(line, b' ', number)
}

/// An entry of the list (5), counted from 0. Commas stand between entries only.
pub fn entry(line: &[u8], number: usize) -> usize {
    match number {
        0 => last_part(line),
        _ => behind(line, b',', number - 1),
    }
}

/// Behind the last space, or behind the `=` where there is none.
fn last_part(line: &[u8]) -> usize {
    let mark = line.iter().rposition(|byte| [b' ', b'='].contains(byte));
    mark.map_or(1, |place| place + 2)
}

/// Behind the mark with this number, counted from 0.
fn behind(line: &[u8], mark: u8, number: usize) -> usize {
    let mut marks = (0..line.len()).filter(|place| line[*place] == mark);
    marks.nth(number).map_or(1, |place| place + 2)
}
