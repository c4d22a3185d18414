//! Single bytes lost, put twice, swapped or mistyped.

use super::{any_line, Lines};
use crate::random::Random;

/// What a keyboard, an editor or a broken file puts in.
const TYPED: &[u8] = b"abzABZ0139:.,>=_-;\"' \t\r\0\x7f\xc3\xff#+*";

pub fn in_line(random: &mut Random, lines: &mut Lines) {
    let line = any_line(random, lines);
    if line.is_empty() {
        return;
    }
    let place = random.below(line.len());
    let other = random.below(line.len());
    let typed = random.pick(TYPED);
    match random.below(8) {
        0 => drop(line.remove(place)),
        1 => line.insert(place, line[place]),
        2 => line.swap(place, other),
        3 => line[place] = typed,
        4 => line.insert(place, typed),
        5 => line.push(typed),
        6 => line[place] = line[place].to_ascii_uppercase(),
        _ => line.truncate(place),
    }
}

/// Slips of the text as a whole.
pub fn in_text(random: &mut Random, text: &mut Vec<u8>) {
    match random.below(6) {
        0 => drop(text.pop()),
        1 => text.truncate(random.below(text.len() + 1)),
        2 => text.push(random.pick(TYPED)),
        3 => text.extend(b"\n"),
        4 => drop(text.splice(..0, *b"\xef\xbb\xbf")),
        _ => *text = text.iter().flat_map(with_carriage_return).collect(),
    }
}

fn with_carriage_return(byte: &u8) -> Vec<u8> {
    if *byte == b'\n' {
        vec![b'\r', b'\n']
    } else {
        vec![*byte]
    }
}
