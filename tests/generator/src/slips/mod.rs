//! Slips that a hand at the bench makes in a well-formed description.

mod of_bytes;
mod of_lines;
mod of_lists;
mod of_tokens;

use crate::across_12;
use crate::draft::ended;
use crate::many_names;
use crate::random::Random;
use crate::spread_names;
use crate::well_formed;

type Lines = Vec<Vec<u8>>;

/// A well-formed description with one to three slips.
pub fn record(random: &mut Random) -> Vec<u8> {
    let lines = well_formed::draft(random).lines();
    with_slips(random, lines)
}

/// The same with up to 24 names.
pub fn with_more_names(random: &mut Random) -> Vec<u8> {
    let record = match random.below(10) {
        0..=4 => spread_names::record(random),
        5..=6 => across_12::record(random),
        _ => many_names::record(random),
    };
    let whole = record.strip_suffix(b"\n").unwrap_or(&record);
    with_slips(random, whole.split(|byte| *byte == b'\n').map(<[u8]>::to_vec).collect())
}

fn with_slips(random: &mut Random, mut lines: Lines) -> Vec<u8> {
    for _ in 0..random.weighted(&[(1, 60), (2, 25), (3, 15)]) {
        make(random, &mut lines);
    }
    let mut text = ended(&lines);
    if random.chance(4) {
        of_bytes::in_text(random, &mut text);
    }
    text
}

/// A sort of slips, and how often it is made.
type Sort = (fn(&mut Random, &mut Lines), usize);

/// Makes one slip somewhere in the lines.
pub fn make(random: &mut Random, lines: &mut Lines) {
    let sorts: [Sort; 7] = [
        (of_lines::in_order, 8),
        (of_lines::of_terms, 16),
        (of_bytes::in_line, 8),
        (of_tokens::in_number, 24),
        (of_tokens::in_word, 26),
        (of_tokens::in_mark, 5),
        (of_lists::in_list, 40),
    ];
    random.weighted(&sorts)(random, lines);
}

/// Makes one slip in a single entry of a list.
pub fn in_entry(random: &mut Random, entry: &str) -> String {
    let mut lines = vec![entry.as_bytes().to_vec()];
    let sorts: [Sort; 3] =
        [(of_tokens::in_number, 3), (of_tokens::in_word, 3), (of_tokens::in_mark, 1)];
    random.weighted(&sorts)(random, &mut lines);
    String::from_utf8(lines.remove(0)).expect("slips in tokens keep to letters")
}

/// One of the lines; no slip leaves none at all.
fn any_line<'a>(random: &mut Random, lines: &'a mut Lines) -> &'a mut Vec<u8> {
    let place = random.below(lines.len());
    &mut lines[place]
}
