//! Numbers, words and marks that are not the ones meant.

use super::{any_line, Lines};
use crate::random::Random;
use std::ops::Range;

#[derive(Clone, Copy, PartialEq, Eq)]
enum Sort {
    Number,
    Word,
    Mark,
}

pub fn in_number(random: &mut Random, lines: &mut Lines) {
    replace(random, lines, Sort::Number, |random, number, _| {
        let value: usize = number.parse().unwrap_or(0);
        match random.below(14) {
            0..=2 => (value + 1).to_string(),
            3..=4 => value.saturating_sub(1).to_string(),
            5..=6 => random.below(20).to_string(),
            7 => format!("0{}", number),
            8 => format!("{}0", number),
            9 => random.pick(&["0", "1", "31", "32"]).to_string(),
            10 => random.pick(&["16", "17", "96", "97", "99", "12", "13"]).to_string(),
            11 => random.pick(&["100", "00", "007", "256", "4294967296"]).to_string(),
            12 => random.pick(&["", "-1", "+1", "x", "a", "1.5", "one"]).to_string(),
            _ => number.chars().rev().collect(),
        }
    });
}

const OTHER_WORDS: &[&str] = &[
    "zz", "abcdefgh", "abcdefghi", "tau", "none", "all", "delta", "ref", "sum", "choice", "merge",
    "sync", "comm", "allow", "act", "a", "b", "c", "name", "names", "term", "terms", "",
];

pub fn in_word(random: &mut Random, lines: &mut Lines) {
    replace(random, lines, Sort::Word, |random, word, others| {
        let place = random.below(word.len());
        match random.below(12) {
            0..=3 => random.pick(others),
            4..=6 => random.pick(OTHER_WORDS).to_string(),
            7 => word[..1].to_uppercase() + &word[1..],
            8 => word.to_uppercase(),
            9 => format!("{}{}", &word[..place], &word[place + 1..]),
            10 => format!("{}{}", &word[..=place], &word[place..]),
            _ => random.pick(&["1WORD", "WORD_", "WORDx", "WORD1", "xWORD"]).replace("WORD", word),
        }
    });
}

pub fn in_mark(random: &mut Random, lines: &mut Lines) {
    const MARKS: &[&str] =
        &["", " ", "  ", ",", ", ", ";", ":", "::", ".", "..", ">", "->", "=>", "=", " = ", "\t"];
    replace(random, lines, Sort::Mark, |random, mark, _| match random.below(3) {
        0 => mark.repeat(2),
        _ => random.pick(MARKS).to_string(),
    });
}

/// Replaces one token of this sort in some line by what `other` makes of it
/// and of the words of all lines.
fn replace(
    random: &mut Random,
    lines: &mut Lines,
    sort: Sort,
    other: impl Fn(&mut Random, &str, &[String]) -> String,
) {
    let words: Vec<String> = lines
        .iter()
        .flat_map(|line| tokens(line, Sort::Word).into_iter().map(|range| text(line, range)))
        .collect();
    // Not every line has a token of each sort; a few attempts find one.
    for _ in 0..8 {
        let line = any_line(random, lines);
        let found = tokens(line, sort);
        if !found.is_empty() {
            // The first word of a line is its key; the others matter more.
            let first = usize::from(sort == Sort::Word && found.len() > 1 && random.chance(75));
            let range = random.pick(&found[first..]);
            let replacement = other(random, &text(line, range.clone()), &words);
            line.splice(range, replacement.into_bytes());
            return;
        }
    }
}

fn text(line: &[u8], range: Range<usize>) -> String {
    String::from_utf8_lossy(&line[range]).into_owned()
}

/// Where the tokens of this sort are: runs of digits, words that begin with a
/// letter, and single other bytes.
fn tokens(line: &[u8], sort: Sort) -> Vec<Range<usize>> {
    let mut found = Vec::new();
    let mut start = 0;
    while start < line.len() {
        let of_word = |byte: &u8| byte.is_ascii_lowercase() || byte.is_ascii_digit();
        let (own_sort, length) = match line[start] {
            b'0'..=b'9' => (Sort::Number, run(&line[start..], u8::is_ascii_digit)),
            b'a'..=b'z' => (Sort::Word, run(&line[start..], of_word)),
            _ => (Sort::Mark, 1),
        };
        if own_sort == sort && line[start].is_ascii() {
            found.push(start..start + length);
        }
        start += length;
    }
    found
}

fn run(bytes: &[u8], belongs: impl Fn(&u8) -> bool) -> usize {
    bytes.iter().take_while(|byte| belongs(byte)).count()
}
