//! Long lists with one to three faults, in the entries where a column is easily
//! told wrong: the first, the second, one in the middle, the last. Mostly the
//! faults of a line have one number, else several in any order.

use crate::draft::Draft;
use crate::lists;
use crate::names;
use crate::random::Random;

const KINDS: &[&str] = &["allow", "order", "comm", "block", "hide", "rename"];

const UNKNOWN: &[&str] = &["zz", "tau", "none", "all", "q", "abcdefgh", "zz9", "alll"];

/// What makes a right entry one without its form when it is put behind it.
const FURTHER: &[&str] = &["A", ":", ".", ">", ":1", ">a", " ", "0000", "abcdefgh", "_", ".x", ","];

pub fn record(random: &mut Random) -> Vec<u8> {
    let count = random.within(4..=12);
    with_names(random, count)
}

pub fn with_names(random: &mut Random, count: usize) -> Vec<u8> {
    let mut draft = Draft::new(names::any(random, count));
    let (first, second) = (draft.act(0), draft.act(1));
    let mut operand = draft.two("merge", first, second);
    let kind = random.pick(KINDS);
    let most_labels = random.within(28..=33);
    let most_rules = random.within(5..=9);
    let mut entries = lists::entries(random, kind, &draft.names, most_labels, most_rules);
    let usual = random.pick(&[2, 3, 3, 4, 5, 5]);
    for _ in 0..random.weighted(&[(1, 30), (2, 50), (3, 20)]) {
        let number = if random.chance(70) { usual } else { random.within(2..=5) };
        if number == 4 {
            operand = random.pick(&[draft.terms.len(), 99]);
        } else {
            make_fault(random, number, &mut entries);
        }
    }
    draft.place_list(kind, operand, &entries.join(","));
    ended_well_or_not(random, draft.bytes())
}

fn make_fault(random: &mut Random, number: usize, entries: &mut [String]) {
    let last = entries.len() - 1;
    let place = random.pick(&[0, 1.min(last), last / 2, last]);
    let entry = entries[place].as_str();
    entries[place] = match number {
        2 => out_of_form(random, entry),
        3 => with_token(random, entry, u8::is_ascii_lowercase, UNKNOWN),
        _ if random.chance(50) && entry.contains(':') => {
            with_token(random, entry, u8::is_ascii_digit, &["0", "32", "99"])
        }
        _ if random.chance(30) => with_parts_turned(entry),
        _ => entries[random.below(place.max(1))].clone(),
    };
}

/// The parts of a label, or of the left side of a rule, the last one first.
fn with_parts_turned(entry: &str) -> String {
    let (label, rest) = entry.split_at(entry.find('>').unwrap_or(entry.len()));
    label.split('.').rev().collect::<Vec<_>>().join(".") + rest
}

fn out_of_form(random: &mut Random, entry: &str) -> String {
    let place = random.below(entry.len() + 1);
    match random.below(5) {
        0 => String::from(&entry[..place]),
        1 => String::from(&entry[place..]),
        2 => format!("{}{}{}", &entry[..place], random.pick(FURTHER), &entry[place..]),
        _ => format!("{}{}", entry, random.pick(FURTHER)),
    }
}

/// One name or one number of the entry replaced, by what it begins with.
fn with_token(random: &mut Random, entry: &str, is_first: fn(&u8) -> bool, by: &[&str]) -> String {
    let is_mark = |byte: char| !byte.is_ascii_alphanumeric();
    let mut tokens: Vec<String> = entry.split_inclusive(is_mark).map(String::from).collect();
    let found = |token: &String| token.as_bytes().first().map_or(false, is_first);
    let places: Vec<usize> = (0..tokens.len()).filter(|place| found(&tokens[*place])).collect();
    if !places.is_empty() {
        let token = &mut tokens[random.pick(&places)];
        let mark = token.find(is_mark).map_or(String::new(), |place| token[place..].to_string());
        *token = format!("{}{}", random.pick(by), mark);
    }
    tokens.concat()
}

/// Now and then the last LF is missing, or something follows it.
fn ended_well_or_not(random: &mut Random, mut text: Vec<u8>) -> Vec<u8> {
    match random.below(20) {
        0 => drop(text.pop()),
        1 => text.push(random.pick(b"\n x=o\0")),
        _ => {}
    }
    text
}
