//! Entries and parts of lists lost, put twice, swapped or replaced.

use super::Lines;
use crate::random::Random;

const WHOLE_LISTS: &[&str] =
    &["none", "all", "tau", "", "tau:1", "none:1", "all:1", "a", "0", "zz:1"];

const FURTHER: &[&str] = &[
    "zz", "zz:1", "tau", "tau:1", "none", "all:1", "a", "a:1", "a:0", "a:32", "a:31", "a>b",
    "a:2>b", "a:1>b", "zz:2>a", "a:2>zz", "a:1.b:1", "b:1.a:1", "A", "a:01", "",
];

pub fn in_list(random: &mut Random, lines: &mut Lines) {
    let with_list: Vec<usize> = (0..lines.len()).filter(|place| has_list(&lines[*place])).collect();
    if with_list.is_empty() {
        return super::of_tokens::in_word(random, lines);
    }
    let line = &mut lines[random.pick(&with_list)];
    let start = list_start(line);
    let list = String::from_utf8_lossy(&line[start..]).into_owned();
    // Mostly the entries are meant, now and then the parts of the labels.
    let separator = if random.chance(70) { "," } else { "." };
    let changed = changed(random, &list, separator);
    line.splice(start.., changed.into_bytes());
}

fn has_list(line: &[u8]) -> bool {
    let kinds: [&[u8]; 6] =
        [b"term=block ", b"term=hide ", b"term=rename ", b"term=comm ", b"term=allow ", b"order="];
    kinds.iter().any(|kind| line.starts_with(kind))
}

fn list_start(line: &[u8]) -> usize {
    let mark = if line.starts_with(b"order=") { b'=' } else { b' ' };
    line.iter().rposition(|byte| *byte == mark).map_or(0, |place| place + 1)
}

fn changed(random: &mut Random, list: &str, separator: &str) -> String {
    let mut entries: Vec<&str> = list.split(separator).collect();
    let place = random.below(entries.len());
    let other = random.below(entries.len());
    match random.below(10) {
        0..=1 => entries.swap(place, other),
        2 => entries.insert(place, entries[other]),
        3 => entries.push(entries[other]),
        4 => drop(entries.remove(place)),
        5 => entries.push(random.pick(FURTHER)),
        6 => entries.insert(place, random.pick(FURTHER)),
        7 => entries[place] = random.pick(FURTHER),
        8 => entries = vec![random.pick(WHOLE_LISTS)],
        _ => entries.reverse(),
    }
    entries.join(separator)
}
