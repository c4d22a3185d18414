//! Both sides of each limit of the reading.

use crate::columns;
use crate::draft::{ended, Draft};
use crate::lists::{self, Lists};
use crate::random::Random;
use crate::slips;
use crate::well_formed;

const MOST_BYTES: usize = 8_192;

/// Texts of 8,190 to 8,195 bytes, some much longer: well-formed ones, ones
/// with slips in them, and short ones with something behind the last line.
pub fn bytes(random: &mut Random) -> Vec<u8> {
    let length = match random.below(10) {
        0 => random.within(MOST_BYTES + 1..=2 * MOST_BYTES),
        1..=2 => MOST_BYTES,
        3..=4 => MOST_BYTES + 1,
        _ => random.within(MOST_BYTES - 2..=MOST_BYTES + 3),
    };
    match random.below(5) {
        0 | 1 => well_formed_of(random, length.min(MOST_BYTES + 3)).bytes(),
        2 => {
            let mut lines = well_formed_of(random, length.min(MOST_BYTES + 3)).lines();
            slips::make(random, &mut lines);
            filled(random, ended(&lines), length)
        }
        3 => {
            let short = well_formed::record(random);
            filled(random, short, length)
        }
        _ => filled(random, Vec::new(), length),
    }
}

/// The text, filled up to this length with one byte again and again.
fn filled(random: &mut Random, mut text: Vec<u8>, length: usize) -> Vec<u8> {
    let filling = random.pick(b"\n\0 x0=");
    text.resize(length.max(text.len()), filling);
    text
}

/// A well-formed description of exactly this length: long allow lines, then
/// acts with names of one to eight letters, whose lines have 11 to 18 bytes.
fn well_formed_of(random: &mut Random, length: usize) -> Draft {
    let names = (1..=8).map(|letters| "abcdefgh"[..letters].to_string()).collect();
    let mut draft = Draft::new(names);
    draft.order = well_formed::order(random, &draft.names[..1], &[]);
    for name in 0..8 {
        draft.act(name);
    }
    loop {
        let list = Lists::new(&draft.names, &[]).many_labels(random, 32);
        let operand = random.below(draft.terms.len());
        draft.with_list("allow", operand, &list);
        if draft.bytes().len() + 200 > length {
            draft.drop_last();
            break;
        }
    }
    // The numbers of the terms and of the root have two digits now, and so they
    // have in the end.
    let mut missing = length - draft.bytes().len();
    while missing > 0 {
        let line = if missing > 60 { random.within(11..=18) } else { even_share(missing) };
        draft.act(line - 11);
        missing -= line;
    }
    draft.root = random.within(10..=draft.terms.len() - 1);
    assert_eq!(draft.bytes().len(), length, "the length that was asked for");
    draft
}

/// What the next line has of the bytes that are missing, if as few lines as
/// possible share them.
fn even_share(missing: usize) -> usize {
    let lines = (missing + 17) / 18;
    missing / lines
}

/// 11, 12 or 25 names, 15 to 17 equations, 95 to 97 terms, and none of them.
pub fn counts(random: &mut Random) -> Vec<u8> {
    let mut near = |most: usize, usual: usize| match random.below(8) {
        0 => 0,
        1..=3 => usual,
        _ => random.within(most - 1..=most + 1),
    };
    let (names, equations, terms) = (near(12, 3), near(16, 2), near(96, 5));
    let names = if names > 12 { 25 } else { names };
    let mut draft = Draft::with_letters(names);
    for _ in 0..terms {
        match random.below(3) {
            0 if equations > 0 => draft.one("ref", random.below(equations)),
            1 if names > 0 => draft.act(random.below(names)),
            _ => draft.add(String::from("tau")),
        };
    }
    draft.bodies = (0..equations).map(|_| random.below(terms.max(1))).collect();
    draft.bytes()
}

/// None to 26 names, 99 that are not there, one more or less than is said, and a
/// name that is given twice or may not be given; and a first line with a slip.
pub fn counts_of_names(random: &mut Random) -> Vec<u8> {
    let count = match random.below(10) {
        0..=3 => random.within(0..=26),
        4..=5 => random.within(11..=14),
        _ => random.within(23..=26),
    };
    let mut lines = some_acts(random, count).lines();
    let (one, other) = (random.within(1..=count.max(1)), random.within(1..=count.max(1)));
    match random.below(16) {
        0 => lines[0] = b"names=99".to_vec(),
        1 => lines[0] = format!("names={}", count + 1).into_bytes(),
        2 => lines[0] = format!("names={}", count.saturating_sub(1)).into_bytes(),
        3..=6 => lines[one] = lines[other].clone(),
        7 => lines[one] = random.pick(&["name=tau", "name=none", "name=all"]).into(),
        8 => lines[0] = slips::in_entry(random, &format!("names={}", count)).into_bytes(),
        _ => (),
    }
    ended(&lines)
}

/// So many names, and acts of a few of them, mostly of the last.
fn some_acts(random: &mut Random, names: usize) -> Draft {
    let mut draft = Draft::with_letters(names);
    let mut top = draft.add(String::from("tau"));
    for back in random.several_below(names, 3) {
        let act = draft.act(names - 1 - back / 2);
        top = draft.side_by_side(random, top, act);
    }
    draft
}

/// Lists around their maximum, with or without a fault in one entry, which
/// may stand behind the maximum.
pub fn list_lengths(random: &mut Random) -> Vec<u8> {
    let draft = some_sets(random.within(3..=12));
    with_list_around_maximum(random, draft)
}

/// The same with more names, or with faults that a column tells, or with a long
/// label, or with something that has changed places.
pub fn long_lists(random: &mut Random) -> Vec<u8> {
    let names = random.within(13..=24);
    match random.below(20) {
        0..=5 => with_list_around_maximum(random, some_sets(names)),
        6..=11 => columns::with_names(random, names),
        12..=14 => with_long_label(random, some_sets(names)),
        _ => with_two_exchanged(random, some_sets(names)),
    }
}

/// A list of which two entries next to each other have changed places, those of
/// names 11 and 12 where each name has one; or of which one label has its parts from
/// name 12 on before the others.
fn with_two_exchanged(random: &mut Random, mut draft: Draft) -> Vec<u8> {
    let top = draft.root;
    let kind = random.pick(&["allow", "order", "comm", "block", "hide", "rename"]);
    let mut entries = lists::entries(random, kind, &draft.names, 12, 8);
    let has_labels = ["allow", "order", "comm"].contains(&kind);
    let place = if has_labels { random.below(entries.len() - 1) } else { 11 };
    if has_labels && random.chance(40) {
        entries[place] = with_upper_parts_first(&draft.names, &entries[place]);
    } else {
        entries.swap(place, place + 1);
    }
    draft.place_list(kind, top, &entries.join(","));
    draft.bytes()
}

fn with_upper_parts_first(names: &[String], entry: &str) -> String {
    let (label, rest) = entry.split_at(entry.find('>').unwrap_or(entry.len()));
    let is_upper =
        |part: &&str| names[12..].iter().any(|name| part.split(':').any(|of| of == name));
    let (mut upper, lower): (Vec<&str>, Vec<&str>) = label.split('.').partition(is_upper);
    upper.extend(lower);
    upper.join(".") + rest
}

fn with_list_around_maximum(random: &mut Random, mut draft: Draft) -> Vec<u8> {
    let top = draft.root;
    let kind = random.pick(&["allow", "order", "comm", "block", "hide", "rename"]);
    let names = draft.names.clone();
    let mut entries = lists::entries(random, kind, &names, 34, 10);
    let most = entries.len();
    entries.truncate(most - random.below(5.min(most)));
    if random.chance(50) {
        let faulty = random.below(entries.len());
        entries[faulty] = slips::in_entry(random, &entries[faulty]);
    }
    if random.chance(20) {
        let again = random.pick(&entries);
        entries.push(again);
    }
    if random.chance(5) {
        repeat_up_to(&mut entries, random.within(1_000..=7_500));
    }
    draft.place_list(kind, top, &entries.join(","));
    draft.bytes()
}

/// Labels of 30 to 33 actions, and such whose counts add up to more than a
/// byte holds, in each place where a label is read.
pub fn long_labels(random: &mut Random) -> Vec<u8> {
    let draft = some_sets(random.within(3..=12));
    with_long_label(random, draft)
}

fn with_long_label(random: &mut Random, mut draft: Draft) -> Vec<u8> {
    let top = draft.root;
    let names = draft.names.len();
    let actions = match random.below(4) {
        0 => 254.min(names * 60)..=290.min(names * 60),
        1 => 510.min(names * 60)..=550.min(names * 60),
        _ => 28..=34,
    };
    let label = lists::label(random, names, actions);
    let mut parts: Vec<String> = vec![lists::written(&draft.names, &label)];
    if random.chance(5) {
        repeat_up_to(&mut parts, random.within(1_000..=7_500));
    }
    let written = parts.join(".");
    match random.pick(&["allow", "order", "comm"]) {
        "comm" => {
            let rule = format!("{}>{}", written, random.pick(&draft.names));
            draft.place_list("comm", top, &rule);
        }
        kind => draft.place_list(kind, top, &written),
    }
    draft.bytes()
}

/// Puts the entries down again and again, up to about so many bytes.
fn repeat_up_to(entries: &mut Vec<String>, bytes: usize) {
    let once = entries.clone();
    while entries.iter().map(|entry| entry.len() + 1).sum::<usize>() < bytes {
        entries.extend_from_slice(&once);
    }
}

/// So many names and a term with some labels of the first.
fn some_sets(names: usize) -> Draft {
    let mut draft = Draft::with_letters(names);
    let first = draft.act(0);
    let second = draft.act(1);
    let both = draft.two("merge", first, second);
    draft.two("merge", both, first);
    draft
}
