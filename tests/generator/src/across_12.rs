//! Labels of names on both sides of 11 and 12. Each has one of a few lower parts,
//! of names up to 11, and one of a few upper parts, of names from 12 on: so some
//! differ only below, some only above, and of some the one with the larger lower
//! part has the smaller upper part, and so the smaller number.

use crate::draft::{doubled, Draft};
use crate::lists::{self, Label};
use crate::names;
use crate::random::Random;
use crate::spread_names::spread;
use crate::well_formed::Writer;

/// What is put over the labels, and how often.
const KINDS: &[(&str, usize)] = &[
    ("comm", 26),
    ("rename", 26),
    ("allow", 16),
    ("hide", 10),
    ("block", 8),
    ("merge", 6),
    ("lmerge", 3),
    ("sync", 3),
    ("choice", 4),
];

/// Those of them that do not grow from round to round for ever.
const KINDS_WITH_A_LIST: usize = 5;

pub fn record(random: &mut Random) -> Vec<u8> {
    let count = Some(names::count(random)).filter(|count| *count > 12);
    let count = count.unwrap_or_else(|| random.within(13..=24));
    let (record, upper) = if random.chance(4) {
        (with_full_count(random), 1)
    } else {
        let sides = (random.within(1..=3), random.within(1..=3.min(count - 12)));
        (with_labels(random, sides), sides.1)
    };
    spread(random, &record, upper, count)
}

/// Labels of so many lower and upper names, and what is put over them or over a
/// reference to them.
fn with_labels(random: &mut Random, sides: (usize, usize)) -> Vec<u8> {
    let equations = usize::from(random.chance(25));
    let mut writer = Writer::new(names::any(random, sides.0 + sides.1), equations);
    add_labels(random, &mut writer, sides);
    let base = writer.last();
    let kinds = if equations > 0 { &KINDS[..KINDS_WITH_A_LIST] } else { KINDS };
    if equations > 0 {
        writer.add_ref_to(0, base);
    }
    for _ in 0..random.weighted(&[(1, 45), (2, 35), (3, 20)]) {
        let kind = random.weighted(kinds);
        put_over(random, &mut writer, kind, sides);
    }
    if equations > 0 {
        let later = writer.last();
        writer.add_of_two(random, "choice", base, later);
    }
    let root = writer.last();
    writer.finish_with(random, vec![root; equations], root).bytes()
}

/// About 31 actions of a lower name, and one of an upper name.
fn with_full_count(random: &mut Random) -> Vec<u8> {
    let mut draft = Draft::with_letters(2);
    let lower = draft.act(0);
    let many = random.within(29..=34);
    let many = doubled(lower, many, &mut |left, right| draft.two("sync", left, right));
    let upper = draft.act(1);
    draft.two(random.pick(&["choice", "merge", "sync"]), many, upper);
    draft.bytes()
}

/// A choice of labels, each of a lower and an upper part.
fn add_labels(random: &mut Random, writer: &mut Writer, (lower, upper): (usize, usize)) {
    let below = add_parts(random, writer, lower, |part| [part, vec![0; upper]].concat());
    let above = add_parts(random, writer, upper, |part| [vec![0; lower], part].concat());
    let both = below.iter().flat_map(|one| above.iter().map(move |other| (*one, *other)));
    let mut all: Option<usize> = None;
    for (one, other) in both {
        if random.chance(25) {
            continue;
        }
        writer.add_of_two(random, "sync", one, other);
        if let Some(all) = all {
            let label = writer.last();
            writer.add_of_two(random, "choice", all, label);
        }
        all = Some(writer.last());
    }
}

/// Terms for two or three labels of so many names, and now and then for none.
fn add_parts(
    random: &mut Random,
    writer: &mut Writer,
    names: usize,
    whole: impl Fn(Label) -> Label,
) -> Vec<usize> {
    let mut parts = Vec::new();
    for _ in 0..random.within(2..=3) {
        if random.chance(15) {
            writer.add_leaf(random, "tau");
        } else {
            writer.add_multi_action(&whole(lists::label(random, names, 1..=3)));
        }
        parts.push(writer.last());
    }
    parts
}

fn put_over(random: &mut Random, writer: &mut Writer, kind: &str, sides: (usize, usize)) {
    let top = writer.last();
    match kind {
        "rename" if random.chance(35) => {
            let pairs = exchange(random, writer.names(), sides);
            writer.add_list(random, kind, top, &pairs);
        }
        "comm" | "rename" | "allow" | "hide" | "block" => writer.add_with_list(random, kind, top),
        _ => {
            let other = random.below(top + 1);
            writer.add_of_two(random, kind, top, other);
        }
    }
}

/// A lower and an upper name for each other, mostly those next to each other.
fn exchange(random: &mut Random, names: &[String], (lower, upper): (usize, usize)) -> String {
    let is_next = random.chance(70);
    let below = if is_next { lower - 1 } else { random.below(lower) };
    let above = lower + if is_next { 0 } else { random.below(upper) };
    format!("{0}>{1},{1}>{0}", names[below], names[above])
}
