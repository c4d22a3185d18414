//! Descriptions whose runs can all be followed: small ones of the kinds with an
//! exact list, and as many that have one kind more, of which the list may hold
//! what no run shows.

use crate::names;
use crate::random::Random;
use crate::well_formed::Writer;

/// How often each kind with an exact list is written over what is there.
const EXACT: &[(&str, usize)] = &[
    ("act", 6),
    ("tau", 6),
    ("sum", 4),
    ("cond", 4),
    ("choice", 8),
    ("ifelse", 6),
    ("seq", 14),
    ("merge", 14),
    ("hide", 8),
    ("rename", 8),
    ("comm", 14),
];

const OTHERS: &[&str] = &["delta", "ref", "block", "allow", "sync", "lmerge"];

/// How a term without an operand is joined to what is there.
const JOINING: &[&str] = &["seq", "seq", "merge", "choice"];

pub fn record(random: &mut Random) -> Vec<u8> {
    let other = random.chance(50).then(|| random.pick(OTHERS));
    // An equation that nothing refers to leaves a list exact.
    let equations = usize::from(other == Some("ref") || random.chance(10));
    let name_count = random.within(2..=4);
    let mut writer = Writer::new(names::any(random, name_count), equations);
    for name in 0..name_count {
        writer.note_act(name);
    }
    let count = random.within(3..=9);
    let place = random.below(count / 2 + 1);
    let mut body = 0;
    for number in 0..count {
        if let Some(other) = other.filter(|_| number == place) {
            put_over(random, &mut writer, other);
            body = writer.last();
            put_something_after(random, &mut writer);
        }
        let kind = random.weighted(EXACT);
        put_over(random, &mut writer, kind);
    }
    let root = writer.last();
    // Often the body is the term that has the reference in it, which then never ends.
    let any = random.below(root + 1);
    let bodies = vec![random.pick(&[body, any]); equations];
    writer.finish_with(random, bodies, root).bytes()
}

/// What no run shows mostly comes after what stops the runs.
fn put_something_after(random: &mut Random, writer: &mut Writer) {
    let top = writer.last();
    if random.chance(60) {
        let after = random.below(top + 1);
        writer.add_of_two(random, "seq", top, after);
    }
}

/// Adds a term of some kind that has the last one in it.
fn put_over(random: &mut Random, writer: &mut Writer, kind: &str) {
    let top = writer.last();
    match kind {
        "act" | "tau" | "delta" | "ref" => {
            writer.add_leaf(random, kind);
            let leaf = writer.last();
            let kind = random.pick(JOINING);
            join(random, writer, kind, top, leaf);
        }
        "sum" | "cond" => writer.add_of_one(kind, top),
        "hide" | "rename" | "comm" | "block" | "allow" => writer.add_with_list(random, kind, top),
        _ => {
            let earlier = random.below(top + 1);
            join(random, writer, kind, top, earlier);
        }
    }
}

/// Adds a term of two operands, in either order.
fn join(random: &mut Random, writer: &mut Writer, kind: &str, one: usize, other: usize) {
    let (left, right) = if random.chance(50) { (one, other) } else { (other, one) };
    writer.add_of_two(random, kind, left, right);
}
