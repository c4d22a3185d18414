//! Descriptions that use more than twelve names: labels with many parts, sets of
//! many labels with few, and long lists of names and pairs.

use crate::lists::{self, Lists};
use crate::names;
use crate::random::Random;
use crate::well_formed::Writer;

const KINDS: &[&str] =
    &["block", "hide", "hide", "rename", "rename", "rename", "comm", "comm", "allow"];

pub fn record(random: &mut Random) -> Vec<u8> {
    let count = random.within(13..=24);
    let names = if random.chance(20) { names::long(count) } else { names::any(random, count) };
    let mut writer = Writer::new(names, 0);
    if random.chance(50) {
        add_reports(random, &mut writer);
    } else {
        add_long_label(random, &mut writer);
    }
    for _ in 0..random.within(1..=3) {
        let (kind, top) = (random.pick(KINDS), writer.last());
        let list = long_list(random, kind, writer.lists_over(top));
        writer.add_list(random, kind, top, &list);
    }
    let root = writer.last();
    writer.finish_with(random, Vec::new(), root).bytes()
}

/// One of many names, and often two at once.
fn add_reports(random: &mut Random, writer: &mut Writer) {
    let names = writer.names().len();
    let reports = random.within(6..=names);
    let reports = random.several_below(names, reports);
    writer.note_act(reports[0]);
    for name in &reports[1..] {
        let before = writer.last();
        writer.note_act(*name);
        writer.add_of_two(random, "choice", before, before + 1);
    }
    if random.chance(50) {
        let top = writer.last();
        writer.add_of_two(random, "merge", top, top);
    }
}

/// Many actions at once, and one more beside them.
fn add_long_label(random: &mut Random, writer: &mut Writer) {
    let names = writer.names().len();
    writer.add_multi_action(&lists::label(random, names, 13..=29));
    let top = writer.last();
    writer.note_act(random.below(names));
    let kind = random.pick(&["choice", "merge", "sync"]);
    writer.add_of_two(random, kind, top, top + 1);
}

fn long_list(random: &mut Random, kind: &str, lists: Lists) -> String {
    match kind {
        "rename" => lists.pairs_up_to(random, 24),
        "comm" => lists.rules(random, 8),
        "allow" => lists.labels(random, 32),
        _ => lists.plain_names_up_to(random, 24),
    }
}
