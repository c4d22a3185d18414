//! Soups of fragments that are all valid somewhere.

use crate::draft::{ended, Draft};
use crate::random::Random;
use crate::set_limits;
use crate::well_formed;

/// The kinds of terms and what usually follows: a number, a name or a list.
const KINDS: &[(&str, &str)] = &[
    ("act", "a"),
    ("tau", ""),
    ("delta", ""),
    ("ref", "0"),
    ("sum", "0"),
    ("cond", "0"),
    ("choice", "0 0"),
    ("ifelse", "0 0"),
    ("seq", "0 0"),
    ("merge", "0 0"),
    ("lmerge", "0 0"),
    ("sync", "0 0"),
    ("block", "0 LIST"),
    ("hide", "0 LIST"),
    ("rename", "0 LIST"),
    ("comm", "0 LIST"),
    ("allow", "0 LIST"),
];

const FRAGMENTS: &[&str] = &[
    "0", "1", "2", "3", "9", "10", "31", "32", "96", "a", "b", "c", "zz", "tau", "none", "all",
    "a:1", "b:1", "c:1", "a:2", "a:1.b:1", "b:1.c:1", "a:31", "a:32", "a:0", "zz:1", "tau:1",
    "a>b", "b>a", "a>a", "a:2>b", "a:1.b:1>c", "b:2>a", "a:1>b", "a,b", "b,a", "a:1,b:1",
    "b:1,a:1", "a>b,b>a", "a:2>b,b:2>c", "a,b,c", "delta", "act", "a:1,a:1.b:1", "none,a:1",
];

const LINES: &[&str] = &[
    "names=1", "names=2", "names=3", "name=a", "name=b", "name=c", "name=tau", "equations=0",
    "equations=1", "terms=1", "terms=2", "terms=3", "term=act a", "term=act b", "term=tau",
    "term=delta", "term=ref 0", "term=sum 0", "term=choice 0 1", "term=sync 0 0", "term=sync 0 1",
    "term=merge 0 1", "term=block 0 a", "term=comm 1 a:2>b", "term=allow 1 a:1,b:1", "equation=0",
    "equation=1", "root=0", "root=1", "root=2", "order=all", "order=none", "order=a:1",
];

pub fn record(random: &mut Random) -> Vec<u8> {
    match random.below(20) {
        0 | 1 => lines_in_any_order(random),
        2 | 3 => parts_of_two(random),
        4 => large_with_more_behind(random),
        _ => terms_of_fragments(random),
    }
}

/// A head and a tail that may be right, and terms put together from
/// fragments: mostly as many as the kind has, not always of the right sort.
fn terms_of_fragments(random: &mut Random) -> Vec<u8> {
    let mut draft = Draft::with_letters(random.within(2..=3));
    draft.act(0);
    draft.act(1);
    for _ in 0..random.within(1..=4) {
        let (kind, usual) = random.pick(KINDS);
        let mut parts = vec![kind];
        for sort in usual.split_whitespace() {
            let is_number = sort == "0" && random.chance(85);
            let fragments = if is_number { &FRAGMENTS[..3] } else { FRAGMENTS };
            parts.push(random.pick(fragments));
        }
        if random.chance(8) {
            parts.truncate(random.within(1..=parts.len()));
            parts.push(random.pick(FRAGMENTS));
        }
        draft.add(parts.join(" "));
    }
    draft.bodies = (0..random.below(3)).map(|_| random.below(3)).collect();
    draft.root = random.below(draft.terms.len() + 1);
    if random.chance(50) {
        draft.order = random.pick(FRAGMENTS).to_string();
    }
    draft.bytes()
}

fn lines_in_any_order(random: &mut Random) -> Vec<u8> {
    let mut lines: Vec<Vec<u8>> =
        (0..random.within(0..=14)).map(|_| random.pick(LINES).as_bytes().to_vec()).collect();
    if random.chance(70) {
        let head = ["names=2", "name=a", "name=b", "equations=1", "terms=3"];
        lines.splice(..0, head.iter().map(|line| line.as_bytes().to_vec()));
    }
    ended(&lines)
}

/// A description that may be too large, with something behind its last line.
fn large_with_more_behind(random: &mut Random) -> Vec<u8> {
    let mut text = set_limits::actions_of_a_label(random);
    text.extend_from_slice(random.pick(LINES).as_bytes());
    text.push(b'\n');
    text
}

/// The beginning of one description and the end of another.
fn parts_of_two(random: &mut Random) -> Vec<u8> {
    let mut first = well_formed::draft(random).lines();
    let second = well_formed::draft(random).lines();
    first.truncate(random.below(first.len()));
    let from = random.below(second.len()).min(first.len());
    first.extend_from_slice(&second[from..]);
    ended(&first)
}
