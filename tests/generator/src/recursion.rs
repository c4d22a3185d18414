//! Recursion through each operator, from a few rounds up to many hundreds.

use crate::draft::{Draft, GROWING};
use crate::lists::Lists;
use crate::names;
use crate::random::Random;
use crate::well_formed::{list_for, order};

pub const UNIONS: &[&str] = &["choice", "ifelse", "seq"];
const SHRINKING: &[&str] = &["block", "hide", "allow"];
const OPERATORS: &[&str] = &[
    "sum", "cond", "choice", "ifelse", "seq", "merge", "lmerge", "sync", "block", "hide", "rename",
    "comm", "allow",
];

/// Every equation is something at once, or what one to three operators make
/// of a reference.
pub fn record(random: &mut Random) -> Vec<u8> {
    let name_count = random.within(1..=4);
    let equations = random.within(1..=4);
    let mut draft = Draft::new(names::any(random, name_count));
    for _ in 0..equations {
        let at_once = add_multi_action(random, &mut draft);
        let mut later = draft.one("ref", random.below(equations));
        for _ in 0..random.within(1..=3) {
            let operator = random.pick(OPERATORS);
            later = apply(random, &mut draft, operator, later);
        }
        let body = draft.two(random.pick(UNIONS), at_once, later);
        draft.bodies.push(body);
    }
    draft.one("ref", random.below(equations));
    if random.chance(40) {
        let operator = random.pick(OPERATORS);
        let root = draft.root;
        apply(random, &mut draft, operator, root);
    }
    draft.order = order(random, &draft.names, &[]);
    draft.bytes()
}

/// A term whose set is one small label, seldom none.
fn add_multi_action(random: &mut Random, draft: &mut Draft) -> usize {
    match random.below(100) {
        0..=9 => return draft.add(String::from("tau")),
        10..=12 => return draft.add(String::from("delta")),
        _ => (),
    }
    let first = draft.act(random.below(draft.names.len()));
    if random.chance(60) {
        return first;
    }
    let second = add_multi_action(random, draft);
    draft.two("sync", first, second)
}

/// The operator on the operand. What grows is mostly held back at once, since
/// it would grow past a limit round by round.
fn apply(random: &mut Random, draft: &mut Draft, operator: &str, operand: usize) -> usize {
    if matches!(operator, "sum" | "cond") {
        return draft.one(operator, operand);
    }
    if UNIONS.contains(&operator) || GROWING.contains(&operator) {
        let other = random.below(draft.terms.len());
        let sides = if random.chance(50) { (operand, other) } else { (other, operand) };
        let joined = draft.two(operator, sides.0, sides.1);
        if UNIONS.contains(&operator) || random.chance(25) {
            return joined;
        }
        let shrinking = random.pick(SHRINKING);
        let list = list_for(random, shrinking, &draft.names, &[]);
        return draft.with_list(shrinking, joined, &list);
    }
    let list = list_for(random, operator, &draft.names, &[]);
    draft.with_list(operator, operand, &list)
}

/// Lengths of rings that the names are put in; a label with one action in
/// each ring comes back after as many turns as their least common multiple.
const RINGS: &[&[usize]] = &[
    &[2],
    &[3],
    &[2, 3],
    &[5],
    &[3, 4],
    &[3, 5],
    &[4, 5],
    &[3, 7],
    &[4, 7],
    &[2, 3, 5],
    &[5, 7],
    &[2, 3, 7],
    &[3, 4, 5],
];

/// A label that is turned by one place in each round, through references that
/// each take a round more.
pub fn turning(random: &mut Random) -> Vec<u8> {
    let delays = if random.chance(15) { random.within(5..=16) } else { random.within(1..=4) };
    let rings = random.pick(RINGS);
    let mut draft = Draft::with_letters(rings.iter().sum());
    let seed = add_seed(random, &mut draft, rings);
    let back = draft.one("ref", delays - 1);
    let turned = draft.with_list("rename", back, &turn(rings));
    let body = draft.two(random.pick(UNIONS), seed, turned);
    delay(random, &mut draft, body, delays);
    draft.order = order(random, &draft.names, &[]);
    draft.bytes()
}

/// Two orbits of 60 labels, the second begun by the last label of the first:
/// with the references in between, 1,000 rounds and more.
pub fn turning_for_long(random: &mut Random) -> Vec<u8> {
    let rings = &[3, 4, 5];
    let delays = random.within(9..=13);
    let mut draft = Draft::with_letters(12);
    let ones: Vec<usize> = [0, 3, 7].iter().map(|name| draft.act(*name)).collect();
    let two = draft.two("sync", ones[0], ones[1]);
    let seed = draft.two("sync", two, ones[2]);
    let back = draft.one("ref", delays - 1);
    let turned = draft.with_list("rename", back, &turn(rings));
    let last = draft.with_list("allow", back, "c:1.g:1.l:1");
    let next = ones[random.below(3)];
    let second = draft.side_by_side(random, last, next);
    let either = draft.two(random.pick(UNIONS), seed, second);
    let body = draft.two(random.pick(UNIONS), either, turned);
    delay(random, &mut draft, body, delays);
    draft.order = Lists::new(&draft.names, &[]).labels(random, 32);
    draft.bytes()
}

/// One action in each ring, some of them twice.
fn add_seed(random: &mut Random, draft: &mut Draft, rings: &[usize]) -> usize {
    let mut first_name = 0;
    let mut seed = None;
    for length in rings {
        let act = draft.act(first_name + random.below(*length));
        let part = if random.chance(20) { draft.two("sync", act, act) } else { act };
        seed = Some(seed.map_or(part, |seed| draft.two("sync", seed, part)));
        first_name += length;
    }
    seed.expect("there is a ring")
}

/// Every name to the next one of its ring.
fn turn(rings: &[usize]) -> String {
    let all = names::letters(rings.iter().sum());
    let mut pairs = Vec::new();
    for length in rings {
        let first = pairs.len();
        for place in 0..*length {
            let next = first + (place + 1) % length;
            pairs.push(format!("{}>{}", all[first + place], all[next]));
        }
    }
    pairs.join(",")
}

/// Equation 0 has the body, and each further one refers to the one before.
fn delay(random: &mut Random, draft: &mut Draft, body: usize, delays: usize) {
    draft.bodies.push(body);
    for before in 0..delays - 1 {
        let link = draft.one("ref", before);
        draft.bodies.push(link);
    }
    draft.root = if random.chance(50) { body } else { draft.root };
}

/// One action more in each round, up to a label that is no longer allowed.
pub fn climbing(random: &mut Random) -> Vec<u8> {
    let delays = random.within(1..=8);
    let top = random.within(2..=31);
    let step = random.within(1..=2);
    let mut draft = Draft::with_letters(2);
    let act = draft.act(0);
    let more = if step == 1 { act } else { draft.two("sync", act, act) };
    let back = draft.one("ref", delays - 1);
    let grown = draft.side_by_side(random, more, back);
    let steps: Vec<String> = (1..=top).map(|count| format!("a:{}", count)).collect();
    let held = draft.with_list("allow", grown, &steps.join(","));
    let body = draft.two(random.pick(UNIONS), more, held);
    delay(random, &mut draft, body, delays);
    draft.order = order(random, &draft.names, &[]);
    draft.bytes()
}
