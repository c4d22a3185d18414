//! Syncs of terms of every kind: of multi-actions, which have the product alone,
//! and of whole processes, which have both sides as well; over deadlocks, within
//! one another and in recursions. Now and then an operand is out of range.

use crate::draft::Draft;
use crate::random::Random;
use crate::recursion::UNIONS;
use crate::well_formed::order;

/// Terms of each kind; P and Q stand for the numbers of earlier terms. What adds
/// little is there more often, since syncs of much soon pass a limit.
const KINDS: &[&str] = &[
    "act a", "act b", "tau", "tau", "delta", "delta", "delta", "ref 0", "ref 1", "sum P", "sum P",
    "cond P", "cond P", "choice P Q", "ifelse P Q", "seq P Q", "merge P Q", "lmerge P Q",
    "block P a", "hide P a", "hide P b", "rename P a>b", "comm P a:2>b", "allow P a:1",
    "allow P a:1,a:2,b:1",
];

pub fn record(random: &mut Random) -> Vec<u8> {
    let mut draft = match random.below(10) {
        0..=6 => of_every_kind(random),
        7 => of_sequences(random),
        _ => one_over_another(random),
    };
    if random.chance(8) {
        put_out_of_range(random, &mut draft);
    }
    draft.order = order(random, &draft.names, &[]);
    draft.bytes()
}

fn of_every_kind(random: &mut Random) -> Draft {
    let mut draft = Draft::with_letters(random.within(2..=3));
    draft.act(0);
    if random.chance(60) {
        // What a sync with a deadlock has left tells of which sort it is.
        draft.add(String::from("delta"));
    }
    for _ in 0..random.within(3..=14) {
        let is_sync = random.chance(45);
        let of_multi_actions = is_sync && random.chance(45);
        let kind = if is_sync { "sync P Q" } else { random.pick(KINDS) };
        let operand = operand(random, &draft, of_multi_actions);
        let other = self::operand(random, &draft, of_multi_actions);
        draft.add(kind.replace('P', &operand).replace('Q', &other));
    }
    let terms = draft.terms.len();
    draft.bodies = (0..2).map(|_| random.below(terms)).collect();
    draft.root = terms - 1 - random.below(3);
    draft
}

/// The number of an earlier term, the lower ones more often: they hold less.
fn operand(random: &mut Random, draft: &Draft, is_multi_action: bool) -> String {
    let mut terms: Vec<usize> = (0..draft.terms.len()).collect();
    if is_multi_action {
        terms.retain(|term| draft.is_multi_action(*term));
    }
    let tries = random.within(1..=2);
    let chosen = (0..tries).map(|_| random.pick(&terms)).min();
    chosen.expect("there is a term").to_string()
}

/// A controller and what it is in step with: two sequences, which may begin
/// again, and some more steps that are in step with both.
fn of_sequences(random: &mut Random) -> Draft {
    let mut draft = Draft::with_letters(random.within(2..=5));
    let left = add_sequence(random, &mut draft, 0);
    let right = add_sequence(random, &mut draft, 1);
    draft.bodies = vec![left, right];
    let mut all = draft.two("sync", left, right);
    for _ in 0..random.below(3) {
        let act = draft.act(random.below(draft.names.len()));
        all = draft.two("sync", all, act);
    }
    draft
}

fn add_sequence(random: &mut Random, draft: &mut Draft, equation: usize) -> usize {
    let mut all = draft.act(random.below(draft.names.len()));
    for _ in 0..random.below(4) {
        let next = draft.act(random.below(draft.names.len()));
        all = draft.two(random.pick(UNIONS), all, next);
    }
    if random.chance(40) {
        let again = draft.one("ref", equation);
        all = draft.two("seq", all, again);
    }
    all
}

/// Many syncs, each over the one before and a tau or a deadlock, or twice over
/// the one before: whoever walks through all of that never comes to an end.
fn one_over_another(random: &mut Random) -> Draft {
    let mut draft = Draft::with_letters(2);
    let still = draft.add(String::from(random.pick(&["tau", "delta"])));
    let has_action = random.chance(60);
    let mut top = if has_action { draft.act(0) } else { still };
    top = match random.below(6) {
        0 => draft.one("sum", top),
        1 => draft.one("cond", top),
        2 => draft.one("ref", 0),
        _ => top,
    };
    for _ in 0..random.within(2..=88) {
        let sides = match random.below(3) {
            0 if !has_action => (top, top),
            1 => (still, top),
            _ => (top, still),
        };
        top = draft.two("sync", sides.0, sides.1);
    }
    let act = draft.act(1);
    draft.two("sync", top, act);
    draft.bodies = vec![random.pick(&[still, top])];
    draft
}

/// Gives some sync an operand that does not come before it.
fn put_out_of_range(random: &mut Random, draft: &mut Draft) {
    let terms = 0..draft.terms.len();
    let syncs: Vec<usize> = terms.filter(|term| draft.terms[*term].starts_with("sync ")).collect();
    if let Some(term) = syncs.get(random.below(syncs.len().max(1))) {
        let operand = random.below(*term);
        let beyond = term + random.below(3);
        let sides = if random.chance(50) { (operand, beyond) } else { (beyond, operand) };
        draft.terms[*term] = format!("sync {} {}", sides.0, sides.1);
    }
}
