//! The set of each kind of term, the rounds and the cut to the order.

use super::{answered, Case};

/// Terms (the last is the root), bodies, rounds and labels.
pub type Row = (&'static [&'static str], &'static [usize], usize, &'static str);

pub fn check(rows: &[Row]) {
    check_with(&["a", "b", "c", "d"], rows);
}

pub fn check_with(names: &[&str], rows: &[Row]) {
    for (terms, bodies, rounds, labels) in rows {
        let root = terms.len() - 1;
        let case = Case { names, terms, bodies, root, order: "all" };
        assert_eq!(case.text(), answered(*rounds, labels), "{:?} {:?}", terms, bodies);
    }
}

#[test]
fn kinds_without_a_list() {
    check(&[
        (&["act b"], &[], 1, "b:1"),
        (&["tau"], &[], 1, "tau"),
        (&["delta"], &[], 1, ""),
        (&["act a", "ref 0"], &[0], 2, "a:1"),
        (&["act a", "sum 0"], &[], 1, "a:1"),
        (&["act a", "cond 0"], &[], 1, "a:1"),
        (&["act b", "act a", "choice 0 1"], &[], 1, "a:1 b:1"),
        (&["act b", "act a", "ifelse 0 1"], &[], 1, "a:1 b:1"),
        (&["act b", "act a", "seq 0 1"], &[], 1, "a:1 b:1"),
        (&["delta", "act a", "seq 0 1"], &[], 1, "a:1"),
        (&["act b", "act a", "merge 0 1"], &[], 1, "a:1 b:1 a:1.b:1"),
        (&["act b", "act a", "lmerge 0 1"], &[], 1, "a:1 b:1 a:1.b:1"),
        (&["act a", "merge 0 0", "merge 1 1"], &[], 1, "a:1 a:2 a:3 a:4"),
        (&["act a", "delta", "merge 0 1"], &[], 1, "a:1"),
        (&["delta", "act a", "lmerge 0 1"], &[], 1, "a:1"),
        (&["act a", "tau", "merge 0 1"], &[], 1, "tau a:1"),
        (&["tau", "merge 0 0"], &[], 1, "tau"),
        (&["act a", "act b", "sync 0 1"], &[], 1, "a:1.b:1"),
        (&["act a", "sync 0 0", "sync 1 0"], &[], 1, "a:3"),
        (&["tau", "sync 0 0"], &[], 1, "tau"),
    ]);
}

#[test]
fn kinds_that_map_or_filter() {
    check(&[
        (&["act a", "act b", "merge 0 1", "rename 2 a>b,b>a"], &[], 1, "a:1 b:1 a:1.b:1"),
        (&["act a", "act b", "sync 0 1", "rename 2 a>b,b>c"], &[], 1, "b:1.c:1"),
        (&["act a", "act b", "merge 0 1", "rename 2 a>c,b>c"], &[], 1, "c:1 c:2"),
        (&["act a", "act b", "merge 0 1", "rename 2 a>a"], &[], 1, "a:1 b:1 a:1.b:1"),
        (&["act a", "act b", "merge 0 1", "block 2 a"], &[], 1, "b:1"),
        (&["act a", "tau", "choice 0 1", "block 2 a,b,c"], &[], 1, "tau"),
        (&["act a", "act b", "merge 0 1", "hide 2 b"], &[], 1, "tau a:1"),
        (&["act a", "sync 0 0", "sync 1 1", "hide 2 b,c"], &[], 1, "a:4"),
        (&["act a", "merge 0 0", "allow 1 a:2"], &[], 1, "a:2"),
        (&["act a", "merge 0 0", "allow 1 b:1"], &[], 1, ""),
        (&["act a", "tau", "merge 0 1", "allow 2 none"], &[], 1, "tau"),
        (&["act a", "tau", "merge 0 1", "allow 2 b:1"], &[], 1, "tau"),
        (&["act a", "allow 0 none"], &[], 1, ""),
    ]);
}

#[test]
fn communication() {
    check(&[
        (&["act a", "comm 0 a:2>b"], &[], 1, "a:1"),
        (&["act a", "sync 0 0", "sync 1 1", "comm 2 a:2>b"], &[], 1, "a:4 a:2.b:1 b:2"),
        (&["act a", "sync 0 0", "sync 1 0", "comm 2 a:2>b,a:3>c"], &[], 1, "a:3 a:1.b:1 c:1"),
        (&["act a", "act b", "merge 0 1", "comm 2 a:1.b:1>d"], &[], 1, "a:1 b:1 a:1.b:1 d:1"),
        (&["tau", "comm 0 a:2>b"], &[], 1, "tau"),
        (&["delta", "comm 0 a:2>b"], &[], 1, ""),
        (&["act a", "merge 0 0", "block 1 a", "comm 2 a:2>b"], &[], 1, ""),
    ]);
}

/// What a rule gave takes part in no rule, neither the same nor another; what
/// the label had of that name takes part as before.
#[test]
fn communication_with_results_that_are_left_sides() {
    check(&[
        (&["act a", "sync 0 0", "sync 1 1", "comm 2 a:2>a"], &[], 1, "a:2 a:3 a:4"),
        (&["act a", "sync 0 0", "sync 1 0", "comm 2 a:2>b,a:1.b:1>c"], &[], 1, "a:3 a:1.b:1"),
        (&["act a", "sync 0 0", "sync 1 1", "comm 2 a:2>b,b:2>c"], &[], 1, "a:4 a:2.b:1 b:2"),
        (&["act b", "sync 0 0", "sync 1 1", "comm 2 a:2>c,b:2>a"], &[], 1, "a:2 a:1.b:2 b:4"),
        (
            &["act a", "act b", "sync 0 0", "sync 1 1", "sync 2 3", "comm 4 a:2>b,b:2>c"],
            &[],
            1,
            "a:2.b:2 b:3 a:2.c:1 b:1.c:1",
        ),
        (
            &["act a", "act b", "sync 0 1", "sync 2 0", "comm 3 a:2>c,a:1.b:1>b"],
            &[],
            1,
            "a:1.b:1 a:2.b:1 b:1.c:1",
        ),
    ]);
}

/// The operand of a comm is original, whoever made it: results of a comm
/// inside, and in a recursion those of an earlier round.
#[test]
fn communication_of_what_was_communicated() {
    check(&[
        (
            &["act a", "sync 0 0", "sync 1 1", "comm 2 a:2>b", "comm 3 b:2>c"],
            &[],
            1,
            "a:4 a:2.b:1 b:2 c:1",
        ),
        (
            &["act a", "sync 0 0", "sync 1 1", "comm 2 a:2>a", "comm 3 a:2>a"],
            &[],
            1,
            "a:1 a:2 a:3 a:4",
        ),
        (
            &["act a", "sync 0 0", "sync 1 1", "ref 0", "comm 3 a:2>a", "choice 2 4"],
            &[5],
            4,
            "a:1 a:2 a:3 a:4",
        ),
        (
            &["act a", "sync 0 0", "sync 1 1", "ref 0", "choice 2 3", "comm 4 a:2>b,b:2>c"],
            &[5],
            3,
            "a:4 a:2.b:1 b:2 c:1",
        ),
    ]);
}

#[test]
fn recursion() {
    check(&[
        (&["ref 0"], &[0], 1, ""),
        (&["tau", "ref 0"], &[0], 2, "tau"),
        // A ref reads the round before, whichever body was worked out first.
        (&["act a", "ref 0", "ref 1"], &[0, 1], 3, "a:1"),
        (&["act a", "ref 1", "ref 0"], &[1, 0], 3, "a:1"),
        // An equation that nothing refers to counts for the rounds all the same.
        (&["act b", "ref 0", "rename 1 b>c", "choice 0 2", "act a"], &[3], 3, "a:1"),
        // Stopping at a repeated reference would miss what renaming, hiding,
        // communication and merging make of the rounds before.
        (&["act a", "ref 0", "rename 1 a>b,b>c", "seq 0 2"], &[3], 4, "a:1 b:1 c:1"),
        (&["act a", "ref 0", "hide 1 a", "choice 0 2"], &[3], 3, "tau a:1"),
        (&["act a", "ref 0", "merge 1 1", "allow 2 a:2,a:3", "seq 0 3"], &[4], 4, "a:1 a:2 a:3"),
        (
            &["act a", "ref 0", "merge 0 1", "comm 2 a:2>b", "block 3 a", "choice 0 4"],
            &[5],
            3,
            "a:1 b:1",
        ),
        (&["act a", "ref 0", "sum 1", "choice 0 2", "block 3 a"], &[3], 2, ""),
    ]);
}

#[test]
fn the_order_cuts_all_but_tau() {
    let terms = &["act a", "tau", "merge 0 0", "choice 2 1", "comm 3 a:2>b"];
    let cases = [
        ("all", "tau a:1 a:2 b:1"),
        ("none", "tau"),
        ("a:1", "tau a:1"),
        ("b:1", "tau b:1"),
        ("a:3,c:1", "tau"),
        ("a:1,a:2,b:1,a:1.b:1", "tau a:1 a:2 b:1"),
    ];
    for (order, labels) in cases {
        let case = Case { names: &["a", "b", "c"], terms, bodies: &[], root: 4, order };
        assert_eq!(case.text(), answered(1, labels), "{}", order);
    }
}

/// Ascending means ascending by number: the name given last weighs most.
#[test]
fn labels_are_listed_by_their_number() {
    let terms = &["act z", "act m", "act b", "merge 0 1", "merge 2 3", "merge 4 0"];
    let case = Case { names: &["z", "m", "b"], terms, bodies: &[], root: 5, order: "all" };
    let without_b = "z:1 z:2 m:1 z:1.m:1 z:2.m:1";
    let with_b = "b:1 z:1.b:1 z:2.b:1 m:1.b:1 z:1.m:1.b:1 z:2.m:1.b:1";
    assert_eq!(case.text(), answered(1, &format!("{} {}", without_b, with_b)));
}
