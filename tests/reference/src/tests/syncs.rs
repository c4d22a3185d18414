//! Syncs of multi-actions, which have the product alone, and of whole processes,
//! which have both sides as well.

use super::sets_by_kind::check;
use super::{answered, as_strs, Case};

/// `act a`, then one line of each kind over it, but for act, tau, delta and sync.
const OVER_AN_ACT: &[&str] = &[
    "ref 0", "sum 0", "cond 0", "choice 0 0", "ifelse 0 0", "seq 0 0", "merge 0 0", "lmerge 0 0",
    "block 0 b", "hide 0 b", "rename 0 a>a", "comm 0 a:2>b", "allow 0 a:1",
];

const MULTI_ACTIONS: &[&str] = &["act a", "tau", "delta", "sync 0 0"];

#[test]
fn of_multi_actions() {
    check(&[
        (&["act a", "delta", "sync 0 1"], &[], 1, ""),
        (&["delta", "act a", "sync 0 1"], &[], 1, ""),
        (&["tau", "delta", "sync 0 1"], &[], 1, ""),
        (&["delta", "sync 0 0"], &[], 1, ""),
        (&["act a", "act b", "sync 0 1", "sync 2 0", "sync 2 3"], &[], 1, "a:3.b:2"),
        (&["act a", "delta", "sync 0 1", "tau", "sync 2 3"], &[], 1, ""),
        // A sync of whole processes elsewhere changes nothing.
        (&["act a", "sum 0", "sync 0 1", "sync 0 0"], &[], 1, "a:2"),
    ]);
}

#[test]
fn of_whole_processes() {
    check(&[
        (&["act a", "delta", "sum 1", "sync 0 2"], &[], 1, "a:1"),
        (&["act a", "delta", "sum 1", "sync 2 0"], &[], 1, "a:1"),
        (&["delta", "sum 0", "sync 1 1"], &[], 1, ""),
        (&["act a", "sum 0", "sync 0 1"], &[], 1, "a:1 a:2"),
        (&["act a", "act b", "choice 0 1", "sync 2 2"], &[], 1, "a:1 a:2 b:1 a:1.b:1 b:2"),
        (
            &["act a", "act b", "seq 0 1", "act c", "act d", "seq 3 4", "sync 2 5"],
            &[],
            1,
            "a:1 b:1 c:1 a:1.c:1 b:1.c:1 d:1 a:1.d:1 b:1.d:1",
        ),
    ]);
}

/// With a deadlock on the other side, a multi-action has no label left, and a
/// whole process all of its own.
#[test]
fn each_kind_on_either_side() {
    for (kinds, is_wide) in [(OVER_AN_ACT, true), (MULTI_ACTIONS, false)] {
        for kind in kinds {
            for sync in ["sync 1 2", "sync 2 1"] {
                let terms = &["act a", kind, "delta", sync];
                let names = &["a", "b"];
                let own = Case { names, terms, bodies: &[0], root: 1, order: "all" };
                let with_delta = Case { names, terms, bodies: &[0], root: 3, order: "all" };
                let due = if is_wide { own.text() } else { answered(2, "") };
                assert_eq!(with_delta.text(), due, "{} in {}", kind, sync);
            }
        }
    }
}

/// What a sync in a sync is built of decides, and not that it is a sync.
#[test]
fn of_syncs() {
    check(&[
        (&["act a", "delta", "sum 1", "sync 0 2", "sync 3 1"], &[], 1, "a:1"),
        (&["act a", "delta", "sum 1", "sync 0 2", "sync 1 3"], &[], 1, "a:1"),
        (&["delta", "sum 0", "sync 0 1", "sync 0 2", "act a", "sync 4 3"], &[], 1, "a:1"),
        (&["act a", "act b", "sync 0 1", "sum 0", "sync 2 3"], &[], 1, "a:1 a:1.b:1 a:2.b:1"),
        (&["act a", "act b", "sync 0 1", "delta", "sync 2 3"], &[], 1, ""),
    ]);
}

/// A ref makes a sync wide whatever the body is: a ref is never looked through.
#[test]
fn of_references() {
    check(&[
        (&["act a", "ref 0", "sync 0 1"], &[0], 2, "a:1 a:2"),
        (&["act a", "ref 0", "sync 1 1"], &[0], 2, "a:1 a:2"),
        (&["delta", "act a", "ref 0", "sync 1 2"], &[0], 1, "a:1"),
        (&["act a", "ref 0", "delta", "sync 1 0"], &[2], 1, "a:1"),
        (&["act a", "sync 0 0", "ref 0", "delta", "sync 2 3"], &[1], 2, "a:2"),
        (&["tau", "ref 0", "act b", "sync 2 1"], &[0], 2, "tau b:1"),
    ]);
}

#[test]
fn in_a_recursion() {
    check(&[
        (&["act a", "ref 0", "delta", "sync 1 2", "seq 0 3"], &[4], 2, "a:1"),
        (&["act a", "ref 0", "tau", "sync 1 2", "rename 3 a>b", "seq 0 4"], &[5], 3, "tau a:1 b:1"),
        (&["act a", "ref 0", "sync 0 1", "allow 2 a:1,a:2,a:3"], &[3], 4, "a:1 a:2 a:3"),
        (
            &["act a", "ref 0", "sync 1 1", "allow 2 a:1,a:2,a:4", "choice 0 3"],
            &[4],
            4,
            "a:1 a:2 a:4",
        ),
        // A multi-action has no part in the recursion beside it.
        (&["act a", "ref 0", "sync 0 0", "seq 2 1"], &[3], 2, "a:2"),
    ]);
}

/// Ninety syncs one over another, most of them twice over the one before. Who
/// walks through the operands of each to see what it is built of never ends.
#[test]
fn one_over_another() {
    let cases: &[(&[&str], &str, usize, &str)] = &[
        (&["tau"], "sync LAST LAST", 2, "tau"),
        (&["delta"], "sync LAST LAST", 1, ""),
        (&["delta", "sum 0"], "sync LAST LAST", 1, ""),
        (&["tau", "sum 0"], "sync LAST LAST", 2, "tau"),
        (&["tau", "ref 0"], "sync LAST LAST", 2, "tau"),
        (&["tau", "act a"], "sync LAST 0", 2, "a:1"),
        (&["tau", "act a", "sum 1"], "sync LAST 0", 2, "tau a:1"),
        (&["delta", "act a"], "sync 0 LAST", 1, ""),
        (&["delta", "act a", "sum 1"], "sync 0 LAST", 1, "a:1"),
        (&["delta", "act a", "ref 0", "sync 1 2"], "sync LAST 0", 1, "a:1"),
    ];
    for (lowest, step, rounds, labels) in cases {
        let mut terms: Vec<String> = lowest.iter().map(|line| line.to_string()).collect();
        for _ in 0..90 {
            terms.push(step.replace("LAST", &(terms.len() - 1).to_string()));
        }
        let (root, terms) = (terms.len() - 1, &as_strs(&terms));
        let case = Case { names: &["a"], terms, bodies: &[0], root, order: "all" };
        assert_eq!(case.text(), answered(*rounds, labels), "{:?} {}", lowest, step);
    }
}

/// A deadlock that becomes any other line shrinks no set, although that line
/// may be a multi-action or none.
#[test]
fn of_a_deadlock_that_becomes_a_term() {
    let labels = |line: &str, root: usize| {
        let terms =
            &["act a", line, "sync 0 1", "tau", "sync 2 3", "sum 1", "sync 5 0", "sync 4 6"];
        let text = Case { names: &["a", "b"], terms, bodies: &[0], root, order: "all" }.text();
        assert!(text.starts_with("answer=ok\n"), "{}: {}", line, text);
        text.lines().skip(3).map(String::from).collect::<Vec<_>>()
    };
    for root in 0..8 {
        let before = labels("delta", root);
        for line in OVER_AN_ACT.iter().chain(MULTI_ACTIONS) {
            let after = labels(line, root);
            let kept = before.iter().all(|label| after.contains(label));
            assert!(kept, "{} as term 1: term {} has {:?}", line, root, after);
        }
    }
}
