//! The labels that are met on runs.

use super::{as_strs, label_lines, merge_dies, refused, Case};
use crate::text;

/// Terms (the last is the root), bodies, and the labels met on all runs.
type Row = (&'static [&'static str], &'static [usize], &'static str);

const NAMES: &[&str] = &["a", "b", "c", "d"];

fn met(terms: &[&str], bodies: &[usize], order: &str) -> String {
    let case = Case { names: NAMES, terms, bodies, root: terms.len() - 1, order };
    text::met_on_runs(case.description().as_bytes())
}

/// The text for labels separated by spaces.
fn told(is_exact: bool, runs: &str, labels: &str) -> String {
    let labels: Vec<&str> = labels.split_whitespace().collect();
    let exact = if is_exact { "yes" } else { "no" };
    let head = format!("answer=ok\nexact={}\nruns={}\nlabels={}\n", exact, runs, labels.len());
    head + &label_lines(&labels)
}

fn check(is_exact: bool, rows: &[Row]) {
    for (terms, bodies, labels) in rows {
        let due = told(is_exact, "all", labels);
        assert_eq!(met(terms, bodies, "all"), due, "{:?} {:?}", terms, bodies);
    }
}

#[test]
fn of_kinds_with_an_exact_list() {
    check(
        true,
        &[
            (&["act b"], &[], "b:1"),
            (&["tau"], &[], "tau"),
            (&["act a", "sum 0", "cond 1"], &[], "a:1"),
            (&["act a", "act b", "choice 0 1"], &[], "a:1 b:1"),
            (&["act a", "act b", "ifelse 0 1"], &[], "a:1 b:1"),
            (&["act a", "act b", "seq 0 1"], &[], "a:1 b:1"),
            (&["act a", "act b", "act c", "seq 1 2", "seq 0 3"], &[], "a:1 b:1 c:1"),
            (&["act a", "act b", "act c", "seq 0 1", "seq 3 2"], &[], "a:1 b:1 c:1"),
            (&["act a", "act b", "merge 0 1"], &[], "a:1 b:1 a:1.b:1"),
            (&["act a", "tau", "merge 0 1"], &[], "tau a:1"),
            // The second step of one side meets the first of the other, and both.
            (
                &["act a", "act b", "act c", "seq 0 1", "merge 2 3"],
                &[],
                "a:1 b:1 c:1 a:1.c:1 b:1.c:1",
            ),
            (&["act a", "act b", "seq 0 1", "merge 2 2"], &[], "a:1 a:2 b:1 a:1.b:1 b:2"),
            // An equation that nothing refers to has no part in a run.
            (&["act b", "act a"], &[0], "a:1"),
        ],
    );
}

#[test]
fn of_operators_that_stay() {
    check(
        true,
        &[
            (&["act a", "act b", "seq 0 1", "hide 2 b"], &[], "tau a:1"),
            (&["act a", "act b", "seq 0 1", "hide 2 a,b"], &[], "tau"),
            (&["act a", "act b", "seq 0 1", "rename 2 a>b,b>c"], &[], "b:1 c:1"),
            (&["act a", "seq 0 0", "rename 1 a>b", "seq 2 0"], &[], "a:1 b:1"),
            (&["act a", "merge 0 0", "seq 0 1", "comm 2 a:2>b"], &[], "a:1 a:2 b:1"),
            (&["act a", "merge 0 0", "merge 1 1", "comm 2 a:2>a"], &[], "a:1 a:2 a:3 a:4"),
            // A result is set aside, so no rule takes it again.
            (
                &["act a", "merge 0 0", "merge 1 1", "comm 2 a:2>b,b:2>c"],
                &[],
                "a:1 a:2 a:3 a:4 b:1 a:1.b:1 a:2.b:1 b:2",
            ),
        ],
    );
    check(
        false,
        &[
            (&["act a", "tau", "seq 0 1", "allow 2 a:1"], &[], "tau a:1"),
            (&["tau", "act a", "seq 0 1", "allow 2 none"], &[], "tau"),
            (&["act a", "act b", "seq 0 1", "block 2 b"], &[], "a:1"),
            (&["act a", "seq 0 0", "seq 1 0", "block 2 b"], &[], "a:1"),
        ],
    );
}

/// One description for each kind of which the list may hold more, and some
/// others in which it does not.
#[test]
fn of_kinds_with_a_larger_list() {
    check(
        false,
        &[
            (&["delta", "act a", "seq 0 1"], &[], ""),
            (&["delta", "act a", "merge 0 1", "act b", "seq 2 3"], &[], "a:1"),
            (&["act a", "delta", "seq 0 1"], &[], "a:1"),
            (&["act a", "act b", "seq 0 1", "block 2 a"], &[], ""),
            (&["act a", "act b", "seq 0 1", "allow 2 b:1"], &[], ""),
            (&["act a", "act b", "seq 0 1", "act c", "sync 2 3"], &[], "b:1 a:1.c:1"),
            (&["act a", "act b", "seq 0 1", "sync 2 2"], &[], "a:2 b:1 b:2"),
            (&["act a", "act b", "sync 0 1"], &[], "a:1.b:1"),
            (&["act a", "delta", "sync 0 1"], &[], ""),
            (&["act a", "act b", "lmerge 0 1"], &[], "a:1 b:1"),
            (&["act a", "act b", "seq 0 1", "act c", "lmerge 2 3"], &[], "a:1 b:1 c:1 b:1.c:1"),
            (&["delta", "act a", "lmerge 0 1"], &[], ""),
        ],
    );
}

#[test]
fn of_recursions() {
    check(
        false,
        &[
            (&["act a", "ref 0"], &[0], "a:1"),
            (&["act a", "ref 0", "seq 0 1", "act b", "seq 1 3"], &[2], "a:1"),
            (&["act a", "ref 0", "seq 0 1", "choice 0 2", "act b", "seq 3 4"], &[3], "a:1 b:1"),
            (&["act a", "ref 0", "seq 0 1", "merge 1 1"], &[2], "a:1 a:2"),
            // The steps of each equation are those of the other.
            (&["act a", "ref 1", "choice 0 1", "act b", "ref 0", "choice 3 4"], &[2, 5], "a:1 b:1"),
        ],
    );
}

/// A reference may be met again before any step was taken. It steps only as
/// its equation does by a derivation that comes to an end.
#[test]
fn of_references_to_themselves() {
    check(
        false,
        &[
            (&["ref 0"], &[0], ""),
            (&["ref 1", "ref 0"], &[0, 1], ""),
            (&["ref 0", "act a", "seq 0 1"], &[2], ""),
            (&["act a", "ref 0", "choice 0 1"], &[2], "a:1"),
            // The second time round it has the steps of the first, renamed.
            (&["act a", "ref 0", "rename 1 a>b,b>c", "choice 0 2"], &[3], "a:1 b:1 c:1"),
            (&["act a", "ref 0", "hide 1 a", "choice 2 0"], &[3], "tau a:1"),
            (&["act a", "ref 0", "sync 1 1", "allow 2 a:2", "choice 0 3"], &[4], "a:1 a:2"),
        ],
    );
}

/// Steps without end from one state, and states without end.
#[test]
fn that_have_no_end() {
    let cases: &[(&[&str], &str)] = &[
        (&["ref 0", "act b", "seq 0 1", "act a", "choice 2 3"], "a:1 b:1"),
        (&["act a", "ref 0", "act b", "seq 1 2", "seq 0 3", "choice 0 4"], "a:1 b:1"),
        (&["act a", "ref 0", "hide 1 b", "seq 0 2"], "a:1"),
        (&["act a", "ref 0", "merge 0 1", "allow 2 a:1"], "a:1"),
    ];
    for (terms, labels) in cases {
        let due = told(false, "some", labels);
        assert_eq!(met(terms, &[terms.len() - 1], "all"), due, "{:?}", terms);
    }
}

/// Sixteen equal dies have 2 to the 16 sides that may have ended, but few states.
#[test]
fn of_many_dies() {
    let mut terms = vec![String::from("act a")];
    let top = merge_dies(&mut terms, 16);
    terms.push(format!("comm {} a:15>b", top));
    let dones: String = (1..=16).map(|count| format!("a:{} ", count)).collect();
    let due = told(true, "all", &(dones + "b:1 a:1.b:1"));
    assert_eq!(met(&as_strs(&terms), &[], "all"), due);
}

#[test]
fn the_order_cuts_all_but_tau() {
    let terms = &["act a", "tau", "seq 0 1", "act b", "merge 2 3"];
    for (order, labels) in [("none", "tau"), ("b:1", "tau b:1"), ("a:1.b:1,c:1", "tau a:1.b:1")] {
        assert_eq!(met(terms, &[], order), told(true, "all", labels), "{}", order);
    }
}

/// Every term counts, used or not.
#[test]
fn each_kind_is_exact_or_not() {
    let exact = ["act b", "tau", "sum 0", "cond 0", "choice 0 0", "ifelse 0 0", "seq 0 0"];
    let exact = exact.iter().chain(&["merge 0 0", "hide 0 b", "rename 0 a>b", "comm 0 a:2>b"]);
    let other = ["delta", "ref 0", "block 0 b", "allow 0 a:1", "sync 0 0", "lmerge 0 0"];
    let kinds = exact.map(|line| (line, true)).chain(other.iter().map(|line| (line, false)));
    for (line, is_exact) in kinds {
        let text = met(&["act a", line, "act a"], &[0], "all");
        assert_eq!(text, told(is_exact, "all", "a:1"), "{}", line);
    }
}

#[test]
fn a_refusal_is_told_as_it_is() {
    assert_eq!(met(&["act a", "ref 0", "merge 1 1", "seq 0 2"], &[3], "all"), refused(7, 0, 0));
    assert_eq!(met(&["act e"], &[], "all"), refused(3, 8, 10));
}
