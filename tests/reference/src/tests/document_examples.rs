//! Every example that document 01 gives; P6 has the labels that request
//! 2026-03 leaves it.

use super::{answered, as_strs, joined, merge_dies, refused, Case};
use crate::text;

const LISTING: &[&str] = &[
    "names=2", "name=done", "name=close", "equations=1", "terms=5", "term=act done", "term=ref 0",
    "term=seq 0 1", "term=merge 1 1", "term=comm 3 done:2>close", "equation=2", "root=4",
    "order=all",
];

/// P1 and P2: the listing, and the same with other orders.
#[test]
fn listing_under_each_order() {
    let cases =
        [("order=all", "done:1 done:2 close:1"), ("order=close:1", "close:1"), ("order=none", "")];
    for (order, labels) in cases {
        let mut lines = LISTING.to_vec();
        lines[12] = order;
        assert_eq!(text::answer(joined(&lines).as_bytes()), answered(2, labels), "{}", order);
    }
}

#[test]
fn listing_prints_the_text_of_the_document() {
    let printed = "answer=ok\nrounds=2\nlabels=3\nlabel=done:1\nlabel=done:2\nlabel=close:1\n";
    assert_eq!(text::answer(joined(LISTING).as_bytes()), printed);
}

/// An example's name, its terms (the last is the root), bodies, rounds and
/// labels.
type Example = (&'static str, &'static [&'static str], &'static [usize], usize, &'static str);

#[test]
fn examples_p3_to_p8() {
    let cases: &[Example] = &[
        ("P3", &["ref 0"], &[0], 1, ""),
        ("P4", &["act a", "ref 0", "rename 1 a>b", "seq 0 2"], &[3], 3, "a:1 b:1"),
        ("P5", &["act a", "act b", "sync 0 0", "sync 2 1", "rename 3 a>b,b>a"], &[], 1, "a:1.b:2"),
        (
            "P6",
            &["act a", "act b", "act d", "sync 0 1", "sync 3 2", "comm 4 a:1.b:1>c,c:1.d:1>e"],
            &[],
            1,
            "a:1.b:1.d:1 c:1.d:1",
        ),
        ("P7", &["act a", "sync 0 0", "hide 1 a"], &[], 1, "tau"),
        ("P8", &["act a", "tau", "sync 0 1"], &[], 1, "a:1"),
    ];
    for (example, terms, bodies, rounds, labels) in cases {
        let names = &["a", "b", "c", "d", "e"];
        let case = Case { names, terms, bodies, root: terms.len() - 1, order: "all" };
        assert_eq!(case.text(), answered(*rounds, labels), "{}", example);
    }
}

/// The terms of a die that reports done alone. `first` is the number of the
/// first of them.
fn reports_done(_first: usize) -> Vec<String> {
    vec![String::from("act done")]
}

fn reports_start_done_or_busy(first: usize) -> Vec<String> {
    let acts = ["start", "done", "busy"].map(|name| format!("act {}", name));
    let choices = [(first, first + 1), (first + 2, first + 3)];
    let choices = choices.map(|(left, right)| format!("choice {} {}", left, right));
    acts.into_iter().chain(choices).collect()
}

/// The text for so many dies, each a reference to one equation, and for what
/// a rule makes of them if there is one.
fn dies(die: fn(usize) -> Vec<String>, count: usize, rule: Option<&str>) -> String {
    let mut terms = vec![String::from("ref 0")];
    let top = merge_dies(&mut terms, count);
    terms.extend(die(terms.len()));
    let body = terms.len() - 1;
    let root = rule.map_or(top, |_| terms.len());
    terms.extend(rule.map(|rule| format!("comm {} {}", top, rule)));
    let names = &["done", "close", "start", "busy"];
    Case { names, terms: &as_strs(&terms), bodies: &[body], root, order: "all" }.text()
}

/// The labels of as many dies that report done alone.
fn dones(dies: usize) -> String {
    (1..=dies).map(|count| format!("done:{} ", count)).collect()
}

#[test]
fn stripe_of_sixteen() {
    let cases = [("done:16>close", "close:1"), ("done:15>close", "close:1 done:1.close:1")];
    for (rule, closed) in cases {
        let text = dies(reports_done, 16, Some(rule));
        assert_eq!(text, answered(2, &(dones(16) + closed)), "{}", rule);
    }
}

#[test]
fn dies_with_three_reports() {
    let sixteen = dies(reports_start_done_or_busy, 16, None);
    assert!(sixteen.starts_with("answer=ok\nrounds=2\nlabels=968\n"), "{}", sixteen);
    assert_eq!(dies(reports_start_done_or_busy, 17, None), refused(7, 0, 0));
}

#[test]
fn as_many_dies_as_a_label_has_actions() {
    assert_eq!(dies(reports_done, 31, None), answered(2, &dones(31)));
    assert_eq!(dies(reports_done, 32, None), refused(7, 0, 0));
}

#[test]
fn growing_without_end() {
    let terms = &["act a", "ref 0", "merge 1 1", "seq 0 2"];
    let case = Case { names: &["a"], terms, bodies: &[3], root: 3, order: "all" };
    assert_eq!(case.text(), refused(7, 0, 0));
}
