//! Both sides of each limit of the sets.

use super::{answered, as_strs, merge_dies, refused, Case};

const NAMES: &[&str] = &["a", "b", "c", "d", "e", "f", "g", "h", "i", "j"];

/// Terms that are added one by one; each call gives the new term's number.
pub struct Terms {
    pub lines: Vec<String>,
}

impl Terms {
    pub fn new() -> Terms {
        Terms { lines: vec![String::from("tau")] }
    }

    pub fn add(&mut self, line: String) -> usize {
        self.lines.push(line);
        self.lines.len() - 1
    }

    fn merge(&mut self, left: usize, right: usize) -> usize {
        self.add(format!("merge {} {}", left, right))
    }

    /// tau, and 1 to `most` times the name.
    fn up_to(&mut self, name: &str, most: usize) -> usize {
        let act = self.add(format!("act {}", name));
        let several = (1..most).fold(act, |all, _| self.merge(all, act));
        self.add(format!("choice 0 {}", several))
    }

    /// So many of a name at once.
    pub fn at_once(&mut self, name: &str, count: usize) -> usize {
        let act = self.add(format!("act {}", name));
        (1..count).fold(act, |all, _| self.add(format!("sync {} {}", all, act)))
    }

    /// Every bag with at most so many of each name, tau among them.
    fn grid(&mut self, sides: &[(&str, usize)]) -> usize {
        let sides: Vec<usize> = sides.iter().map(|(name, most)| self.up_to(name, *most)).collect();
        sides[1..].iter().fold(sides[0], |all, side| self.merge(all, *side))
    }

    fn text(&self, bodies: &[usize], root: usize) -> String {
        let terms = as_strs(&self.lines);
        Case { names: NAMES, terms: &terms, bodies, root, order: "none" }.text()
    }
}

/// 1,024 labels in one set, 1,175 in all sets together.
fn set_of_1024() -> (Terms, usize) {
    let mut terms = Terms::new();
    let left = terms.grid(&[("a", 1), ("b", 1), ("c", 1), ("d", 1), ("e", 1)]);
    let right = terms.grid(&[("f", 1), ("g", 1), ("h", 1), ("i", 1), ("j", 1)]);
    let all = terms.merge(left, right);
    (terms, all)
}

/// Nothing is listed but the tau that every grid holds.
fn only_tau(rounds: usize) -> String {
    answered(rounds, "tau")
}

#[test]
fn labels_of_one_set() {
    let (terms, root) = set_of_1024();
    assert_eq!(terms.text(&[], root), only_tau(1));
    let mut terms = Terms::new();
    let forty = terms.grid(&[("a", 4), ("b", 3), ("c", 1)]);
    let other = terms.add(String::from("act d"));
    let forty_one = terms.add(format!("choice {} {}", forty, other));
    let twenty_five = terms.grid(&[("e", 4), ("f", 4)]);
    let root = terms.merge(forty_one, twenty_five);
    assert_eq!(terms.text(&[], root), refused(7, 0, 0), "1,025 labels");
    assert_eq!(terms.text(&[], 0), refused(7, 0, 0), "1,025 labels that the root does not use");
}

/// 873 more labels fill the sets up: 27 times a set of 32 and nine single
/// ones, of which tau is as good as any.
#[test]
fn labels_of_all_sets() {
    for single in ["act a", "tau"] {
        let (mut terms, root) = set_of_1024();
        let set_of_32 = root - 1;
        for _ in 0..27 {
            terms.add(format!("cond {}", set_of_32));
        }
        for _ in 0..9 {
            terms.add(String::from(single));
        }
        assert_eq!(terms.text(&[], root), only_tau(1), "2,048 labels");
        assert_eq!(terms.text(&[root; 16], 0), only_tau(2), "equations add nothing");
        terms.add(String::from("delta"));
        assert_eq!(terms.text(&[], root), only_tau(1), "2,048 labels and an empty set");
        terms.add(String::from(single));
        assert_eq!(terms.text(&[], root), refused(7, 0, 0), "2,049 labels");
    }
}

/// Terms over 31 or 32 actions, used by the root or not; the wrapping comes
/// too late to help.
#[test]
fn actions_of_one_label() {
    let doubled_sync = "sync 0 0|sync 1 1|sync 2 2|sync 3 3";
    let thirty_one = format!("{}|sync 4 3|sync 5 2|sync 6 1|sync 7 0", doubled_sync);
    let thirty_two = format!("{}|sync 4 4", doubled_sync);
    for (terms, passes) in [(thirty_one, false), (thirty_two, true)] {
        let top = terms.split('|').count();
        for wrapping in ["tau", "hide TOP a", "block TOP a", "allow TOP none"] {
            let wrapping = wrapping.replace("TOP", &top.to_string());
            let all = format!("act a|{}|{}", terms, wrapping);
            let terms: Vec<&str> = all.split('|').collect();
            let case = Case { names: NAMES, terms: &terms, bodies: &[], root: 0, order: "all" };
            let refusal = case.text() == refused(7, 0, 0);
            assert_eq!(refusal, passes, "{}", all);
        }
    }
}

#[test]
fn actions_of_merged_dies() {
    for (dies, passes) in [(16, false), (30, false), (31, false), (32, true), (33, true)] {
        let mut terms = vec![String::from("act a")];
        let root = merge_dies(&mut terms, dies);
        let terms = as_strs(&terms);
        let case = Case { names: NAMES, terms: &terms, bodies: &[], root, order: "all" };
        assert_eq!(case.text() == refused(7, 0, 0), passes, "{} dies", dies);
    }
}

/// Long labels have many choices of parts, which come to few labels: what a
/// rule gave is in no other part, and many choices come to the same.
#[test]
fn labels_of_a_communication() {
    let cases: &[(&[(&str, usize)], &str, usize)] = &[
        (&[("a", 31)], "a:2>b,a:3>c,b:2>d,b:1.c:1>f,c:2>e", 96),
        (
            &[("a", 10), ("b", 10), ("c", 11)],
            "a:2>d,a:1.b:1>d,b:2>d,a:1.c:1>d,b:1.c:1>d,c:2>d",
            11 * 11 * 12 / 2,
        ),
    ];
    for (label, rules, labels) in cases {
        let mut terms = Terms::new();
        let parts: Vec<usize> = label.iter().map(|(name, n)| terms.at_once(name, *n)).collect();
        let whole =
            parts.into_iter().reduce(|all, part| terms.add(format!("sync {} {}", all, part)));
        let root = terms.add(format!("comm {} {}", whole.expect("a part"), rules));
        let case =
            Case { names: NAMES, terms: &as_strs(&terms.lines), bodies: &[], root, order: "all" };
        let head = format!("answer=ok\nrounds=1\nlabels={}\n", labels);
        assert!(case.text().starts_with(&head), "{}: {}", rules, case.text());
    }
}

/// A set that grows by recursion passes a limit in some later round, unless
/// what is added to it stays the same.
#[test]
fn growing_by_recursion() {
    let cases: &[(&[&str], usize, bool)] = &[
        (&["act a", "ref 0", "merge 0 1"], 2, true),
        (&["act a", "ref 0", "lmerge 1 0"], 2, true),
        (&["act a", "ref 0", "sync 0 1"], 2, true),
        (&["act a", "ref 0", "sync 1 1"], 2, false),
        (&["act a", "ref 0", "merge 0 1", "hide 2 a"], 2, true),
        (&["act a", "ref 0", "merge 0 1", "hide 2 a"], 3, false),
        (&["act a", "ref 0", "hide 1 a", "merge 0 2"], 3, false),
        (&["act a", "ref 0", "seq 0 1"], 2, false),
        (&["tau", "ref 0", "merge 0 1"], 2, false),
    ];
    for (terms, body, passes) in cases {
        let case = Case { names: NAMES, terms, bodies: &[*body], root: 0, order: "all" };
        assert_eq!(case.text() == refused(7, 0, 0), *passes, "{:?}, body {}", terms, body);
    }
}
