//! More than twelve names (request 2026-07): labels with names on both sides of
//! 11 and 12, which are `l` and `m` here. Names 0 and 23 are `a` and `x`.

use super::set_limits::Terms;
use super::sets_by_kind::{check_with, Row};
use super::{answered, as_strs, joined, refused, Case};
use crate::text;

#[rustfmt::skip]
const LETTERS: &[&str] = &[
    "a", "b", "c", "d", "e", "f", "g", "h", "i", "j", "k", "l",
    "m", "n", "o", "p", "q", "r", "s", "t", "u", "v", "w", "x",
];

/// A label's number, the sum of count(n) times 32 to the n.
fn number(label: &str) -> u128 {
    let parts = label.split('.').map(|part| part.split_once(':').expect("a part"));
    let numbers = parts.map(|(name, count)| {
        let name = LETTERS.iter().position(|letter| *letter == name).expect("a name");
        count.parse::<u128>().expect("a count") << (5 * name)
    });
    numbers.sum()
}

/// Of each term the set; `l:2.m:1` is `act l|act m|sync 0 0|sync 2 1`.
#[rustfmt::skip]
const SETS: &[Row] = &[
    (&["act m"], &[], 1, "m:1"),
    (&["act x"], &[], 1, "x:1"),
    (&["act m", "act l", "choice 0 1"], &[], 1, "l:1 m:1"),
    (&["act m", "act l", "merge 0 1"], &[], 1, "l:1 m:1 l:1.m:1"),
    (&["act x", "act a", "merge 0 1", "merge 2 1"], &[], 1, "a:1 a:2 x:1 a:1.x:1 a:2.x:1"),
    (&["act m", "act l", "sync 1 1", "choice 0 2"], &[], 1, "l:2 m:1"),
    (&["act m", "act n", "act l", "sync 0 2", "sync 1 2", "choice 3 4"], &[], 1, "l:1.m:1 l:1.n:1"),
    (&["act a", "act l", "act m", "sync 0 2", "sync 1 2", "choice 3 4"], &[], 1, "a:1.m:1 l:1.m:1"),
    (&["act l", "act m", "sync 0 0", "sync 2 1", "rename 3 l>m,m>l"], &[], 1, "l:1.m:2"),
    (&["act l", "act m", "merge 0 1", "rename 2 l>m"], &[], 1, "m:1 m:2"),
    (&["act l", "act m", "merge 0 1", "rename 2 m>l"], &[], 1, "l:1 l:2"),
    (&["act l", "act m", "sync 0 1", "rename 2 a>m,l>a,m>x,x>l"], &[], 1, "a:1.x:1"),
    (&["act l", "act m", "merge 0 1", "hide 2 l"], &[], 1, "tau m:1"),
    (&["act l", "act m", "merge 0 1", "hide 2 m"], &[], 1, "tau l:1"),
    (&["act l", "act m", "merge 0 1", "hide 2 a,x"], &[], 1, "l:1 m:1 l:1.m:1"),
    (&["act l", "act m", "merge 0 1", "block 2 l"], &[], 1, "m:1"),
    (&["act l", "act m", "merge 0 1", "block 2 m"], &[], 1, "l:1"),
    (&["act a", "act m", "merge 0 1", "block 2 a"], &[], 1, "m:1"),
    (&["act l", "act m", "merge 0 1", "comm 2 l:1.m:1>x"], &[], 1, "l:1 m:1 l:1.m:1 x:1"),
    (&["act l", "act m", "merge 0 1", "comm 2 l:1.m:1>a"], &[], 1, "a:1 l:1 m:1 l:1.m:1"),
    (&["act l", "sync 0 0", "sync 1 1", "comm 2 l:2>m"], &[], 1, "l:4 l:2.m:1 m:2"),
    (&["act m", "sync 0 0", "sync 1 1", "comm 2 m:2>l"], &[], 1, "l:2 l:1.m:2 m:4"),
    (&["act a", "act m", "sync 0 1", "comm 2 a:2>b,a:1.l:1>b,m:2>b"], &[], 1, "a:1.m:1"),
    (&["act l", "act m", "merge 0 1", "allow 2 l:1,l:1.m:1"], &[], 1, "l:1 l:1.m:1"),
    (&["act l", "act m", "merge 0 1", "allow 2 l:2,m:1,l:1.x:1"], &[], 1, "m:1"),
    (&["act m", "tau", "merge 0 1", "allow 2 none"], &[], 1, "tau"),
    (&["act l", "ref 0", "rename 1 l>m,m>n,n>a", "seq 0 2"], &[3], 5, "a:1 l:1 m:1 n:1"),
    (&["act l", "ref 0", "merge 0 1", "comm 2 l:2>m", "block 3 l", "choice 0 4"], &[5], 3, "l:1 m:1"),
];

#[test]
fn sets_on_both_sides() {
    check_with(LETTERS, SETS);
    check_with(&LETTERS[..13], &SETS[2..4]);
}

/// Two of 24 reports at once, 324 labels.
#[test]
fn labels_are_listed_by_their_numbers() {
    let mut terms = Terms::new();
    let first = terms.add(format!("act {}", LETTERS[0]));
    let any = LETTERS[1..].iter().fold(first, |any, letter| {
        let act = terms.add(format!("act {}", letter));
        terms.add(format!("choice {} {}", any, act))
    });
    let root = terms.add(format!("merge {} {}", any, any));
    let terms = as_strs(&terms.lines);
    let text = Case { names: LETTERS, terms: &terms, bodies: &[], root, order: "all" }.text();
    let labels = text.lines().filter_map(|line| line.strip_prefix("label="));
    let numbers: Vec<u128> = labels.map(number).collect();
    assert_eq!(numbers.len(), 24 + 24 * 25 / 2);
    assert!(numbers.windows(2).all(|two| two[0] < two[1]), "{}", text);
}

/// Of any two labels those are read whose numbers ascend.
#[test]
fn labels_are_read_by_their_numbers() {
    let labels = [
        "a:1", "a:31", "b:1", "k:1.l:1", "l:1", "l:31", "a:1.m:1", "m:1", "l:1.m:1", "l:2.m:1",
        "a:1.m:2", "n:1", "a:30.n:1", "w:31", "x:1", "a:1.x:1", "l:1.x:1", "m:1.x:1", "x:2",
    ];
    for one in labels {
        for other in labels {
            let order = format!("{},{}", one, other);
            let names = LETTERS;
            let case = Case { names, terms: &["tau"], bodies: &[], root: 0, order: &order };
            let ascends = number(one) < number(other);
            // The names are 24 lines, and five more come before the order.
            let column = "order=".len() + one.len() + 2;
            let expected = if ascends { answered(1, "tau") } else { refused(5, 30, column) };
            assert_eq!(case.text(), expected, "{}", order);
        }
    }
}

/// 31 actions are those of all names together, and none is carried from one name
/// to the next.
#[test]
fn actions_of_one_label() {
    let cases = [(15, 16, false), (30, 1, false), (16, 16, true), (31, 1, true), (32, 1, true)];
    for (lower, upper, passes) in cases {
        let mut terms = Terms::new();
        let (left, right) = (terms.at_once("l", lower), terms.at_once("m", upper));
        terms.add(format!("sync {} {}", left, right));
        let terms = as_strs(&terms.lines);
        let case = Case { names: LETTERS, terms: &terms, bodies: &[], root: 0, order: "all" };
        assert_eq!(case.text() == refused(7, 0, 0), passes, "{} and {}", lower, upper);
    }
}

/// A line of a description with 24 names that is replaced, what by, and the
/// refusal: its number, or 0 where it is read, and its column.
#[rustfmt::skip]
const LINES: &[(usize, &str, u8, usize)] = &[
    (14, "name=a", 3, 6),
    (14, "name=l", 3, 6),
    (25, "name=m", 3, 6),
    (25, "name=all", 3, 6),
    (29, "term=act y", 3, 10),
    (29, "term=block 0 a,b,c,d,e,f,g,h,i,j,k,l,m,n,o,p,q,r,s,t,u,v,w,x", 0, 0),
    (29, "term=hide 0 a,b,c,d,e,f,g,h,i,j,k,l,m,n,o,p,q,r,s,t,u,v,w,x", 0, 0),
    (29, "term=hide 0 a,b,c,d,e,f,g,h,i,j,k,l,m,n,o,p,q,r,s,t,u,v,w,x,a", 5, 61),
    (29, "term=hide 0 l,m", 0, 0),
    (29, "term=hide 0 m,l", 5, 15),
    (29, "term=block 0 x,a", 5, 16),
    (29, "term=rename 0 l>m,m>l", 0, 0),
    (29, "term=rename 0 m>l,l>m", 5, 19),
    (29, "term=rename 0 l>m,m>y", 3, 21),
    (29, "term=comm 0 l:1.m:1>x,a:1.x:1>l", 0, 0),
    (29, "term=comm 0 m:1.l:1>x", 5, 13),
    (29, "term=comm 0 a:1.m:1>x,l:2>x", 5, 23),
    (29, "term=allow 0 m:1.l:1", 5, 14),
    (29, "term=allow 0 l:15.m:16,l:16.m:16", 5, 24),
    (29, "term=allow 0 l:1.m:0", 5, 14),
    (29, "term=allow 0 a:1.b:1.c:1.d:1.e:1.f:1.g:1.h:1.i:1.j:1.k:1.l:1.m:1.n:1.x:17", 0, 0),
    (29, "term=allow 0 a:1.b:1.c:1.d:1.e:1.f:1.g:1.h:1.i:1.j:1.k:1.l:1.m:1.n:1.x:18", 5, 14),
];

#[test]
fn each_line_is_read_or_refused_where_it_is_said() {
    let names = LETTERS;
    let case = Case { names, terms: &["act x", "tau"], bodies: &[], root: 0, order: "all" };
    for (line, replacement, reason, column) in LINES {
        let mut lines: Vec<String> = case.description().lines().map(String::from).collect();
        lines[line - 1] = replacement.to_string();
        let expected = match reason {
            0 => answered(1, "x:1"),
            _ => refused(*reason, *line, *column),
        };
        assert_eq!(text::answer(joined(&lines).as_bytes()), expected, "{}", replacement);
    }
}
