//! The column of refusal 2, held to the words of the request: a beginning of a
//! line is tried with every end of a right line put behind it, and the longest
//! that makes a right line again is as far as the line goes on.

use crate::reading::columns;
use crate::reading::shapes::{self, Shape};
use crate::reading::{forms, words};
use crate::tests::refusals::{TABLES, WELL_FORMED};
use std::collections::BTreeSet;

/// A line that is due: its key, the shape of its value and whether a value has
/// its form.
type Due = (&'static str, &'static Shape, fn(&[u8]) -> bool);

const DUE: &[Due] = &[
    ("names", &shapes::NUMBER, |value| words::number(value).is_some()),
    ("name", &shapes::NAME, |value| words::name(value).is_some()),
    ("equations", &shapes::NUMBER, |value| words::number(value).is_some()),
    ("terms", &shapes::NUMBER, |value| words::number(value).is_some()),
    ("term", &shapes::TERM, |value| forms::term(value).is_some()),
    ("equation", &shapes::NUMBER, |value| words::number(value).is_some()),
    ("root", &shapes::NUMBER, |value| words::number(value).is_some()),
    ("order", &shapes::ORDER, |value| forms::order(value).is_some()),
];

/// Right lines that the well-formed description has no like of.
const FURTHER: &[&str] = &["term=allow 0 none", "order=none", "order=a:1"];

/// What some lines are tried with.
struct Trial {
    due: Due,
    ends: BTreeSet<Vec<u8>>,
}

impl Trial {
    /// A trial of the line that is due where this beginning stands, with the
    /// ends of the right lines that have it.
    fn new(beginning: &str) -> Trial {
        let key = beginning.split('=').next().unwrap();
        let due = *DUE.iter().find(|(other, _, _)| *other == key).unwrap();
        let mut ends = BTreeSet::new();
        let right = WELL_FORMED.iter().chain(FURTHER).filter(|line| line.starts_with(beginning));
        for line in right.map(|line| ended(line)) {
            ends.extend((0..=line.len()).map(|from| line[from..].to_vec()));
        }
        Trial { due, ends }
    }

    /// A trial of all lines with the key of this one.
    fn of_key(line: &str) -> Trial {
        Trial::new(&line[..=line.find('=').unwrap()])
    }

    fn is_right(&self, line: &[u8]) -> bool {
        let (key, _, has_form) = self.due;
        let value = line.strip_suffix(b"\n").and_then(|line| line.strip_prefix(key.as_bytes()));
        value.and_then(|behind| behind.strip_prefix(b"=")).map_or(false, has_form)
    }

    fn goes_on(&self, beginning: &[u8]) -> bool {
        self.ends.iter().any(|end| self.is_right(&[beginning, end].concat()))
    }

    /// Tries a line with its LF and without: what stands before the column goes
    /// on to a right line, and one byte more does not.
    fn check(&self, line: &str) {
        let (key, shape, _) = self.due;
        for line in [line.as_bytes(), &ended(line)] {
            let length = columns::stuck(line, key, shape) - 1;
            let told = String::from_utf8_lossy(line);
            assert!(self.goes_on(&line[..length]), "{:?} is stuck before {}", told, length + 1);
            let is_longest = length == line.len() || !self.goes_on(&line[..=length]);
            assert!(is_longest, "{:?} goes on at {}", told, length + 1);
        }
    }
}

fn ended(line: &str) -> Vec<u8> {
    [line.as_bytes(), b"\n"].concat()
}

#[test]
fn each_line_of_the_tables() {
    for (line, groups) in TABLES.concat() {
        let trial = Trial::of_key(line);
        let replacements = groups.iter().flat_map(|(_, replacements)| *replacements);
        replacements.for_each(|replacement| trial.check(replacement));
    }
}

/// Each kind of line, cut at every byte, and with another byte there.
#[test]
fn each_line_cut_and_mistyped() {
    for line in WELL_FORMED {
        let trial = Trial::of_key(line);
        for place in 0..=line.len() {
            trial.check(&line[..place]);
            for byte in ["a", "l", "m", "s", "0", "1", ":", ".", ",", ">", " ", "=", "A"] {
                trial.check(&format!("{}{}{}", &line[..place], byte, &line[place..]));
                trial.check(&format!("{}{}", &line[..place], byte));
            }
        }
    }
}

/// Every short string behind the beginning of each list.
#[test]
fn each_short_string_in_each_list() {
    let lists = ["term=block 0 ", "term=rename 0 ", "term=comm 0 ", "term=allow 0 ", "order="];
    for beginning in lists {
        let trial = Trial::new(beginning);
        let mut strings = vec![String::from(beginning)];
        for _ in 0..=3 {
            strings.iter().for_each(|string| trial.check(string));
            strings = strings.iter().flat_map(|string| longer(string)).collect();
        }
    }
}

/// Every string with one byte more.
fn longer(string: &str) -> impl Iterator<Item = String> + '_ {
    "a01:.,>".chars().map(move |byte| format!("{}{}", string, byte))
}
