//! Each refusal number on each kind of line: one line of a well-formed
//! description is replaced, and that line must be refused with that number. At
//! which column is asked in `columns`.

mod head;
mod lists;
mod operands;
mod tail;

use super::joined;
use crate::text;
use std::collections::BTreeSet;

/// A line of the well-formed description, and for each number the lines that
/// are refused with it in its place; under 0 stand those that are read.
pub type Row = (&'static str, &'static [(u8, &'static [&'static str])]);

const READ: u8 = 0;

pub const TABLES: &[&[Row]] = &[head::ROWS, operands::ROWS, lists::ROWS, tail::ROWS];

/// Every kind of line; the number of a line is its place here, from 1.
pub const WELL_FORMED: &[&str] = &[
    "names=3", "name=a", "name=b", "name=c", "equations=1", "terms=17", "term=act a", "term=tau",
    "term=delta", "term=ref 0", "term=sum 0", "term=cond 0", "term=choice 0 1", "term=ifelse 0 1",
    "term=seq 0 1", "term=merge 0 1", "term=lmerge 0 1", "term=sync 0 1", "term=block 0 a",
    "term=hide 0 a", "term=rename 0 a>b", "term=comm 0 a:2>b", "term=allow 0 a:1", "equation=0",
    "root=0", "order=all",
];

/// The kinds of lines by their first word, and the numbers that a line of
/// each kind can be refused with.
const POSSIBLE: &[(&[&str], &[u8])] = &[
    (&["names=3", "equations=1", "terms=17", "term=tau", "term=delta"], &[2]),
    (&["name=c", "term=act a"], &[2, 3]),
    (&["term=ref 0", "term=sum 0", "term=cond 0", "equation=0", "root=0"], &[2, 4]),
    (&["term=choice 0 1", "term=ifelse 0 1", "term=seq 0 1"], &[2, 4]),
    (&["term=merge 0 1", "term=lmerge 0 1", "term=sync 0 1"], &[2, 4]),
    (&["term=block 0 a", "term=hide 0 a", "term=rename 0 a>b"], &[2, 3, 4, 5]),
    (&["term=comm 0 a:2>b", "term=allow 0 a:1"], &[2, 3, 4, 5]),
    (&["order=all"], &[2, 3, 5]),
];

#[test]
fn each_replaced_line_gets_its_number() {
    for (line, groups) in TABLES.concat() {
        let place = WELL_FORMED.iter().position(|other| *other == line).unwrap();
        for (reason, replacements) in groups {
            for replacement in *replacements {
                let mut lines = WELL_FORMED.to_vec();
                lines[place] = replacement;
                let text = text::answer(joined(&lines).as_bytes());
                let expected = match *reason {
                    READ => String::from("answer=ok\n"),
                    _ => format!("answer=refused\nreason={}\nline={}\n", reason, place + 1),
                };
                assert!(text.starts_with(&expected), "{:?} got {}", replacement, text);
            }
        }
    }
}

/// No kind of line and no number that it can get is left out of the tables.
#[test]
fn each_number_is_tried_on_each_kind_of_line() {
    let mut due = BTreeSet::new();
    for (lines, reasons) in POSSIBLE {
        for line in *lines {
            due.extend(reasons.iter().map(|reason| (*line, *reason)));
        }
    }
    let mut tried = BTreeSet::new();
    for (line, groups) in TABLES.concat() {
        tried.extend(groups.iter().map(|(reason, _)| (line, *reason)));
    }
    tried.retain(|(_, reason)| *reason != READ);
    assert_eq!(tried, due);
}

#[test]
fn the_description_is_answered_as_it_stands() {
    let text = text::answer(joined(WELL_FORMED).as_bytes());
    assert!(text.starts_with("answer=ok\n"), "{}", text);
}
