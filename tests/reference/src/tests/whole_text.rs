//! The text as a whole: its length, its lines and what stands around them.

use super::{answered, joined, refused, Case};
use crate::text;

const LINES: &[&str] = &[
    "names=1", "name=a", "equations=1", "terms=2", "term=act a", "term=ref 0", "equation=0",
    "root=1", "order=all",
];

fn well_formed() -> String {
    joined(LINES)
}

/// The column at which another line is seen not to be the one due: `name=` for
/// `names=`, `term=` for `terms=` and the other way round begin alike.
fn column_of_another(line: &str) -> usize {
    if ["names=1", "terms=2"].contains(&line) {
        5
    } else {
        1
    }
}

/// A line left out, at the place where another is now found; the last one is
/// missing altogether.
#[test]
fn a_line_left_out_is_missed_where_it_was_due() {
    for (place, line) in LINES.iter().enumerate() {
        let mut lines = LINES.to_vec();
        lines.remove(place);
        // Without the first term the second one is read in its place.
        let due = if *line == "term=act a" { 6 } else { place + 1 };
        let expected = refused(2, due, column_of_another(line));
        assert_eq!(text::answer(joined(&lines).as_bytes()), expected, "{}", line);
    }
}

#[test]
fn a_line_put_twice_is_not_due_the_second_time() {
    for (place, line) in LINES.iter().enumerate() {
        let mut lines = LINES.to_vec();
        lines.insert(place, line);
        // A term put twice is read as the next one, which is then not due.
        let not_due = if line.starts_with("term=") { 7 } else { place + 2 };
        let expected = refused(2, not_due, column_of_another(line));
        assert_eq!(text::answer(joined(&lines).as_bytes()), expected, "{}", line);
    }
}

/// Cut off anywhere, the text is refused with 2 at the line that is not whole,
/// and there at its end.
#[test]
fn every_beginning_is_refused_at_the_line_it_breaks_off_in() {
    let whole = well_formed();
    for length in 0..whole.len() {
        let lines_before = whole[..length].matches('\n').count();
        let broken_off = whole[..length].rsplit('\n').next().unwrap_or("");
        let text = text::answer(&whole.as_bytes()[..length]);
        let expected = refused(2, lines_before + 1, broken_off.len() + 1);
        assert_eq!(text, expected, "{} bytes", length);
    }
    assert_eq!(text::answer(whole.as_bytes()), answered(2, "a:1"));
}

/// A last line without LF is 2 whatever else is wrong in it.
#[test]
fn a_last_line_without_its_end() {
    for last in ["order=all", "order=zz:1", "order=a:0", "order=a:1,a:1"] {
        let text = well_formed().replace("order=all\n", last);
        assert_eq!(text::answer(text.as_bytes()), refused(2, 9, last.len() + 1), "{}", last);
    }
    let broken_off = "names=1\nname=a\nequations=0\nterms=1\nterm=act zz";
    assert_eq!(text::answer(broken_off.as_bytes()), refused(2, 5, 12));
}

#[test]
fn bytes_after_the_last_line() {
    for more in ["\n", "x", " ", "order=all\n", "\0", "\r\n", "# end\n"] {
        let text = well_formed() + more;
        assert_eq!(text::answer(text.as_bytes()), refused(2, 10, 1), "{:?}", more);
    }
}

/// Lines replaced at their places, the number, the line that is refused and the
/// column.
type Faults = (&'static [(usize, &'static str)], u8, usize, usize);

#[test]
fn the_first_bad_line_decides() {
    let cases: &[Faults] = &[
        (&[(1, "name=tau"), (4, "term=act A")], 3, 2, 6),
        (&[(5, "term=ref 1"), (6, "equation=x")], 4, 6, 10),
        (&[(6, "equation=2"), (7, "root=x"), (8, "order=")], 4, 7, 10),
        (&[(4, "term=act b"), (5, "")], 3, 5, 10),
        (&[(7, "root=9"), (8, "order=all\nmore")], 4, 8, 6),
    ];
    for (changes, reason, line, column) in cases {
        let mut lines = LINES.to_vec();
        for (place, replacement) in *changes {
            lines[*place] = replacement;
        }
        let text = text::answer(joined(&lines).as_bytes());
        assert_eq!(text, refused(*reason, *line, *column), "{:?}", changes);
    }
}

/// 2 in an unused last line stands before 7 of the sets.
#[test]
fn sets_are_looked_at_last() {
    let terms = &["act a", "ref 0", "merge 1 1", "seq 0 2"];
    let endless = Case { names: &["a"], terms, bodies: &[3], root: 3, order: "all" };
    let text = endless.description() + "more\n";
    assert_eq!(text::answer(text.as_bytes()), refused(2, 12, 1));
}

#[test]
fn too_long_comes_before_everything() {
    let filled = |length: usize| {
        let mut text = well_formed();
        text.extend(std::iter::repeat('x').take(length - text.len()));
        text
    };
    let garbage = |length: usize| "\0".repeat(length);
    let cases = [
        (filled(8_192), refused(2, 10, 1)),
        (filled(8_193), refused(1, 0, 0)),
        (garbage(8_192), refused(2, 1, 1)),
        (garbage(8_193), refused(1, 0, 0)),
        (garbage(20_000), refused(1, 0, 0)),
        (exactly(8_192), answered(1, "a:1")),
        (exactly(8_193), refused(1, 0, 0)),
    ];
    for (text, expected) in cases {
        assert_eq!(text::answer(text.as_bytes()), expected, "{} bytes", text.len());
    }
}

/// A well-formed description of this length: long allow lists, then `sum`
/// lines, then a name that fills up what is left.
fn exactly(length: usize) -> String {
    let long_list: Vec<String> = (1..=31).map(|count| format!("abcdefgh:{}", count)).collect();
    let long_line = format!("allow 0 {}", long_list.join(","));
    let mut terms = vec!["act a"; 1];
    terms.extend(vec![long_line.as_str(); 21]);
    for name_length in 1..=7 {
        let filler = "z".repeat(name_length);
        let names = &["a", "abcdefgh", &filler];
        for sums in 0..=40 {
            let mut terms = terms.clone();
            terms.extend(vec!["sum 0"; sums]);
            let case = Case { names, terms: &terms, bodies: &[], root: 0, order: "all" };
            if case.description().len() == length {
                return case.description();
            }
        }
    }
    panic!("no description of {} bytes", length);
}

#[test]
fn no_bytes_at_all() {
    assert_eq!(text::answer(b""), refused(2, 1, 1));
}
