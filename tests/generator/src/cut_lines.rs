//! A line of each kind, cut at every byte, in every word and with another byte
//! at each place; and a text that ends or goes on where it should not.

use crate::draft::ended;

const LINES: &[&str] = &[
    "names=3", "name=a", "name=bb", "name=c3d4e5f6", "equations=2", "terms=18", "term=act bb",
    "term=tau", "term=delta", "term=ref 0", "term=sum 0", "term=cond 1", "term=choice 0 1",
    "term=ifelse 0 3", "term=seq 2 4", "term=merge 0 7", "term=lmerge 0 1", "term=sync 0 10",
    "term=block 11 a,c3d4e5f6", "term=hide 10 bb", "term=rename 0 a>bb,bb>a,c3d4e5f6>a",
    "term=comm 9 a:2>bb,a:1.bb:1>c3d4e5f6", "term=allow 11 a:1,bb:2,a:10.c3d4e5f6:1",
    "term=allow 0 none", "equation=0", "equation=10", "root=17", "order=a:1,bb:1,a:1.bb:1",
];

/// Other lines in the place of the first with their key; some have a fault that
/// is not of form.
const OTHERS: &[&str] = &[
    "order=all", "order=none", "order=none:1,all:1,tau:1", "order=bb:1,a:0,a:1", "names=25",
    "name=none", "equations=17", "terms=97", "term=act zz", "equation=99", "root=18",
];

/// Counts of lines, most of them out of range, and of three digits.
const COUNTS: &[&str] = &["0", "13", "16", "17", "25", "32", "64", "96", "97", "98", "99", "100"];

const TYPED: &str = "aelA0 ,:.>=\r";

const AFTER_THE_END: &[&str] = &["\n", "\n\n", "x", " ", "\0", "order=all\n", "order", "\r\n"];

pub fn records() -> Vec<Vec<u8>> {
    let mut records = Vec::new();
    let others = OTHERS.iter().map(|line| (place_of(line), line));
    for (number, line) in LINES.iter().enumerate().chain(others) {
        for place in 0..=line.len() {
            let (before, behind) = line.split_at(place);
            records.push(with_line(number, before));
            records.push(without_end(number, before));
            let rest = behind.trim_start_matches(|byte: char| byte.is_ascii_alphanumeric());
            records.push(with_line(number, &format!("{}{}", before, rest)));
            let typed = TYPED.chars().map(|byte| format!("{}{}{}", before, byte, behind));
            records.extend(typed.map(|line| with_line(number, &line)));
        }
    }
    for key in ["names=", "equations=", "terms="] {
        let counts = COUNTS.iter().map(|count| format!("{}{}", key, count));
        records.extend(counts.map(|line| without_end(place_of(key), &line)));
    }
    let whole = with_line(0, LINES[0]);
    records.extend(AFTER_THE_END.iter().map(|more| [&whole, more.as_bytes()].concat()));
    records
}

/// The number of the first line with the key of this one.
fn place_of(line: &str) -> usize {
    let key = &line[..=line.find('=').unwrap_or(0)];
    LINES.iter().position(|other| other.starts_with(key)).unwrap_or(0)
}

/// The description with this line at its place.
fn with_line(number: usize, line: &str) -> Vec<u8> {
    let mut lines: Vec<Vec<u8>> = LINES.iter().map(|line| line.as_bytes().to_vec()).collect();
    lines[number] = line.as_bytes().to_vec();
    ended(&lines)
}

/// The description up to this line, which has no LF.
fn without_end(number: usize, line: &str) -> Vec<u8> {
    let lines: Vec<Vec<u8>> = LINES[..number].iter().map(|line| line.as_bytes().to_vec()).collect();
    [&ended(&lines), line.as_bytes()].concat()
}
