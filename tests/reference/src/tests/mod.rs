//! Tests by table: a case is a line of a table, not a function.

mod additions;
mod batches;
mod columns;
mod document_examples;
mod many_names;
mod reading_limits;
mod refusals;
mod runs;
mod set_limits;
mod sets_by_kind;
mod syncs;
mod tallies;
mod whole_text;

use crate::text;

/// What a description is made of, for tests about sets.
struct Case<'a> {
    names: &'a [&'a str],
    terms: &'a [&'a str],
    bodies: &'a [usize],
    root: usize,
    order: &'a str,
}

impl Case<'_> {
    fn description(&self) -> String {
        let mut lines = vec![format!("names={}", self.names.len())];
        lines.extend(self.names.iter().map(|name| format!("name={}", name)));
        lines.push(format!("equations={}", self.bodies.len()));
        lines.push(format!("terms={}", self.terms.len()));
        lines.extend(self.terms.iter().map(|term| format!("term={}", term)));
        lines.extend(self.bodies.iter().map(|body| format!("equation={}", body)));
        lines.push(format!("root={}", self.root));
        lines.push(format!("order={}", self.order));
        joined(&lines)
    }

    fn text(&self) -> String {
        text::answer(self.description().as_bytes())
    }
}

fn joined<L: AsRef<str>>(lines: &[L]) -> String {
    lines.iter().map(|line| format!("{}\n", line.as_ref())).collect()
}

/// The text of an answer, labels separated by spaces.
fn answered(rounds: usize, labels: &str) -> String {
    let labels: Vec<&str> = labels.split_whitespace().collect();
    let head = format!("answer=ok\nrounds={}\nlabels={}\n", rounds, labels.len());
    head + &label_lines(&labels)
}

fn label_lines(labels: &[&str]) -> String {
    labels.iter().map(|label| format!("label={}\n", label)).collect()
}

fn refused(reason: u8, line: usize, column: usize) -> String {
    format!("answer=refused\nreason={}\nline={}\ncolumn={}\n", reason, line, column)
}

/// Adds the merge of so many copies of term 0, built by doubling, and gives
/// its number.
fn merge_dies(terms: &mut Vec<String>, dies: usize) -> usize {
    if dies == 1 {
        return 0;
    }
    let half = merge_dies(terms, dies / 2);
    terms.push(format!("merge {} {}", half, half));
    if dies % 2 == 1 {
        terms.push(format!("merge {} 0", terms.len() - 1));
    }
    terms.len() - 1
}

fn as_strs(strings: &[String]) -> Vec<&str> {
    strings.iter().map(String::as_str).collect()
}
