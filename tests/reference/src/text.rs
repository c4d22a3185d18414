//! The text that is printed for one description.

use crate::bag::Bag;
use crate::description::{Description, Refusal};
use crate::reading;
use crate::rounds::{self, Outcome};
use crate::runs;

/// The text for one description, LF at the end of each line.
pub fn answer(input: &[u8]) -> String {
    answered_by(answered, input)
}

/// The labels that are met on runs, for a description that is answered: whether
/// each term is of a kind with an exact list, whether all runs were followed
/// or some, and of the labels met there those that the order leaves.
pub fn met_on_runs(input: &[u8]) -> String {
    answered_by(|description, _| met(description), input)
}

/// The text of an answer in the words of `tell`, or of the refusal.
fn answered_by(tell: fn(&Description, &Outcome) -> String, input: &[u8]) -> String {
    match worked_out(input) {
        Ok((description, outcome)) => tell(&description, &outcome),
        Err(refusal) => refused(refusal),
    }
}

/// A description and what it is answered with, or its refusal.
pub fn worked_out(input: &[u8]) -> Result<(Description, Outcome), Refusal> {
    let description = reading::read(input)?;
    match rounds::work_out(&description) {
        Ok(outcome) => Ok((description, outcome)),
        Err(_too_large) => Err(Refusal::of_no_line(7)),
    }
}

fn answered(description: &Description, outcome: &Outcome) -> String {
    let count = outcome.labels.len();
    let head = format!("answer=ok\nrounds={}\nlabels={}\n", outcome.rounds, count);
    head + &lines_of(&description.names, outcome.labels.iter())
}

fn met(description: &Description) -> String {
    let is_exact = if runs::has_exact_kinds_only(description) { "yes" } else { "no" };
    let (labels, are_all) = runs::follow(description);
    let runs = if are_all { "all" } else { "some" };
    let head = format!("answer=ok\nexact={}\nruns={}\nlabels={}\n", is_exact, runs, labels.len());
    head + &lines_of(&description.names, labels.iter())
}

fn lines_of<'a>(names: &[String], labels: impl Iterator<Item = &'a Bag>) -> String {
    labels.map(|label| format!("label={}\n", label_text(names, label))).collect()
}

fn refused(refusal: Refusal) -> String {
    let Refusal { reason, line, column } = refusal;
    format!("answer=refused\nreason={}\nline={}\ncolumn={}\n", reason, line, column)
}

fn label_text(names: &[String], label: &Bag) -> String {
    if label.is_tau() {
        return String::from("tau");
    }
    let parts = label.parts().map(|(name, count)| format!("{}:{}", names[name], count));
    parts.collect::<Vec<_>>().join(".")
}
