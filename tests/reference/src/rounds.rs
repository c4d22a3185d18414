//! The rounds in which the sets grow to the least ones.

use crate::description::{multi_actions, Description, Order};
use crate::label_set::{LabelSet, TooLarge};
use crate::limits::MOST_LABELS_TOGETHER;
use crate::sets::{cut_to, Workings};

/// What an answered description prints.
pub struct Outcome {
    /// The first round whose equation sets are those of the round before.
    pub rounds: usize,
    /// The root's set, cut to the labels of the order.
    pub labels: LabelSet,
}

/// Works the rounds out until the equation sets stay as they are. This ends:
/// the sets only grow, and one that grows for ever passes a limit.
pub fn work_out(description: &Description) -> Result<Outcome, TooLarge> {
    let multi_actions = multi_actions(&description.terms);
    let mut equations = vec![LabelSet::default(); description.bodies.len()];
    let mut rounds = 0;
    loop {
        rounds += 1;
        let sets = sets_of_terms(description, &multi_actions, &equations)?;
        let next: Vec<LabelSet> =
            description.bodies.iter().map(|body| sets[*body].clone()).collect();
        if next == equations {
            let labels = cut_to_order(description, &sets[description.root])?;
            return Ok(Outcome { rounds, labels });
        }
        equations = next;
    }
}

/// The sets of all terms in the round after `equations`.
fn sets_of_terms(
    description: &Description,
    multi_actions: &[bool],
    equations: &[LabelSet],
) -> Result<Vec<LabelSet>, TooLarge> {
    let names = description.names.len();
    let mut sets: Vec<LabelSet> = Vec::new();
    let mut together = 0;
    for term in &description.terms {
        let set = Workings { names, earlier: &sets, equations, multi_actions }.set_of(term)?;
        together += set.len();
        if together > MOST_LABELS_TOGETHER {
            return Err(TooLarge);
        }
        sets.push(set);
    }
    Ok(sets)
}

fn cut_to_order(description: &Description, root: &LabelSet) -> Result<LabelSet, TooLarge> {
    match &description.order {
        Order::All => Ok(root.clone()),
        Order::Only(listed) => cut_to(description.names.len(), root, listed),
    }
}
