//! What may still be wrong in a line of right form with known names:
//! numbers out of range (4), disorderly lists (5).

use crate::bag::Bag;
use crate::description::{List, Order, Parts, Term};
use crate::limits::{
    LEAST_ACTIONS_OF_A_LEFT_SIDE, MOST_ACTIONS_WRITTEN, MOST_LABELS_OF_A_LIST, MOST_RULES,
};

/// Operands must stand before the term itself, an equation must be there. Gives
/// the first number that is out of range, counted from 0.
pub fn number_out_of_range<N>(
    term: &Term<N>,
    own_number: usize,
    equations: usize,
) -> Option<usize> {
    let out_of_range = |number: &usize| *number >= own_number;
    match term {
        Term::Act(_) | Term::Tau | Term::Delta => None,
        Term::Ref(equation) => [*equation].iter().position(|number| *number >= equations),
        Term::One(_, operand) | Term::With(operand, _) => [*operand].iter().position(out_of_range),
        Term::Two(_, left, right) => [*left, *right].iter().position(out_of_range),
    }
}

/// The first entry of the term's list that is at fault, counted from 0.
pub fn disorderly_entry(names: usize, term: &Term<usize>) -> Option<usize> {
    match term {
        Term::With(_, List::Block(list) | List::Hide(list)) => not_above_the_one_before(list),
        Term::With(_, List::Rename(pairs)) => {
            let left_names: Vec<usize> = pairs.iter().map(|(from, _)| *from).collect();
            not_above_the_one_before(&left_names)
        }
        Term::With(_, List::Comm(rules)) => disorderly_rule(names, rules),
        Term::With(_, List::Allow(labels)) => disorderly_label(names, labels),
        _ => None,
    }
}

/// The same of an order.
pub fn disorderly_entry_of_order(names: usize, order: &Order<usize>) -> Option<usize> {
    match order {
        Order::All => None,
        Order::Only(labels) => disorderly_label(names, labels),
    }
}

fn disorderly_label(names: usize, labels: &[Parts<usize>]) -> Option<usize> {
    leftmost([
        first_too_many(labels.len(), MOST_LABELS_OF_A_LIST),
        labels.iter().position(|parts| !label_is_orderly(parts)),
        not_above_the_one_before(&bags(names, labels.iter())),
    ])
}

fn disorderly_rule(names: usize, rules: &[(Parts<usize>, usize)]) -> Option<usize> {
    let left_sides = rules.iter().map(|(left, _)| left);
    leftmost([
        first_too_many(rules.len(), MOST_RULES),
        left_sides.clone().position(|left| !label_is_orderly(left)),
        left_sides.clone().position(|left| actions(left) < LEAST_ACTIONS_OF_A_LEFT_SIDE),
        not_above_the_one_before(&bags(names, left_sides)),
    ])
}

fn leftmost<const N: usize>(faults: [Option<usize>; N]) -> Option<usize> {
    faults.into_iter().flatten().min()
}

fn first_too_many(entries: usize, most: usize) -> Option<usize> {
    (entries > most).then_some(most)
}

fn label_is_orderly(parts: &[(usize, u64)]) -> bool {
    let names: Vec<usize> = parts.iter().map(|(name, _)| *name).collect();
    not_above_the_one_before(&names).is_none()
        && parts.iter().all(|(_, count)| *count > 0)
        && actions(parts) <= MOST_ACTIONS_WRITTEN
}

fn actions(parts: &[(usize, u64)]) -> u64 {
    parts.iter().map(|(_, count)| count).sum()
}

fn bags<'a>(names: usize, labels: impl Iterator<Item = &'a Parts<usize>>) -> Vec<Bag> {
    labels.map(|parts| Bag::of_parts(names, parts)).collect()
}

/// The later of the first two entries that do not ascend; the same one twice
/// does not.
fn not_above_the_one_before<E: Ord>(entries: &[E]) -> Option<usize> {
    (1..entries.len()).find(|at| entries[at - 1] >= entries[*at])
}
