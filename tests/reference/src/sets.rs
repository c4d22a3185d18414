//! The set that each kind of term has.

use crate::bag::Bag;
use crate::description::{List, Parts, Term, TwoKind};
use crate::label_set::{LabelSet, TooLarge};
use std::collections::BTreeSet;

/// Works out one term's set from those of the terms before it and from the
/// sets that the equations had in the round before.
pub struct Workings<'a> {
    pub names: usize,
    pub earlier: &'a [LabelSet],
    pub equations: &'a [LabelSet],
    /// Of each term, the one that is worked out among them.
    pub multi_actions: &'a [bool],
}

impl Workings<'_> {
    pub fn set_of(&self, term: &Term<usize>) -> Result<LabelSet, TooLarge> {
        match term {
            Term::Act(name) => {
                LabelSet::from_labels([Bag::of_parts(self.names, &[(*name, 1)])].into_iter())
            }
            Term::Tau => LabelSet::from_labels([Bag::tau(self.names)].into_iter()),
            Term::Delta => Ok(LabelSet::default()),
            Term::Ref(equation) => Ok(self.equations[*equation].clone()),
            Term::One(_, operand) => Ok(self.earlier[*operand].clone()),
            Term::Two(kind, left, right) => {
                let is_multi_action = self.multi_actions[self.earlier.len()];
                let (left, right) = (&self.earlier[*left], &self.earlier[*right]);
                set_of_two(*kind, is_multi_action, left, right)
            }
            Term::With(operand, list) => self.set_with(&self.earlier[*operand], list),
        }
    }

    fn set_with(&self, operand: &LabelSet, list: &List<usize>) -> Result<LabelSet, TooLarge> {
        let labels = operand.iter();
        match list {
            List::Block(names) => {
                LabelSet::from_labels(labels.filter(|label| !label.has_any_of(names)).cloned())
            }
            List::Hide(names) => {
                LabelSet::from_labels(labels.map(|label| label.without_names(names)))
            }
            List::Rename(pairs) => {
                let images = images(self.names, pairs);
                LabelSet::from_labels(labels.map(|label| label.renamed(&images)))
            }
            List::Comm(rules) => communicated(self.names, operand, rules),
            List::Allow(listed) => cut_to(self.names, operand, listed),
        }
    }
}

/// After the joint first step the sides of a sync run on as a merge, so it has
/// the labels of each side, too. Those of a multi-action have ended by then.
fn set_of_two(
    kind: TwoKind,
    is_multi_action: bool,
    left: &LabelSet,
    right: &LabelSet,
) -> Result<LabelSet, TooLarge> {
    let mut set = LabelSet::default();
    let has_both = !is_multi_action;
    let has_product = matches!(kind, TwoKind::Merge | TwoKind::LMerge | TwoKind::Sync);
    if has_both {
        set.add_all(left.iter().chain(right.iter()).cloned())?;
    }
    if has_product {
        for label in left.iter() {
            set.add_all(right.iter().map(|other| label.plus(other)))?;
        }
    }
    Ok(set)
}

/// The renaming as a map: every name to itself, but for the pairs.
pub fn images(names: usize, pairs: &[(usize, usize)]) -> Vec<usize> {
    let mut images: Vec<usize> = (0..names).collect();
    for (from, to) in pairs {
        images[*from] = *to;
    }
    images
}

/// Each label, and what comes of it when rules are applied to disjoint parts
/// of it: what is left of the label with the results beside it.
fn communicated(
    names: usize,
    operand: &LabelSet,
    rules: &[(Parts<usize>, usize)],
) -> Result<LabelSet, TooLarge> {
    let rules = sides_of(names, rules);
    let mut found = LabelSet::default();
    for label in operand.iter() {
        let ways = ways_to_communicate(names, label, &rules);
        found.add_all(ways.iter().map(|(rest, aside)| rest.plus(aside)))?;
    }
    Ok(found)
}

/// Both sides of each rule as labels.
pub fn sides_of(names: usize, rules: &[(Parts<usize>, usize)]) -> Vec<(Bag, Bag)> {
    let side = |parts: &[(usize, u64)]| Bag::of_parts(names, parts);
    rules.iter().map(|(left, right)| (side(left), side(&[(*right, 1)]))).collect()
}

/// Every choice of applications to disjoint parts of a label, any number of
/// each rule: what is left of the label, from which alone further parts are
/// taken, and the results set aside. Which part was taken first makes no
/// difference, so the rules come one after the other; and two choices that
/// leave the same and set the same aside are one.
pub fn ways_to_communicate(
    names: usize,
    label: &Bag,
    rules: &[(Bag, Bag)],
) -> BTreeSet<(Bag, Bag)> {
    let mut ways = BTreeSet::from([(label.clone(), Bag::tau(names))]);
    for (left, right) in rules {
        let mut waiting: Vec<(Bag, Bag)> = ways.iter().cloned().collect();
        while let Some((rest, aside)) = waiting.pop() {
            if let Some(less) = rest.minus(left) {
                let way = (less, aside.plus(right));
                if ways.insert(way.clone()) {
                    waiting.push(way);
                }
            }
        }
    }
    ways
}

/// The labels that are listed, and tau: it is never cut.
pub fn cut_to(names: usize, set: &LabelSet, listed: &[Parts<usize>]) -> Result<LabelSet, TooLarge> {
    let listed: Vec<Bag> = listed.iter().map(|parts| Bag::of_parts(names, parts)).collect();
    let stays = |label: &&Bag| label.is_tau() || listed.contains(label);
    LabelSet::from_labels(set.iter().filter(stays).cloned())
}
