//! Sets of labels within their limits.

use crate::bag::Bag;
use crate::limits::{MOST_ACTIONS_IN_A_SET, MOST_LABELS_OF_A_SET};
use std::collections::BTreeSet;

/// A set passed a limit. Sets only grow from round to round, so this decides.
#[derive(Clone, Copy, Debug, PartialEq, Eq)]
pub struct TooLarge;

/// A set of labels, each once, ascending by number.
#[derive(Clone, Debug, Default, PartialEq, Eq)]
pub struct LabelSet {
    labels: BTreeSet<Bag>,
}

impl LabelSet {
    pub fn from_labels(labels: impl Iterator<Item = Bag>) -> Result<LabelSet, TooLarge> {
        let mut set = LabelSet::default();
        set.add_all(labels)?;
        Ok(set)
    }

    /// Adds a label and says whether it is new. Every label that enters any
    /// set comes through here, so this is where a set's limits are seen.
    pub fn add(&mut self, label: Bag) -> Result<bool, TooLarge> {
        if label.actions() > MOST_ACTIONS_IN_A_SET {
            return Err(TooLarge);
        }
        let is_new = self.labels.insert(label);
        if self.len() > MOST_LABELS_OF_A_SET {
            return Err(TooLarge);
        }
        Ok(is_new)
    }

    pub fn add_all(&mut self, labels: impl Iterator<Item = Bag>) -> Result<(), TooLarge> {
        for label in labels {
            self.add(label)?;
        }
        Ok(())
    }

    pub fn iter(&self) -> impl Iterator<Item = &Bag> {
        self.labels.iter()
    }

    pub fn len(&self) -> usize {
        self.labels.len()
    }
}
