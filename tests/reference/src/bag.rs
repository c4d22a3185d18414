//! Labels: bags of action names with unbounded counts.

use std::cmp::Ordering;

/// How often each name occurs, by the name's number.
///
/// All bags of one description have as many places as it has names.
#[derive(Clone, Debug, PartialEq, Eq)]
pub struct Bag {
    counts: Vec<u64>,
}

impl Bag {
    /// The empty bag.
    pub fn tau(names: usize) -> Bag {
        Bag { counts: vec![0; names] }
    }

    /// The bag of the parts (name, count) that a label is written with.
    pub fn of_parts(names: usize, parts: &[(usize, u64)]) -> Bag {
        let mut bag = Bag::tau(names);
        for (name, count) in parts {
            bag.counts[*name] += count;
        }
        bag
    }

    /// The names that occur, with their counts, ascending by number.
    pub fn parts(&self) -> impl Iterator<Item = (usize, u64)> + '_ {
        let all = self.counts.iter().copied().enumerate();
        all.filter(|(_, count)| *count > 0)
    }

    pub fn is_tau(&self) -> bool {
        self.actions() == 0
    }

    pub fn actions(&self) -> u64 {
        self.counts.iter().sum()
    }

    pub fn has_any_of(&self, names: &[usize]) -> bool {
        names.iter().any(|name| self.counts[*name] > 0)
    }

    pub fn plus(&self, other: &Bag) -> Bag {
        let pairs = self.counts.iter().zip(&other.counts);
        Bag { counts: pairs.map(|(a, b)| a + b).collect() }
    }

    /// What remains when `part` is taken out, if it lies inside.
    pub fn minus(&self, part: &Bag) -> Option<Bag> {
        let pairs = self.counts.iter().zip(&part.counts);
        let counts = pairs.map(|(a, b)| a.checked_sub(*b)).collect::<Option<_>>()?;
        Some(Bag { counts })
    }

    pub fn without_names(&self, names: &[usize]) -> Bag {
        let mut bag = self.clone();
        for name in names {
            bag.counts[*name] = 0;
        }
        bag
    }

    /// Every name replaced by `images[name]`, all at once.
    pub fn renamed(&self, images: &[usize]) -> Bag {
        let mut bag = Bag::tau(self.counts.len());
        for (name, count) in self.counts.iter().enumerate() {
            bag.counts[images[name]] += count;
        }
        bag
    }
}

/// Ascending by the label's number, the sum of count(n) times 32 to the n.
///
/// As no count of a label that is kept passes 31, the highest name in whose
/// count two bags differ decides.
impl Ord for Bag {
    fn cmp(&self, other: &Bag) -> Ordering {
        self.counts.iter().rev().cmp(other.counts.iter().rev())
    }
}

impl PartialOrd for Bag {
    fn partial_cmp(&self, other: &Bag) -> Option<Ordering> {
        Some(self.cmp(other))
    }
}
