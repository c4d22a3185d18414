//! Labels and well-formed lists of each kind, as they are written.

use crate::random::Random;
use std::cmp::Ordering;
use std::ops::RangeInclusive;

/// How often each name occurs, by the name's number.
pub type Label = Vec<usize>;

/// A left side and the name behind it.
type Rule = (Label, usize);

/// A label with so many actions.
pub fn label(random: &mut Random, names: usize, actions: RangeInclusive<usize>) -> Label {
    let mut label = vec![0; names];
    for _ in 0..random.within(actions) {
        label[random.below(names)] += 1;
    }
    label
}

pub fn written(names: &[String], label: &Label) -> String {
    let counts = names.iter().zip(label).filter(|(_, count)| **count > 0);
    let parts = counts.map(|(name, count)| format!("{}:{}", name, count));
    parts.collect::<Vec<_>>().join(".")
}

/// Ascending by number, each once: the last name weighs most.
pub fn ascending(mut labels: Vec<Label>) -> Vec<Label> {
    labels.sort_by(by_number);
    labels.dedup();
    labels
}

fn by_number(one: &Label, other: &Label) -> Ordering {
    one.iter().rev().cmp(other.iter().rev())
}

/// What remains of a label without a part, if that lies inside.
pub fn difference(whole: &Label, part: &Label) -> Option<Label> {
    whole.iter().zip(part).map(|(a, b)| a.checked_sub(*b)).collect()
}

/// The entries of a long list of this kind: as many labels or rules, a name or a
/// pair for each name.
pub fn entries(
    random: &mut Random,
    kind: &str,
    names: &[String],
    labels: usize,
    rules: usize,
) -> Vec<String> {
    let lists = Lists::new(names, &[]);
    let split = |list: String| list.split(',').map(String::from).collect();
    match kind {
        "allow" | "order" => split(lists.many_labels(random, labels)),
        "comm" => split(lists.many_rules(random, rules)),
        "rename" => names.iter().map(|name| format!("{}>{}", name, random.pick(names))).collect(),
        _ => names.to_vec(),
    }
}

/// Writes lists over some names, with labels that matter more than others.
pub struct Lists<'a> {
    names: &'a [String],
    /// Labels of the operand, as far as they can be guessed.
    likely: &'a [Label],
}

impl Lists<'_> {
    pub fn new<'a>(names: &'a [String], likely: &'a [Label]) -> Lists<'a> {
        Lists { names, likely }
    }

    /// LABELS with up to `most` labels, now and then `none`.
    pub fn labels(&self, random: &mut Random, most: usize) -> String {
        if random.chance(6) {
            return String::from("none");
        }
        let count = random.within(1..=most);
        let labels = (0..count).map(|_| self.some_label(random)).collect();
        self.joined_labels(&ascending(labels))
    }

    /// LABELS with exactly so many labels; three names are enough for 40.
    pub fn many_labels(&self, random: &mut Random, count: usize) -> String {
        let labels = self.exactly(random, count);
        self.joined_labels(&labels)
    }

    /// LIST.
    pub fn plain_names(&self, random: &mut Random) -> String {
        self.plain_names_up_to(random, 3)
    }

    pub fn plain_names_up_to(&self, random: &mut Random, most: usize) -> String {
        let count = random.within(1..=self.names.len().min(most));
        let chosen = random.several_below(self.names.len(), count);
        joined(chosen.iter().map(|name| self.names[*name].clone()))
    }

    /// PAIRS; some of them swap names or turn them round.
    pub fn pairs(&self, random: &mut Random) -> String {
        self.pairs_up_to(random, 4)
    }

    pub fn pairs_up_to(&self, random: &mut Random, most: usize) -> String {
        let count = random.within(1..=self.names.len().min(most));
        let from = random.several_below(self.names.len(), count);
        let turn = random.chance(40).then(|| random.below(count));
        let pairs = (0..count).map(|place| {
            let to = match turn {
                Some(turn) => from[(place + turn) % count],
                None => random.below(self.names.len()),
            };
            format!("{}>{}", self.names[from[place]], self.names[to])
        });
        joined(pairs)
    }

    /// RULES with up to `most` rules, of which some look for what the one
    /// before them gives.
    pub fn rules(&self, random: &mut Random, most: usize) -> String {
        let mut rules: Vec<Rule> = Vec::new();
        for _ in 0..random.within(1..=most) {
            let feeding = rules.last().filter(|_| random.chance(40));
            let fed = feeding.and_then(|rule| self.left_side_fed_by(random, rule));
            let left = fed.unwrap_or_else(|| self.some_left_side(random));
            rules.push((left, random.below(self.names.len())));
        }
        self.joined_rules(rules)
    }

    /// RULES with up to `most` rules over few names, so that each takes what
    /// others look for, and mostly gives it, too.
    pub fn knotted_rules(&self, random: &mut Random, most: usize) -> String {
        let met = |name: &usize| self.likely.iter().any(|label| label[*name] > 0);
        let met: Vec<usize> = (0..self.names.len()).filter(met).collect();
        let shared: Vec<usize> = (0..3).map(|_| random.pick(&met)).collect();
        let mut rules = Vec::new();
        for _ in 0..random.within(1..=most) {
            let left = self.left_side_of(random, &shared);
            let is_shared = random.chance(75);
            let any = random.below(self.names.len());
            rules.push((left, if is_shared { random.pick(&shared) } else { any }));
        }
        self.joined_rules(rules)
    }

    /// RULES with exactly so many rules.
    pub fn many_rules(&self, random: &mut Random, count: usize) -> String {
        let left_sides = self.exactly(random, count).into_iter();
        self.joined_rules(left_sides.map(|left| (left, random.below(self.names.len()))).collect())
    }

    /// Mostly a likely label, else one of few actions, else any.
    fn some_label(&self, random: &mut Random) -> Label {
        let likely = self.likely.iter().filter(|label| (1..=31).contains(&actions(label)));
        let likely: Vec<&Label> = likely.collect();
        match random.below(20) {
            0 => label(random, self.names.len(), 1..=31),
            1..=13 if !likely.is_empty() => random.pick(&likely).clone(),
            _ => label(random, self.names.len(), 1..=3),
        }
    }

    /// Mostly a part of a likely label, so that the rule is applied.
    fn some_left_side(&self, random: &mut Random) -> Label {
        let mut side = self.some_label(random);
        while actions(&side) > 2 && random.chance(60) {
            let less = random.below(side.len());
            side[less] = side[less].saturating_sub(1);
        }
        while actions(&side) < 2 {
            let more = random.below(side.len());
            side[more] += 1;
        }
        side
    }

    /// What a rule gives, with an action that it leaves of a likely label.
    fn left_side_fed_by(&self, random: &mut Random, (left, right): &Rule) -> Option<Label> {
        let rests = self.likely.iter().filter_map(|label| difference(label, left));
        let rests: Vec<Label> = rests.filter(|rest| actions(rest) > 0).collect();
        let rest = rests.get(random.below(rests.len().max(1)))?;
        let remaining: Vec<usize> = (0..rest.len()).filter(|name| rest[*name] > 0).collect();
        let mut side = vec![0; rest.len()];
        side[random.pick(&remaining)] += 1;
        side[*right] += 1;
        Some(side)
    }

    /// Two to four actions of these names.
    fn left_side_of(&self, random: &mut Random, names: &[usize]) -> Label {
        let mut side = vec![0; self.names.len()];
        for _ in 0..random.weighted(&[(2, 60), (3, 30), (4, 10)]) {
            side[random.pick(names)] += 1;
        }
        side
    }

    /// So many different labels, of two to six actions each.
    fn exactly(&self, random: &mut Random, count: usize) -> Vec<Label> {
        let mut labels: Vec<Label> = Vec::new();
        while labels.len() < count {
            let other = label(random, self.names.len(), 2..=6);
            if !labels.contains(&other) {
                labels.push(other);
            }
        }
        ascending(labels)
    }

    fn joined_labels(&self, labels: &[Label]) -> String {
        joined(labels.iter().map(|label| written(self.names, label)))
    }

    /// The rules ascending; of two with one left side the first.
    fn joined_rules(&self, mut rules: Vec<Rule>) -> String {
        rules.sort_by(|one, other| by_number(&one.0, &other.0));
        rules.dedup_by(|one, other| one.0 == other.0);
        let rules = rules
            .iter()
            .map(|(left, right)| format!("{}>{}", written(self.names, left), self.names[*right]));
        joined(rules)
    }
}

pub fn actions(label: &Label) -> usize {
    label.iter().sum()
}

fn joined(entries: impl Iterator<Item = String>) -> String {
    entries.collect::<Vec<_>>().join(",")
}
