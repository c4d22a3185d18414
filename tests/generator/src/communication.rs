//! Many rules at once: rules that overlap, that are applied several times,
//! that lead to the same label in several ways, and whose results are what
//! rules look for, but are set aside; and results that come back as labels,
//! through a comm around the comm or through a recursion.

use crate::draft::{doubled, Draft};
use crate::lists::{self, Label, Lists};
use crate::names;
use crate::random::Random;
use crate::recursion::UNIONS;
use crate::well_formed::order;

pub fn record(random: &mut Random) -> Vec<u8> {
    let name_count = random.within(2..=6);
    let mut writer = Writer { draft: Draft::new(names::any(random, name_count)), likely: vec![] };
    let operand = match random.below(10) {
        0..=3 => writer.side_by_side(random),
        4..=6 => writer.long_label(random),
        7 => writer.dies(random),
        _ => writer.long_label_beside_dies(random),
    };
    match random.below(10) {
        0..=5 => writer.communicate(random, operand),
        6..=7 => writer.communicate_twice(random, operand),
        _ => writer.communicate_in_rounds(random, operand),
    };
    let Writer { mut draft, likely } = writer;
    if random.chance(40) {
        draft.order = order(random, &draft.names, &likely);
    }
    draft.bytes()
}

/// A draft, with labels that its terms may have.
struct Writer {
    draft: Draft,
    likely: Vec<Label>,
}

impl Writer {
    /// Two to five parts, and what they may have together.
    fn side_by_side(&mut self, random: &mut Random) -> usize {
        let mut all = self.part(random);
        for _ in 1..random.within(2..=5) {
            let part = self.part(random);
            all = match random.below(5) {
                0 => self.draft.two("choice", all, part),
                _ => self.draft.side_by_side(random, all, part),
            };
        }
        let sum = |name: usize| self.likely.iter().map(|label| label[name]).sum();
        let together = (0..self.draft.names.len()).map(sum).collect();
        self.likely.push(together);
        all
    }

    /// One to four actions at once.
    fn part(&mut self, random: &mut Random) -> usize {
        let label = lists::label(random, self.draft.names.len(), 1..=4);
        let part = self.draft.multi_action(&label);
        self.likely.push(label);
        part
    }

    /// One label with many choices of parts: many actions of few names.
    fn long_label(&mut self, random: &mut Random) -> usize {
        let names = self.draft.names.len();
        let most = if random.chance(12) { 31 } else { 12 };
        let used = random.within(1..=names.min(3));
        let mut label = lists::label(random, used, 4..=most);
        label.resize(names, 0);
        random.shuffle(&mut label);
        let term = self.draft.multi_action(&label);
        self.likely.push(label);
        term
    }

    /// Dies that each report one of a few names: many labels, and each of them
    /// is what another leaves of itself.
    fn dies(&mut self, random: &mut Random) -> usize {
        let reports = random.within(1..=self.draft.names.len().min(3));
        let dies = random.within(2..=[16, 9, 6][reports - 1]);
        let die = self.draft.one_of_the_first(reports);
        for _ in 0..3 {
            let mut label = lists::label(random, reports, 1..=dies);
            label.resize(self.draft.names.len(), 0);
            self.likely.push(label);
        }
        doubled(die, dies, &mut |left, right| self.draft.side_by_side(random, left, right))
    }

    /// Many labels with many choices of parts, of which few are what another
    /// leaves.
    fn long_label_beside_dies(&mut self, random: &mut Random) -> usize {
        let label = self.long_label(random);
        let dies = self.dies(random);
        self.draft.side_by_side(random, label, dies)
    }

    fn communicate(&mut self, random: &mut Random, operand: usize) -> usize {
        let rules = self.rules(random);
        self.draft.with_list("comm", operand, &rules)
    }

    fn rules(&self, random: &mut Random) -> String {
        let lists = Lists::new(&self.draft.names, &self.likely);
        if random.chance(50) {
            lists.rules(random, 8)
        } else {
            lists.knotted_rules(random, 8)
        }
    }

    /// The results of the inner comm are labels for the outer one, whose rules
    /// are the same or others.
    fn communicate_twice(&mut self, random: &mut Random, operand: usize) -> usize {
        let rules = self.rules(random);
        let mut inner = self.draft.with_list("comm", operand, &rules);
        if random.chance(30) {
            let part = self.part(random);
            inner = self.draft.side_by_side(random, inner, part);
        }
        if random.chance(40) {
            return self.draft.with_list("comm", inner, &rules);
        }
        self.communicate(random, inner)
    }

    /// The results are labels in the next round, as they are or renamed. There
    /// is an end to it, since each has fewer actions than what it is made of.
    fn communicate_in_rounds(&mut self, random: &mut Random, operand: usize) -> usize {
        let mut later = self.draft.one("ref", 0);
        if random.chance(30) {
            later = self.draft.two(random.pick(UNIONS), operand, later);
        }
        later = self.communicate(random, later);
        if random.chance(40) {
            let pairs = Lists::new(&self.draft.names, &self.likely).pairs(random);
            later = self.draft.with_list("rename", later, &pairs);
        }
        let body = self.draft.two(random.pick(UNIONS), later, operand);
        self.draft.bodies.push(body);
        if random.chance(30) {
            return self.communicate(random, body);
        }
        body
    }
}
