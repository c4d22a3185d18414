//! Well-formed descriptions of every kind.

use crate::draft::Draft;
use crate::guesses::{self, Guess};
use crate::lists::{self, Label, Lists};
use crate::names;
use crate::random::Random;

/// How often each kind of term is written in a tame description, and in a
/// wild one, whose sets pass the limits now and then.
const KINDS: &[(&str, usize, usize)] = &[
    ("act", 4, 4),
    ("tau", 3, 3),
    ("delta", 3, 2),
    ("ref", 9, 6),
    ("sum", 2, 2),
    ("cond", 2, 2),
    ("choice", 14, 6),
    ("ifelse", 8, 3),
    ("seq", 14, 6),
    ("merge", 9, 14),
    ("lmerge", 6, 8),
    ("sync", 5, 8),
    ("block", 4, 3),
    ("hide", 4, 3),
    ("rename", 8, 5),
    ("comm", 9, 10),
    ("allow", 8, 5),
];

pub fn record(random: &mut Random) -> Vec<u8> {
    draft(random).bytes()
}

pub fn draft(random: &mut Random) -> Draft {
    let name_count = if random.chance(7) { 1 } else { 1 + sized(random, 3, 11) };
    let equations = if random.chance(40) { 0 } else { sized(random, 3, 16) };
    let terms = sized(random, 12, 40);
    let is_tame = random.chance(80);
    let weights: Vec<(&str, usize)> = KINDS
        .iter()
        .map(|(kind, tame, wild)| (*kind, if is_tame { *tame } else { *wild }))
        .collect();
    let mut writer = Writer::new(names::any(random, name_count), equations);
    // Something to begin with, so that the operators have what they work on.
    let at_first = if random.chance(85) { name_count.min(4) } else { 1 };
    for name in 0..at_first {
        writer.note_act(name);
    }
    for _ in 0..terms {
        writer.add(random, &weights);
    }
    writer.finish(random)
}

/// From 1 to `usual`, now and then up to `most`.
fn sized(random: &mut Random, usual: usize, most: usize) -> usize {
    let end = if random.chance(8) { most } else { usual };
    random.within(1..=end)
}

/// A number below `end`, the last ones more often: they hold more.
fn late(random: &mut Random, end: usize) -> usize {
    if random.chance(60) {
        end - 1 - random.below(end.min(3))
    } else {
        random.below(end)
    }
}

/// An order that is `all` or has some of the labels that are likely.
pub fn order(random: &mut Random, names: &[String], likely: &[Label]) -> String {
    if random.chance(65) {
        String::from("all")
    } else {
        let most = sized(random, 6, 32);
        Lists::new(names, likely).labels(random, most)
    }
}

/// A list that the kind of term takes.
pub fn list_for(random: &mut Random, kind: &str, names: &[String], likely: &[Label]) -> String {
    let lists = Lists::new(names, likely);
    match kind {
        "rename" => lists.pairs(random),
        "comm" => {
            let most = sized(random, 3, 8);
            lists.rules(random, most)
        }
        "allow" => {
            let most = sized(random, 8, 32);
            lists.labels(random, most)
        }
        _ => lists.plain_names(random),
    }
}

/// A draft with a guess for each of its terms.
pub struct Writer {
    draft: Draft,
    guesses: Vec<Guess>,
    equations: usize,
}

impl Writer {
    pub fn new(names: Vec<String>, equations: usize) -> Writer {
        Writer { draft: Draft::new(names), guesses: Vec::new(), equations }
    }

    pub fn note_act(&mut self, name: usize) {
        self.draft.act(name);
        let mut label = vec![0; self.draft.names.len()];
        label[name] = 1;
        self.guesses.push(vec![label]);
    }

    /// Adds a term of some kind, or an act where that kind cannot stand yet.
    fn add(&mut self, random: &mut Random, weights: &[(&str, usize)]) {
        let kind = random.weighted(weights);
        let of_multi_actions = kind == "sync" && random.chance(40);
        let can_be_operand = |term: &usize| !of_multi_actions || self.draft.is_multi_action(*term);
        let operands: Vec<usize> = (0..self.draft.terms.len()).filter(can_be_operand).collect();
        match kind {
            "act" | "tau" | "delta" | "ref" => self.add_leaf(random, kind),
            _ if operands.is_empty() => self.add_leaf(random, "act"),
            "sum" | "cond" => {
                let operand = self.operand(random, &operands);
                self.add_of_one(kind, operand);
            }
            "block" | "hide" | "rename" | "comm" | "allow" => {
                let operand = self.operand(random, &operands);
                self.add_with_list(random, kind, operand);
            }
            // As they come: a deadlock, which holds least, is wanted as well.
            _ if of_multi_actions => {
                let (left, right) = (random.pick(&operands), random.pick(&operands));
                self.add_of_two(random, kind, left, right);
            }
            _ => {
                let left = self.operand(random, &operands);
                let right = self.second_operand(random, &operands, left);
                self.add_of_two(random, kind, left, right);
            }
        }
    }

    /// Adds a term without an operand; an act for a ref, if there is no equation.
    pub fn add_leaf(&mut self, random: &mut Random, kind: &str) {
        let names = self.draft.names.len();
        match kind {
            "tau" => self.note(kind, vec![vec![0; names]]),
            "delta" => self.note(kind, Guess::new()),
            "ref" if self.equations > 0 => {
                let guess = (0..2).map(|_| lists::label(random, names, 1..=1)).collect();
                let term = format!("ref {}", random.below(self.equations));
                self.note(&term, guess);
            }
            _ => self.note_act(random.below(names)),
        }
    }

    pub fn add_of_one(&mut self, kind: &str, operand: usize) {
        self.note(&format!("{} {}", kind, operand), self.guesses[operand].clone());
    }

    pub fn add_of_two(&mut self, random: &mut Random, kind: &str, left: usize, right: usize) {
        let term = self.draft.two(kind, left, right);
        let has_both = !self.draft.is_multi_action(term);
        let (left, right) = (&self.guesses[left], &self.guesses[right]);
        let guess = guesses::of_two(random, kind, has_both, left, right);
        self.guesses.push(guess);
    }

    pub fn add_with_list(&mut self, random: &mut Random, kind: &str, operand: usize) {
        let list = list_for(random, kind, &self.draft.names, &self.guesses[operand]);
        self.add_list(random, kind, operand, &list);
    }

    /// Adds a term with this list.
    pub fn add_list(&mut self, random: &mut Random, kind: &str, operand: usize, list: &str) {
        let of = &self.guesses[operand];
        let guess = guesses::with_list(random, kind, list, &self.draft.names, of);
        self.note(&format!("{} {} {}", kind, operand, list), guess);
    }

    /// Lists by the labels that a term probably has.
    pub fn lists_over(&self, term: usize) -> Lists<'_> {
        Lists::new(&self.draft.names, &self.guesses[term])
    }

    /// Adds the actions of a label at once. What some of them are is not guessed.
    pub fn add_multi_action(&mut self, label: &Label) {
        let term = self.draft.multi_action(label);
        self.guesses.resize(term, Guess::new());
        self.guesses.push(vec![label.clone()]);
    }

    /// Adds a reference to an equation that has what some term has.
    pub fn add_ref_to(&mut self, equation: usize, like: usize) {
        self.note(&format!("ref {}", equation), self.guesses[like].clone());
    }

    fn note(&mut self, term: &str, guess: Guess) {
        self.draft.add(String::from(term));
        self.guesses.push(guess);
    }

    /// One of the terms, mostly the one of several that is thought to hold
    /// most.
    fn operand(&self, random: &mut Random, terms: &[usize]) -> usize {
        let mut chosen = terms[late(random, terms.len())];
        for _ in 0..random.weighted(&[(0, 20), (2, 40), (8, 40)]) {
            let other = random.pick(terms);
            if self.guesses[other].len() > self.guesses[chosen].len() {
                chosen = other;
            }
        }
        chosen
    }

    /// Mostly another term than the first operand.
    fn second_operand(&self, random: &mut Random, terms: &[usize], first: usize) -> usize {
        let second = self.operand(random, terms);
        if second == first && random.chance(80) {
            return random.pick(terms);
        }
        second
    }

    fn finish(self, random: &mut Random) -> Draft {
        let terms: Vec<usize> = (0..self.draft.terms.len()).collect();
        let bodies = (0..self.equations).map(|_| self.operand(random, &terms)).collect();
        let root = self.operand(random, &terms);
        self.finish_with(random, bodies, root)
    }

    pub fn finish_with(mut self, random: &mut Random, bodies: Vec<usize>, root: usize) -> Draft {
        self.draft.bodies = bodies;
        self.draft.root = root;
        self.draft.order = order(random, &self.draft.names, &self.guesses[root]);
        self.draft
    }

    pub fn names(&self) -> &[String] {
        &self.draft.names
    }

    /// The number of the term that was added last.
    pub fn last(&self) -> usize {
        self.draft.terms.len() - 1
    }
}
