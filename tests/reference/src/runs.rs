//! The labels that are met on finite runs, found by following all of them.

use crate::bag::Bag;
use crate::description::{Description, List, Order, Parts, Term, TwoKind};
use crate::sets::{images, sides_of, ways_to_communicate};
use std::collections::{BTreeMap, BTreeSet};
use std::rc::Rc;

/// How many steps are looked at before the rest is left: a recursion may have
/// states without end, and even steps without end from one state.
const MOST_STEPS: usize = 20_000;

/// Whether each term of the table, used or not, is of a kind with an exact list.
pub fn has_exact_kinds_only(description: &Description) -> bool {
    description.terms.iter().all(|term| match term {
        Term::Act(_) | Term::Tau | Term::One(_, _) => true,
        Term::Delta | Term::Ref(_) => false,
        Term::Two(kind, _, _) => !matches!(kind, TwoKind::LMerge | TwoKind::Sync),
        Term::With(_, list) => !matches!(list, List::Block(_) | List::Allow(_)),
    })
}

/// The labels met on runs that the order leaves, and whether every run was
/// followed.
pub fn follow(description: &Description) -> (BTreeSet<Bag>, bool) {
    let mut runs = Runs::new(description);
    let has_all_first_steps = runs.find_first_steps();
    runs.left = MOST_STEPS;
    let mut labels = runs.labels_from(State::Term(description.root));
    if let Order::Only(listed) = &description.order {
        labels.retain(|label| is_let_through(description.names.len(), listed, label));
    }
    (labels, has_all_first_steps && runs.left > 0)
}

/// What remains to be done. States are numbered as they are met, and those
/// inside a state are told by their numbers.
#[derive(Clone, Copy, PartialEq, Eq, PartialOrd, Ord)]
enum State {
    Ended,
    /// A term that has not stepped yet.
    Term(usize),
    /// A state, and the term that follows it.
    Then(StateNumber, usize),
    /// Two states of which neither has ended; after their first steps an
    /// lmerge and a sync are this as well.
    Merge(StateNumber, StateNumber),
    /// A state inside the operator of a term, which stays.
    Inside(StateNumber, usize),
}

type StateNumber = usize;

/// The steps of a state: labels, and what remains after each.
type Steps = BTreeSet<(Bag, StateNumber)>;

struct Runs<'a> {
    description: &'a Description,
    states: Vec<State>,
    numbers: BTreeMap<State, StateNumber>,
    /// Of each term, as far as they were found.
    first_steps: Vec<Rc<Steps>>,
    /// Of each state, once it was asked for them.
    steps: Vec<Option<Rc<Steps>>>,
    /// How many more steps are looked at.
    left: usize,
}

impl Runs<'_> {
    fn new(description: &Description) -> Runs<'_> {
        let no_step: Rc<Steps> = Rc::default();
        let first_steps = vec![no_step; description.terms.len()];
        let (states, numbers, steps) = (Vec::new(), BTreeMap::new(), Vec::new());
        Runs { description, states, numbers, first_steps, steps, left: MOST_STEPS }
    }

    /// The labels of all steps from all states that can be reached, those
    /// that are reached with fewer steps first.
    fn labels_from(&mut self, start: State) -> BTreeSet<Bag> {
        let mut labels = BTreeSet::new();
        let mut reached = vec![self.number_of(start)];
        let mut seen = BTreeSet::new();
        let mut next = 0;
        while next < reached.len() && self.left > 0 {
            for (label, after) in self.steps_of(reached[next]).iter() {
                labels.insert(label.clone());
                if seen.insert(*after) {
                    reached.push(*after);
                }
            }
            next += 1;
        }
        labels
    }

    /// The first steps of all terms. A step is a finite derivation: one that
    /// goes through a reference to its own equation has been a step of that
    /// equation before. So they are found in rounds, as the sets are, from
    /// equations without a step. Tells whether there was an end to it; if not,
    /// the last round is not whole, and what the one before had is kept.
    fn find_first_steps(&mut self) -> bool {
        loop {
            let bodies = self.description.bodies.iter();
            let equations: Vec<_> = bodies.map(|body| self.first_steps[*body].clone()).collect();
            for number in 0..self.first_steps.len() {
                let more = self.first_steps_of(number, &equations);
                self.first_steps[number] = of_both(&self.first_steps[number], &more);
            }
            let mut bodies = self.description.bodies.iter().zip(&equations);
            if self.left == 0 || bodies.all(|(body, before)| self.first_steps[*body] == *before) {
                return self.left > 0;
            }
        }
    }

    /// The first steps of a term, by those of the terms before it and those
    /// that the equations have so far.
    fn first_steps_of(&mut self, number: usize, equations: &[Rc<Steps>]) -> Rc<Steps> {
        let description = self.description;
        let names = description.names.len();
        match &description.terms[number] {
            Term::Act(name) => self.last_step(Bag::of_parts(names, &[(*name, 1)])),
            Term::Tau => self.last_step(Bag::tau(names)),
            Term::Delta => Rc::new(Steps::new()),
            Term::Ref(equation) => equations[*equation].clone(),
            Term::One(_, operand) => self.first_steps[*operand].clone(),
            Term::Two(kind, left, right) => self.first_steps_of_two(*kind, *left, *right),
            Term::With(operand, _) => {
                let inner = self.first_steps[*operand].clone();
                self.steps_inside(&inner, number)
            }
        }
    }

    fn last_step(&mut self, label: Bag) -> Rc<Steps> {
        let mut found = Steps::new();
        found.insert((label, self.number_of(State::Ended)));
        Rc::new(found)
    }

    fn first_steps_of_two(&mut self, kind: TwoKind, left: usize, right: usize) -> Rc<Steps> {
        let (ones, others) = (self.first_steps[left].clone(), self.first_steps[right].clone());
        let (one, other) = (self.number_of(State::Term(left)), self.number_of(State::Term(right)));
        match kind {
            TwoKind::Choice | TwoKind::IfElse => of_both(&ones, &others),
            TwoKind::Seq => self.steps_then(&ones, right),
            TwoKind::Merge => self.steps_of_merge((one, &ones), (other, &others)),
            TwoKind::LMerge => Rc::new(self.with_steps_beside(Steps::new(), &ones, other)),
            TwoKind::Sync => Rc::new(self.with_joint_steps(Steps::new(), &ones, &others)),
        }
    }

    /// The steps of a state, each looked for once.
    fn steps_of(&mut self, number: StateNumber) -> Rc<Steps> {
        if let Some(steps) = &self.steps[number] {
            return steps.clone();
        }
        let steps = match self.states[number] {
            State::Ended => Rc::new(Steps::new()),
            State::Term(term) => self.first_steps[term].clone(),
            State::Then(first, term) => {
                let firsts = self.steps_of(first);
                self.steps_then(&firsts, term)
            }
            State::Merge(one, other) => {
                let (ones, others) = (self.steps_of(one), self.steps_of(other));
                self.steps_of_merge((one, &ones), (other, &others))
            }
            State::Inside(inner, term) => {
                let inner = self.steps_of(inner);
                self.steps_inside(&inner, term)
            }
        };
        self.steps[number] = Some(steps.clone());
        steps
    }

    fn steps_then(&mut self, firsts: &Steps, term: usize) -> Rc<Steps> {
        let mut found = Steps::new();
        for (label, after) in firsts {
            let after = self.then(*after, term);
            self.note(&mut found, label.clone(), after);
        }
        Rc::new(found)
    }

    /// Either side alone, or both at once with the labels added.
    fn steps_of_merge(
        &mut self,
        (one, ones): (StateNumber, &Steps),
        (other, others): (StateNumber, &Steps),
    ) -> Rc<Steps> {
        let found = Steps::new();
        let found = self.with_steps_beside(found, ones, other);
        let found = self.with_steps_beside(found, others, one);
        let found = self.with_joint_steps(found, ones, others);
        Rc::new(found)
    }

    /// The steps of one side alone: the other remains as it is.
    fn with_steps_beside(&mut self, mut found: Steps, steps: &Steps, other: StateNumber) -> Steps {
        for (label, after) in steps {
            let after = self.merge(*after, other);
            self.note(&mut found, label.clone(), after);
        }
        found
    }

    fn with_joint_steps(&mut self, mut found: Steps, ones: &Steps, others: &Steps) -> Steps {
        for (one, after_one) in ones {
            for (other, after_other) in others {
                if self.left == 0 {
                    return found;
                }
                let after = self.merge(*after_one, *after_other);
                self.note(&mut found, one.plus(other), after);
            }
        }
        found
    }

    fn steps_inside(&mut self, inner: &Steps, term: usize) -> Rc<Steps> {
        let mut found = Steps::new();
        for (label, after) in inner {
            let after = self.inside(*after, term);
            for label in self.labels_through(term, label) {
                self.note(&mut found, label, after);
            }
        }
        Rc::new(found)
    }

    /// What the operator of a term makes of one label.
    fn labels_through(&self, term: usize, label: &Bag) -> Vec<Bag> {
        let names = self.description.names.len();
        let passed = |passes: bool| passes.then(|| label.clone()).into_iter().collect();
        match &self.description.terms[term] {
            Term::With(_, List::Block(blocked)) => passed(!label.has_any_of(blocked)),
            Term::With(_, List::Hide(hidden)) => vec![label.without_names(hidden)],
            Term::With(_, List::Rename(pairs)) => vec![label.renamed(&images(names, pairs))],
            Term::With(_, List::Comm(rules)) => {
                let ways = ways_to_communicate(names, label, &sides_of(names, rules));
                ways.iter().map(|(rest, aside)| rest.plus(aside)).collect()
            }
            Term::With(_, List::Allow(listed)) => passed(is_let_through(names, listed, label)),
            _ => unreachable!("only a term with a list is around a state"),
        }
    }

    /// Takes a step in, if some more may be looked at.
    fn note(&mut self, steps: &mut Steps, label: Bag, after: StateNumber) {
        if self.left > 0 {
            self.left -= 1;
            steps.insert((label, after));
        }
    }

    fn then(&mut self, first: StateNumber, term: usize) -> StateNumber {
        match self.states[first] {
            State::Ended => self.number_of(State::Term(term)),
            _ => self.number_of(State::Then(first, term)),
        }
    }

    /// Where a side has ended the other remains. Which side is which makes no
    /// difference, so two merges that are alike but for that are one state.
    fn merge(&mut self, one: StateNumber, other: StateNumber) -> StateNumber {
        match (self.states[one], self.states[other]) {
            (State::Ended, _) => other,
            (_, State::Ended) => one,
            _ => self.number_of(State::Merge(one.min(other), one.max(other))),
        }
    }

    fn inside(&mut self, inner: StateNumber, term: usize) -> StateNumber {
        match self.states[inner] {
            State::Ended => inner,
            _ => self.number_of(State::Inside(inner, term)),
        }
    }

    fn number_of(&mut self, state: State) -> StateNumber {
        let next = self.states.len();
        let number = *self.numbers.entry(state).or_insert(next);
        if number == next {
            self.states.push(state);
            self.steps.push(None);
        }
        number
    }
}

fn of_both(steps: &Steps, more: &Steps) -> Rc<Steps> {
    let mut all = steps.clone();
    all.extend(more.iter().cloned());
    Rc::new(all)
}

/// Whether a list of labels lets one through; it always does tau.
fn is_let_through(names: usize, listed: &[Parts<usize>], label: &Bag) -> bool {
    label.is_tau() || listed.iter().any(|parts| Bag::of_parts(names, parts) == *label)
}
