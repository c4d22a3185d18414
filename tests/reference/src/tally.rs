//! One running tally over many descriptions, as request 2026-11 has it.

use crate::text;
use std::ops::RangeInclusive;

/// The numbers of the refusals that calls give; each has a figure of its own.
pub const REASONS: [u64; 7] = [1, 2, 3, 4, 5, 7, 10];

/// What a figure may reach but not pass.
const MOST_OF_A_FIGURE: u64 = 4_294_967_295;

/// What a call may say with an answer.
const MOST_LABELS: u64 = 1_024;
const ROUNDS: RangeInclusive<u64> = 1..=2_049;

/// What is said of one description. The reason is the number of the refusal, or
/// 0 for an answer.
#[derive(Clone, Copy, Debug, PartialEq, Eq)]
pub struct Verdict {
    pub reason: u64,
    pub rounds: u64,
    pub labels: u64,
}

impl Verdict {
    /// What this program says of a description.
    pub fn of(input: &[u8]) -> Verdict {
        match text::worked_out(input) {
            Ok((_, outcome)) => Verdict {
                reason: 0,
                rounds: outcome.rounds as u64,
                labels: outcome.labels.len() as u64,
            },
            Err(refusal) => Verdict { reason: u64::from(refusal.reason), rounds: 0, labels: 0 },
        }
    }

    /// Whether there may be a call that says this.
    fn is_given_by_some_call(&self) -> bool {
        match self.reason {
            0 => self.labels <= MOST_LABELS && ROUNDS.contains(&self.rounds),
            reason => REASONS.contains(&reason) && self.labels == 0 && self.rounds == 0,
        }
    }
}

/// Why a verdict is not taken in.
#[derive(Clone, Copy, Debug, PartialEq, Eq)]
pub enum LeftOut {
    NoSuchVerdict,
    FigureFull,
}

impl LeftOut {
    pub fn number(self) -> u8 {
        match self {
            LeftOut::NoSuchVerdict => 18,
            LeftOut::FigureFull => 17,
        }
    }
}

/// The figures. They are wide enough to be carried past what they may reach,
/// so that this is looked at in one place.
#[derive(Clone, Debug, Default, PartialEq, Eq)]
pub struct Tally {
    pub descriptions: u64,
    pub answered: u64,
    /// By the places of the numbers in `REASONS`.
    pub refusals: [u64; 7],
    pub labels: u64,
    pub most_rounds: u64,
}

impl Tally {
    /// Takes a verdict in; what is left out changes nothing.
    pub fn add(&mut self, verdict: &Verdict) -> Result<(), LeftOut> {
        if !verdict.is_given_by_some_call() {
            return Err(LeftOut::NoSuchVerdict);
        }
        let next = self.with(verdict);
        if next.has_passed_the_bound() {
            return Err(LeftOut::FigureFull);
        }
        *self = next;
        Ok(())
    }

    /// The tally with one verdict more, whatever its figures come to.
    fn with(&self, verdict: &Verdict) -> Tally {
        let mut next = self.clone();
        next.descriptions += 1;
        match REASONS.iter().position(|reason| *reason == verdict.reason) {
            Some(place) => next.refusals[place] += 1,
            None => next.answered += 1,
        }
        next.labels += verdict.labels;
        next.most_rounds = next.most_rounds.max(verdict.rounds);
        next
    }

    fn has_passed_the_bound(&self) -> bool {
        let counts = [self.descriptions, self.answered, self.labels];
        counts.iter().chain(&self.refusals).any(|figure| *figure > MOST_OF_A_FIGURE)
    }

    fn refused(&self) -> u64 {
        self.refusals.iter().sum()
    }

    /// A line for each figure, LF at its end.
    pub fn text(&self) -> String {
        let (descriptions, answered) = (self.descriptions, self.answered);
        let head = format!("descriptions={}\nanswered={}\n", descriptions, answered);
        let refused = format!("refused={}\n", self.refused());
        let by_number = REASONS.iter().zip(&self.refusals);
        let by_number = by_number.map(|(reason, count)| format!("reason{}={}\n", reason, count));
        let rest = format!("labels={}\nrounds={}\n", self.labels, self.most_rounds);
        head + &refused + &by_number.collect::<String>() + &rest
    }
}
