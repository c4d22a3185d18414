//! The tally: what is taken in, what is left out and what the figures are then.

use super::{joined, Case};
use crate::tally::{LeftOut, Tally, Verdict, REASONS};

const BOUND: u64 = 4_294_967_295;

fn answer(rounds: u64, labels: u64) -> Verdict {
    Verdict { reason: 0, rounds, labels }
}

fn refusal(reason: u64) -> Verdict {
    Verdict { reason, rounds: 0, labels: 0 }
}

/// The tally of verdicts that must all be taken in.
fn tally_of(verdicts: &[Verdict]) -> Tally {
    let mut tally = Tally::default();
    for verdict in verdicts {
        assert_eq!(tally.add(verdict), Ok(()), "{:?}", verdict);
    }
    tally
}

/// What is said of a verdict that must not be taken in; the tally stays.
fn left_out(tally: &Tally, verdict: &Verdict) -> LeftOut {
    let mut after = tally.clone();
    let said = after.add(verdict).expect_err("a verdict is taken in");
    assert_eq!(after, *tally, "{:?}", verdict);
    said
}

#[test]
fn of_nothing() {
    let lines = [
        "descriptions=0", "answered=0", "refused=0", "reason1=0", "reason2=0", "reason3=0",
        "reason4=0", "reason5=0", "reason7=0", "reason10=0", "labels=0", "rounds=0",
    ];
    assert_eq!(Tally::default().text(), joined(&lines));
}

#[test]
fn of_several_verdicts() {
    let mut verdicts = vec![answer(2, 3), refusal(7), answer(9, 0), answer(1, 1_024)];
    verdicts.extend([1, 2, 2, 3, 3, 3, 4, 5, 7, 10, 10].map(refusal));
    let lines = [
        "descriptions=15", "answered=3", "refused=12", "reason1=1", "reason2=2", "reason3=3",
        "reason4=1", "reason5=1", "reason7=2", "reason10=2", "labels=1027", "rounds=9",
    ];
    assert_eq!(tally_of(&verdicts).text(), joined(&lines));
    verdicts.reverse();
    assert_eq!(tally_of(&verdicts).text(), joined(&lines), "the other way round");
}

#[test]
fn verdicts_that_some_call_gives() {
    for reason in REASONS {
        tally_of(&[refusal(reason)]);
    }
    for rounds in [1, 2, 2_048, 2_049] {
        for labels in [0, 1, 1_023, 1_024] {
            tally_of(&[answer(rounds, labels)]);
        }
    }
}

#[test]
fn verdicts_that_no_call_gives() {
    let full = full_tally();
    let mut verdicts: Vec<Verdict> =
        [6, 8, 9, 11, 12, 16, 17, 18, 255, u64::MAX].map(refusal).into();
    // The low bits of these look legal.
    verdicts.extend([1 << 32, (1 << 32) + 7, (1 << 8) + 1, (1 << 63) + 10].map(refusal));
    verdicts.extend([(1, 1_025), (2_050, 0), (0, 0), (0, 1_024), (0, 1_025)].map(as_answer));
    verdicts.extend([((1 << 32) + 1, 1), (1, 1 << 32), (u64::MAX, u64::MAX)].map(as_answer));
    for reason in REASONS {
        verdicts.push(Verdict { reason, rounds: 1, labels: 0 });
        verdicts.push(Verdict { reason, rounds: 0, labels: 1 });
        verdicts.push(Verdict { reason, rounds: 1 << 32, labels: 1 << 32 });
    }
    for verdict in verdicts {
        assert_eq!(left_out(&Tally::default(), &verdict), LeftOut::NoSuchVerdict, "{:?}", verdict);
        assert_eq!(left_out(&full, &verdict), LeftOut::NoSuchVerdict, "{:?} at the bound", verdict);
    }
}

fn as_answer((rounds, labels): (u64, u64)) -> Verdict {
    answer(rounds, labels)
}

fn full_tally() -> Tally {
    let refusals = [BOUND; REASONS.len()];
    let (descriptions, answered, labels, most_rounds) = (BOUND, BOUND, BOUND, BOUND);
    Tally { descriptions, answered, refusals, labels, most_rounds }
}

#[test]
fn each_figure_reaches_the_bound_and_does_not_pass_it() {
    let empty = Tally::default();
    let mut cases = vec![
        (Tally { descriptions: BOUND - 1, ..empty.clone() }, answer(1, 0)),
        (Tally { descriptions: BOUND - 1, ..empty.clone() }, refusal(3)),
        (Tally { answered: BOUND - 1, ..empty.clone() }, answer(1, 0)),
        (Tally { labels: BOUND - 1, ..empty.clone() }, answer(1, 1)),
        (Tally { labels: BOUND - 1_024, ..empty.clone() }, answer(1, 1_024)),
    ];
    for (place, reason) in REASONS.iter().enumerate() {
        let mut refusals = [0; REASONS.len()];
        refusals[place] = BOUND - 1;
        cases.push((Tally { refusals, ..empty.clone() }, refusal(*reason)));
    }
    for (mut tally, verdict) in cases {
        assert_eq!(tally.add(&verdict), Ok(()), "{:?}", tally);
        assert_eq!(left_out(&tally, &verdict), LeftOut::FigureFull, "{:?}", tally);
    }
}

/// What a full figure takes no part in is still taken in.
#[test]
fn beside_a_full_figure() {
    let empty = Tally::default();
    let cases = [
        (Tally { answered: BOUND, ..empty.clone() }, refusal(10)),
        (Tally { refusals: [BOUND; 7], ..empty.clone() }, answer(1, 1)),
        (Tally { refusals: [BOUND, 0, 0, 0, 0, 0, 0], ..empty.clone() }, refusal(2)),
        (Tally { labels: BOUND, ..empty.clone() }, refusal(1)),
        (Tally { labels: BOUND, ..empty.clone() }, answer(2_049, 0)),
        (Tally { most_rounds: BOUND, ..empty }, answer(2_049, 1)),
    ];
    for (mut tally, verdict) in cases {
        let rounds = tally.most_rounds.max(verdict.rounds);
        assert_eq!(tally.add(&verdict), Ok(()), "{:?}", tally);
        assert_eq!((tally.descriptions, tally.most_rounds), (1, rounds));
    }
}

#[test]
fn refused_may_be_more_than_a_figure_holds() {
    assert!(full_tally().text().contains("\nrefused=30064771065\n"));
}

#[test]
fn what_is_said_of_a_description() {
    let terms = &["act a", "ref 0", "merge 0 1"];
    let case = Case { names: &["a"], terms, bodies: &[0], root: 2, order: "a:2" };
    assert_eq!(Verdict::of(case.description().as_bytes()), answer(2, 1));
    let too_large = Case { bodies: &[2], ..case };
    assert_eq!(Verdict::of(too_large.description().as_bytes()), refusal(7));
    assert_eq!(Verdict::of(b""), refusal(2));
    assert_eq!(Verdict::of(&[0; 8_193]), refusal(1));
}

#[test]
fn numbers_of_what_is_left_out() {
    assert_eq!(LeftOut::NoSuchVerdict.number(), 18);
    assert_eq!(LeftOut::FigureFull.number(), 17);
}
