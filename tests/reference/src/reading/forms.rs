//! The form of a term and of the order: what can be seen without knowing the
//! names, the counts or the other terms. `None` is refusal 2.

use super::words::{name, number};
use crate::description::{List, OneKind, Order, Parts, Term, TwoKind};

/// A name that was not looked up yet.
pub type Word<'a> = &'a [u8];

pub fn term(value: &[u8]) -> Option<Term<Word<'_>>> {
    let parts: Vec<&[u8]> = value.split(|byte| *byte == b' ').collect();
    Some(match parts[..] {
        [b"tau"] => Term::Tau,
        [b"delta"] => Term::Delta,
        [b"act", a] => Term::Act(name(a)?),
        [b"ref", e] => Term::Ref(number(e)?),
        [kind, t] => Term::One(one_kind(kind)?, number(t)?),
        [b"block", t, l] => Term::With(number(t)?, List::Block(entries(l, name)?)),
        [b"hide", t, l] => Term::With(number(t)?, List::Hide(entries(l, name)?)),
        [b"rename", t, l] => Term::With(number(t)?, List::Rename(entries(l, pair)?)),
        [b"comm", t, l] => Term::With(number(t)?, List::Comm(entries(l, rule)?)),
        [b"allow", t, l] => Term::With(number(t)?, List::Allow(labels(l)?)),
        [kind, t, u] => Term::Two(two_kind(kind)?, number(t)?, number(u)?),
        _ => return None,
    })
}

pub fn order(value: &[u8]) -> Option<Order<Word<'_>>> {
    if value == b"all" {
        return Some(Order::All);
    }
    Some(Order::Only(labels(value)?))
}

fn one_kind(word: Word) -> Option<OneKind> {
    match word {
        b"sum" => Some(OneKind::Sum),
        b"cond" => Some(OneKind::Cond),
        _ => None,
    }
}

fn two_kind(word: Word) -> Option<TwoKind> {
    match word {
        b"choice" => Some(TwoKind::Choice),
        b"ifelse" => Some(TwoKind::IfElse),
        b"seq" => Some(TwoKind::Seq),
        b"merge" => Some(TwoKind::Merge),
        b"lmerge" => Some(TwoKind::LMerge),
        b"sync" => Some(TwoKind::Sync),
        _ => None,
    }
}

/// Every entry of a comma separated list. An empty list has one empty entry,
/// which no kind of entry takes.
fn entries<'a, E>(list: &'a [u8], entry: fn(&'a [u8]) -> Option<E>) -> Option<Vec<E>> {
    list.split(|byte| *byte == b',').map(entry).collect()
}

/// LABELS: `none`, or labels.
fn labels(list: &[u8]) -> Option<Vec<Parts<Word<'_>>>> {
    if list == b"none" {
        return Some(Vec::new());
    }
    entries(list, label)
}

fn label(text: &[u8]) -> Option<Parts<Word<'_>>> {
    text.split(|byte| *byte == b'.').map(part).collect()
}

fn part(text: &[u8]) -> Option<(Word<'_>, u64)> {
    let (word, count) = halves(text, b':')?;
    Some((name(word)?, number(count)? as u64))
}

fn pair(text: &[u8]) -> Option<(Word<'_>, Word<'_>)> {
    let (from, to) = halves(text, b'>')?;
    Some((name(from)?, name(to)?))
}

fn rule(text: &[u8]) -> Option<(Parts<Word<'_>>, Word<'_>)> {
    let (left, right) = halves(text, b'>')?;
    Some((label(left)?, name(right)?))
}

/// What stands before and behind the first separator.
fn halves(text: &[u8], separator: u8) -> Option<(&[u8], &[u8])> {
    let place = text.iter().position(|byte| *byte == separator)?;
    Some((&text[..place], &text[place + 1..]))
}
