//! Looking names up among those given. `None` is refusal 3. As `tau`, `none`
//! and `all` are never given, they are unknown wherever a name stands.

use super::forms::Word;
use crate::description::{List, Order, Parts, Term};

pub fn term(names: &[String], form: &Term<Word>) -> Option<Term<usize>> {
    Some(match form {
        Term::Act(word) => Term::Act(known(names, word)?),
        Term::Tau => Term::Tau,
        Term::Delta => Term::Delta,
        Term::Ref(equation) => Term::Ref(*equation),
        Term::One(kind, operand) => Term::One(*kind, *operand),
        Term::Two(kind, left, right) => Term::Two(*kind, *left, *right),
        Term::With(operand, list) => Term::With(*operand, list_of(names, list)?),
    })
}

pub fn order(names: &[String], form: &Order<Word>) -> Option<Order<usize>> {
    Some(match form {
        Order::All => Order::All,
        Order::Only(labels) => Order::Only(each(labels, |parts| label(names, parts))?),
    })
}

fn list_of(names: &[String], form: &List<Word>) -> Option<List<usize>> {
    let look_up = |word: &Word| known(names, word);
    Some(match form {
        List::Block(words) => List::Block(each(words, look_up)?),
        List::Hide(words) => List::Hide(each(words, look_up)?),
        List::Rename(pairs) => {
            List::Rename(each(pairs, |(from, to)| Some((look_up(from)?, look_up(to)?)))?)
        }
        List::Comm(rules) => {
            List::Comm(each(rules, |(left, right)| Some((label(names, left)?, look_up(right)?)))?)
        }
        List::Allow(labels) => List::Allow(each(labels, |parts| label(names, parts))?),
    })
}

fn label(names: &[String], form: &Parts<Word>) -> Option<Parts<usize>> {
    each(form, |(word, count)| Some((known(names, word)?, *count)))
}

fn each<A, B>(entries: &[A], look_up: impl Fn(&A) -> Option<B>) -> Option<Vec<B>> {
    entries.iter().map(look_up).collect()
}

fn known(names: &[String], word: &[u8]) -> Option<usize> {
    names.iter().position(|name| name.as_bytes() == word)
}
