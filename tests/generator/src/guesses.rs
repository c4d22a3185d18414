//! A few labels that a term probably has. Lists that are chosen by them cut
//! and combine something; whether the guess is right does not matter.

use crate::draft::GROWING;
use crate::lists::{actions, ascending, difference, Label};
use crate::random::Random;

/// How many labels are kept for a term.
const MOST: usize = 20;

pub type Guess = Vec<Label>;

/// Not too many, and no label that passes a limit.
fn kept(random: &mut Random, mut labels: Vec<Label>) -> Guess {
    labels.retain(|label| actions(label) <= 31);
    let mut labels = ascending(labels);
    random.shuffle(&mut labels);
    labels.truncate(MOST);
    labels
}

/// A sync of multi-actions does not have both sides, every other term does.
pub fn of_two(
    random: &mut Random,
    kind: &str,
    has_both: bool,
    left: &Guess,
    right: &Guess,
) -> Guess {
    let mut labels = Vec::new();
    if has_both {
        labels.extend(left.iter().chain(right).cloned());
    }
    if GROWING.contains(&kind) {
        for one in left {
            labels.extend(right.iter().map(|other| sum(one, other)));
        }
    }
    kept(random, labels)
}

/// What the term with this list has, if its operand has the labels.
pub fn with_list(
    random: &mut Random,
    kind: &str,
    list: &str,
    names: &[String],
    of: &Guess,
) -> Guess {
    let number = |name: &str| names.iter().position(|other| other == name).unwrap_or(0);
    let numbers: Vec<usize> = list.split(',').map(number).collect();
    let mut labels = of.clone();
    match kind {
        "block" => labels.retain(|label| numbers.iter().all(|name| label[*name] == 0)),
        "hide" => labels.iter_mut().for_each(|label| numbers.iter().for_each(|n| label[*n] = 0)),
        "rename" => labels.iter_mut().for_each(|label| *label = renamed(label, list, number)),
        "comm" => {
            for (left, right) in list.split(',').filter_map(|rule| rule.split_once('>')) {
                let left = read(names.len(), left, number);
                let rests = of.iter().filter_map(|label| difference(label, &left));
                labels.extend(rests.map(|rest| more(rest, number(right))));
            }
        }
        _ => {
            let listed = list.split(',').map(|entry| read(names.len(), entry, number));
            let listed: Vec<Label> = listed.collect();
            labels.retain(|label| listed.contains(label));
        }
    }
    kept(random, labels)
}

fn sum(one: &Label, other: &Label) -> Label {
    one.iter().zip(other).map(|(a, b)| a + b).collect()
}

fn more(mut label: Label, name: usize) -> Label {
    label[name] += 1;
    label
}

fn renamed(label: &Label, pairs: &str, number: impl Fn(&str) -> usize) -> Label {
    let mut images: Vec<usize> = (0..label.len()).collect();
    for (from, to) in pairs.split(',').filter_map(|pair| pair.split_once('>')) {
        images[number(from)] = number(to);
    }
    let mut result = vec![0; label.len()];
    for (name, count) in label.iter().enumerate() {
        result[images[name]] += count;
    }
    result
}

/// The label that is written so; `none` reads as tau.
fn read(names: usize, text: &str, number: impl Fn(&str) -> usize) -> Label {
    let mut label = vec![0; names];
    for (name, count) in text.split('.').filter_map(|part| part.split_once(':')) {
        label[number(name)] += count.parse::<usize>().unwrap_or(0);
    }
    label
}
