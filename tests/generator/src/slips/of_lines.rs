//! Whole lines lost, put twice, moved or made up.

use super::Lines;
use crate::random::Random;

const STRAY: &[&[u8]] = &[
    b"", b" ", b"# a remark", b"names=1", b"name=a", b"name=zz", b"equations=0", b"terms=1",
    b"term=tau", b"term=act a", b"term=delta", b"equation=0", b"root=0", b"order=all", b"=", b"\r",
    b"order=none", b"label=tau", b"answer=ok",
];

/// A slip that leaves the counts as they are.
pub fn in_order(random: &mut Random, lines: &mut Lines) {
    let place = random.below(lines.len());
    let other = random.below(lines.len());
    let next = (place + 1) % lines.len();
    match random.below(7) {
        0 => drop(lines.remove(place)),
        1 => lines.insert(place, lines[other].clone()),
        2 => lines.swap(place, other),
        3 => lines.swap(place, next),
        4 => lines.insert(place, random.pick(STRAY).to_vec()),
        5 => lines.truncate(place.max(1)),
        _ => lines.push(random.pick(STRAY).to_vec()),
    }
    if lines.is_empty() {
        lines.push(Vec::new());
    }
}

/// A slip among the terms whose count is set right again, so that numbers
/// are off by one from there on.
pub fn of_terms(random: &mut Random, lines: &mut Lines) {
    let terms: Vec<usize> =
        (0..lines.len()).filter(|place| lines[*place].starts_with(b"term=")).collect();
    if terms.len() < 2 {
        return in_order(random, lines);
    }
    let place = random.pick(&terms);
    let other = random.pick(&terms);
    match random.below(5) {
        0 => drop(lines.remove(place)),
        1 => lines.insert(place, lines[other].clone()),
        2 => lines.swap(place, other),
        3 => {
            let number = random.within(1..=terms.len() - 1);
            let (left, right) = (random.below(number), random.below(number));
            lines[terms[number]] = format!("term=sync {} {}", left, right).into_bytes();
        }
        _ => {
            let moved = lines.remove(place);
            lines.insert(other, moved);
        }
    }
    let count = lines.iter().filter(|line| line.starts_with(b"term=")).count();
    if let Some(line) = lines.iter_mut().find(|line| line.starts_with(b"terms=")) {
        *line = format!("terms={}", count).into_bytes();
    }
}
