//! Names that descriptions are written with.

use crate::random::Random;

/// Families of names that are easy to take for one another, or for a word
/// that means something else.
const FAMILIES: &[&[&str]] = &[
    &["done", "close", "start", "busy", "erase", "write", "read", "parity", "die", "stripe"],
    &["a", "aa", "aaa", "aaaa", "ab", "aba", "abb", "b", "ba", "bb", "aab", "aaaaaaaa"],
    &["a", "a1", "a10", "a100", "a2", "a01", "a0", "a9", "a99", "b1", "b10", "b01"],
    &["ta", "taux", "tau1", "non", "nones", "none0", "al", "alll", "all1", "t", "n", "al1"],
    &["act", "delta", "ref", "sum", "order", "root", "term", "names", "name", "block", "equation"],
    &["abcdefgh", "abcdefg", "abcdefgi", "bcdefgha", "a2345678", "zzzzzzzz", "z", "zz", "y9"],
];

/// a, b, c and so on.
pub fn letters(count: usize) -> Vec<String> {
    (b'a'..=b'z').take(count).map(|letter| char::from(letter).to_string()).collect()
}

/// Names of the greatest length, one for each letter.
pub fn long(count: usize) -> Vec<String> {
    letters(count).iter().map(|letter| letter.repeat(8)).collect()
}

/// How many names there are where there may be more than twelve: any number, those
/// around twelve and the last ones more often.
pub fn count(random: &mut Random) -> usize {
    match random.below(20) {
        0..=4 => random.within(1..=24),
        5..=12 => random.within(11..=14),
        _ => random.within(23..=24),
    }
}

/// So many different names, none of them out of form.
pub fn any(random: &mut Random, count: usize) -> Vec<String> {
    if random.chance(50) {
        return letters(count);
    }
    let family = random.pick(FAMILIES);
    let mut names: Vec<String> = family.iter().map(|name| String::from(*name)).collect();
    names.extend((0..24).map(|number| format!("x{}", number)));
    random.shuffle(&mut names[..family.len()]);
    names.truncate(count);
    names
}
