//! Reading a description, line by line in the fixed order.
//!
//! A line goes through the refusals in the order of their numbers: its form
//! (2), its names (3), its numbers (4), its lists (5). Each step looks at the
//! whole line, so the smallest number decides; and of several faults with that
//! number each step finds the leftmost.

mod checks;
pub mod columns;
pub mod forms;
mod lines;
mod naming;
pub mod shapes;
pub mod words;

use crate::description::{Description, Order, Refusal, Term};
use crate::limits::{EQUATIONS, MOST_BYTES, NAMES, TERMS};
use lines::Lines;
use std::ops::RangeInclusive;

pub fn read(input: &[u8]) -> Result<Description, Refusal> {
    if input.len() > MOST_BYTES {
        return Err(Refusal::of_no_line(1));
    }
    let mut lines = Lines::new(input);
    let names = read_names(&mut lines)?;
    let equation_count = read_count(&mut lines, "equations", EQUATIONS)?;
    let term_count = read_count(&mut lines, "terms", TERMS)?;
    let mut terms = Vec::new();
    for _ in 0..term_count {
        let term = read_term(&mut lines, &names, equation_count, terms.len())?;
        terms.push(term);
    }
    let mut bodies = Vec::new();
    for _ in 0..equation_count {
        bodies.push(read_term_number(&mut lines, "equation", term_count)?);
    }
    let root = read_term_number(&mut lines, "root", term_count)?;
    let order = read_order(&mut lines, &names)?;
    lines.end()?;
    Ok(Description { names, terms, bodies, root, order })
}

fn read_names(lines: &mut Lines) -> Result<Vec<String>, Refusal> {
    let count = read_count(lines, "names", NAMES)?;
    let mut names: Vec<String> = Vec::new();
    for _ in 0..count {
        let word = lines.read("name", words::name, &shapes::NAME)?;
        let name = String::from_utf8_lossy(word).into_owned();
        if words::is_reserved(word) || names.contains(&name) {
            return Err(lines.refuse(3, columns::value));
        }
        names.push(name);
    }
    Ok(names)
}

/// A count that says how many lines follow. Out of range it is 2, not 4: what
/// is due next would not be known.
fn read_count(
    lines: &mut Lines,
    key: &'static str,
    range: RangeInclusive<usize>,
) -> Result<usize, Refusal> {
    let count = lines.read(key, words::number, &shapes::NUMBER)?;
    if !range.contains(&count) {
        return Err(lines.refuse(2, columns::value));
    }
    Ok(count)
}

fn read_term(
    lines: &mut Lines,
    names: &[String],
    equations: usize,
    own_number: usize,
) -> Result<Term<usize>, Refusal> {
    let form = lines.read("term", forms::term, &shapes::TERM)?;
    let unknown = || lines.refuse(3, |line| columns::unknown_name(line, names));
    let term = naming::term(names, &form).ok_or_else(unknown)?;
    if let Some(number) = checks::number_out_of_range(&term, own_number, equations) {
        return Err(lines.refuse(4, |line| columns::operand(line, number)));
    }
    if let Some(entry) = checks::disorderly_entry(names.len(), &term) {
        return Err(lines.refuse(5, |line| columns::entry(line, entry)));
    }
    Ok(term)
}

fn read_term_number(lines: &mut Lines, key: &'static str, terms: usize) -> Result<usize, Refusal> {
    let number = lines.read(key, words::number, &shapes::NUMBER)?;
    if number >= terms {
        return Err(lines.refuse(4, columns::value));
    }
    Ok(number)
}

fn read_order(lines: &mut Lines, names: &[String]) -> Result<Order<usize>, Refusal> {
    let form = lines.read("order", forms::order, &shapes::ORDER)?;
    let unknown = || lines.refuse(3, |line| columns::unknown_name(line, names));
    let order = naming::order(names, &form).ok_or_else(unknown)?;
    if let Some(entry) = checks::disorderly_entry_of_order(names.len(), &order) {
        return Err(lines.refuse(5, |line| columns::entry(line, entry)));
    }
    Ok(order)
}
