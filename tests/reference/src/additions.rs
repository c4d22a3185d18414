//! Many additions to a tally in one run, each a record of 69 bytes: a byte that
//! is 1 to begin anew from the figures that follow, or 0 to go on; eleven
//! figures of 4 bytes; a verdict, three numbers of 8 bytes. The low byte of a
//! number comes first.

use crate::tally::{Tally, Verdict, REASONS};
use std::io::{Read, Write};

const BYTES_OF_A_RECORD: u64 = 69;

/// Prints for each record whether its verdict was taken in, and the tally then.
/// What is left of a record that is not whole is dropped.
pub fn add_all(input: &mut impl Read, output: &mut impl Write) -> Result<(), String> {
    let mut tally = Tally::default();
    loop {
        let mut record = Vec::new();
        let read = input.take(BYTES_OF_A_RECORD).read_to_end(&mut record);
        read.map_err(|fault| fault.to_string())?;
        if (record.len() as u64) < BYTES_OF_A_RECORD {
            return Ok(());
        }
        let (given, verdict) = record[1..].split_at(44);
        match record[0] {
            0 => {}
            1 => tally = tally_of(&numbers(given, 4)),
            other => return Err(format!("a record begins with {}", other)),
        }
        let said = tally.add(&verdict_of(&numbers(verdict, 8)));
        let said = said.map_or_else(|left_out| left_out.number(), |()| 0);
        let written = write!(output, "said={}\n{}", said, tally.text());
        written.map_err(|fault| fault.to_string())?;
    }
}

fn numbers(bytes: &[u8], width: usize) -> Vec<u64> {
    bytes.chunks(width).map(number).collect()
}

fn number(bytes: &[u8]) -> u64 {
    bytes.iter().rev().fold(0, |all, byte| (all << 8) | u64::from(*byte))
}

fn tally_of(figures: &[u64]) -> Tally {
    let (counts, rest) = figures.split_at(2);
    let (by_number, rest) = rest.split_at(REASONS.len());
    let mut refusals = [0; REASONS.len()];
    refusals.copy_from_slice(by_number);
    let (descriptions, answered) = (counts[0], counts[1]);
    Tally { descriptions, answered, refusals, labels: rest[0], most_rounds: rest[1] }
}

fn verdict_of(numbers: &[u64]) -> Verdict {
    Verdict { reason: numbers[0], rounds: numbers[1], labels: numbers[2] }
}
