//! Additions to a tally, record by record.

use super::joined;
use crate::additions::add_all;

/// A record with its first byte, its figures and its verdict.
fn record(first: u8, figures: [u32; 11], verdict: [u64; 3]) -> Vec<u8> {
    let figures = figures.iter().flat_map(|figure| figure.to_le_bytes());
    let verdict = verdict.iter().flat_map(|number| number.to_le_bytes());
    [first].into_iter().chain(figures).chain(verdict).collect()
}

fn printed(input: &[u8]) -> Result<String, String> {
    let mut output = Vec::new();
    add_all(&mut &*input, &mut output)?;
    String::from_utf8(output).map_err(|fault| fault.to_string())
}

/// What is printed after an addition, its numbers separated by spaces.
fn told(numbers: &str) -> String {
    let keys = [
        "said", "descriptions", "answered", "refused", "reason1", "reason2", "reason3", "reason4",
        "reason5", "reason7", "reason10", "labels", "rounds",
    ];
    let lines =
        keys.iter().zip(numbers.split(' ')).map(|(key, number)| format!("{}={}", key, number));
    joined(&lines.collect::<Vec<_>>())
}

const SOME: [u32; 11] = [100, 60, 1, 2, 3, 4, 5, 6, 7, 2_000, 40];

#[test]
fn each_addition_is_told() {
    let records = [
        // The figures are not looked at where the tally goes on, here from empty.
        (record(0, SOME, [0, 9, 8]), "0 1 1 0 0 0 0 0 0 0 0 8 9"),
        (record(0, SOME, [10, 0, 0]), "0 2 1 1 0 0 0 0 0 0 1 8 9"),
        (record(1, SOME, [7, 0, 0]), "0 101 60 29 1 2 3 4 5 7 7 2000 40"),
        (record(0, [0; 11], [6, 0, 0]), "18 101 60 29 1 2 3 4 5 7 7 2000 40"),
        (record(0, [0; 11], [0, 50, 1_024]), "0 102 61 29 1 2 3 4 5 7 7 3024 50"),
        (record(0, [0; 11], [0, 1 << 32 | 1, 1]), "18 102 61 29 1 2 3 4 5 7 7 3024 50"),
        (record(1, [0, 0, 0, 0, 0, 0, 0, 0, 0, u32::MAX, 0], [0, 1, 1]), FULL_OF_LABELS),
        (record(1, [0; 11], [1, 0, 0]), "0 1 0 1 1 0 0 0 0 0 0 0 0"),
    ];
    let input: Vec<u8> = records.iter().flat_map(|(record, _)| record.clone()).collect();
    let due: String = records.iter().map(|(_, numbers)| told(numbers)).collect();
    assert_eq!(printed(&input), Ok(due));
}

const FULL_OF_LABELS: &str = "17 0 0 0 0 0 0 0 0 0 0 4294967295 0";

#[test]
fn what_is_not_whole_is_dropped() {
    let whole = record(0, SOME, [1, 0, 0]);
    let due = told("0 1 0 1 1 0 0 0 0 0 0 0 0");
    for rest in 0..whole.len() {
        let input = [&whole[..], &whole[..rest]].concat();
        assert_eq!(printed(&input), Ok(due.clone()), "{} bytes more", rest);
        assert_eq!(printed(&whole[..rest]), Ok(String::new()), "{} bytes", rest);
    }
}

#[test]
fn a_first_byte_that_means_nothing_is_told() {
    assert_eq!(printed(&record(2, SOME, [1, 0, 0])), Err(String::from("a record begins with 2")));
}
