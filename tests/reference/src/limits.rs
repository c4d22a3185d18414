//! Every limit of document 01, and of request 2026-07 for names, in one place.

use std::ops::RangeInclusive;

pub const MOST_BYTES: usize = 8_192;

pub const NAMES: RangeInclusive<usize> = 1..=24;
pub const EQUATIONS: RangeInclusive<usize> = 0..=16;
pub const TERMS: RangeInclusive<usize> = 1..=96;

pub const MOST_BYTES_OF_A_NAME: usize = 8;
pub const MOST_DIGITS_OF_A_NUMBER: usize = 2;

/// Actions of a label that is written in a list.
pub const MOST_ACTIONS_WRITTEN: u64 = 31;
pub const LEAST_ACTIONS_OF_A_LEFT_SIDE: u64 = 2;
pub const MOST_RULES: usize = 8;
pub const MOST_LABELS_OF_A_LIST: usize = 32;

/// Actions of a label in the set of some term.
pub const MOST_ACTIONS_IN_A_SET: u64 = 31;
pub const MOST_LABELS_OF_A_SET: usize = 1_024;
/// Labels in the sets of all terms, each term counted for itself.
pub const MOST_LABELS_TOGETHER: usize = 2_048;
