//! Descriptions to compare programs with, in the batch format: for each a
//! decimal length, LF and that many bytes. The same seed gives the same bytes.
//!
//! `--seed N` gives others, `--size PERCENT` more or fewer. `--classes FILE`
//! writes the class of each record, in the same order, into a file.

mod across_12;
mod columns;
mod communication;
mod cut_lines;
mod draft;
mod exact_kinds;
mod fault_pairs;
mod guesses;
mod lists;
mod many_names;
mod names;
mod random;
mod reading_limits;
mod recursion;
mod set_limits;
mod slips;
mod soups;
mod spread_names;
mod sync_operands;
mod token_strings;
mod well_formed;

use random::Random;
use std::fs;
use std::io::{self, BufWriter, Write};
use std::process::ExitCode;

type Record = Vec<u8>;

/// A class of random records: its name, how one is made and how many.
type Class = (&'static str, fn(&mut Random) -> Record, usize);

/// A class of which every record there is belongs to each sample.
type WholeClass = (&'static str, fn() -> Vec<Record>);

const CLASSES: &[Class] = &[
    ("well-formed", well_formed::record, 50_000),
    ("recursion", recursion::record, 15_000),
    ("communication", communication::record, 5_000),
    ("turning", recursion::turning, 800),
    ("turning-for-long", recursion::turning_for_long, 8),
    ("climbing", recursion::climbing, 500),
    ("labels-of-one-set", set_limits::labels_of_one_set, 300),
    ("labels-of-all-sets", set_limits::labels_of_all_sets, 400),
    ("actions-of-a-label", set_limits::actions_of_a_label, 2_000),
    ("shared-bodies", set_limits::shared_bodies, 60),
    ("dies", set_limits::dies, 300),
    ("sync-operands", sync_operands::record, 8_000),
    ("exact-kinds", exact_kinds::record, 5_000),
    ("bytes", reading_limits::bytes, 2_500),
    ("counts", reading_limits::counts, 1_500),
    ("list-lengths", reading_limits::list_lengths, 8_000),
    ("long-labels", reading_limits::long_labels, 2_000),
    ("columns", columns::record, 8_000),
    ("slips", slips::record, 60_000),
    ("soups", soups::record, 15_000),
    ("spread-names", spread_names::record, 7_000),
    ("across-12", across_12::record, 5_000),
    ("many-names", many_names::record, 2_500),
    ("long-lists", reading_limits::long_lists, 2_500),
    ("counts-of-names", reading_limits::counts_of_names, 1_200),
    ("slips-with-more-names", slips::with_more_names, 3_000),
    ("limits-with-more-names", spread_names::at_limits, 400),
    ("longest-texts", set_limits::longest_texts, 10),
];

const WHOLE_CLASSES: &[WholeClass] = &[
    ("cut-lines", cut_lines::records),
    ("fault-pairs", fault_pairs::records),
    ("token-strings", token_strings::records),
];

const DEFAULT_SEED: u64 = 1_516;

struct Options {
    seed: u64,
    percent: usize,
    classes: Option<String>,
}

fn main() -> ExitCode {
    match run() {
        Ok(()) => ExitCode::SUCCESS,
        Err(fault) => {
            eprintln!("generator: {}", fault);
            ExitCode::FAILURE
        }
    }
}

fn run() -> Result<(), String> {
    let usage = "usage: generator [--seed N] [--size PERCENT] [--classes FILE]";
    let options = options(std::env::args().skip(1)).ok_or(usage)?;
    let records = records(&options);
    if let Some(path) = &options.classes {
        let classes: String = records.iter().map(|(class, _)| format!("{}\n", class)).collect();
        let written = fs::write(path, classes);
        written.map_err(|fault| format!("{} cannot be written: {}", path, fault))?;
    }
    let mut output = BufWriter::new(io::stdout().lock());
    let written = records.iter().try_for_each(|(_, record)| {
        writeln!(output, "{}", record.len())?;
        output.write_all(record)
    });
    let written = written.and_then(|()| output.flush());
    written.map_err(|fault| format!("standard output cannot be written: {}", fault))
}

fn options(mut arguments: impl Iterator<Item = String>) -> Option<Options> {
    let mut options = Options { seed: DEFAULT_SEED, percent: 100, classes: None };
    while let Some(argument) = arguments.next() {
        let value = arguments.next()?;
        match argument.as_str() {
            "--seed" => options.seed = value.parse().ok()?,
            "--size" => options.percent = value.parse().ok()?,
            "--classes" => options.classes = Some(value),
            _ => return None,
        }
    }
    Some(options)
}

/// All records with their classes, mixed so that the records of each class
/// are spread evenly: a difference of any sort is met early, and the heavy
/// ones do not come all at once.
fn records(options: &Options) -> Vec<(&'static str, Record)> {
    let mut placed = Vec::new();
    for (class, make, count) in CLASSES {
        // Each class has its own numbers, so a change in one leaves the others.
        let mut random = Random::new(options.seed ^ number_of(class));
        let records = (0..count * options.percent / 100).map(|_| make(&mut random)).collect();
        spread(&mut random, class, records, &mut placed);
    }
    for (class, all) in WHOLE_CLASSES {
        let mut random = Random::new(options.seed ^ number_of(class));
        let mut records = all();
        random.shuffle(&mut records);
        spread(&mut random, class, records, &mut placed);
    }
    placed.sort_by_key(|(place, _, _)| *place);
    placed.into_iter().map(|(_, class, record)| (class, record)).collect()
}

/// Gives each record of a class a place in its own part of the whole.
fn spread(
    random: &mut Random,
    class: &'static str,
    records: Vec<Record>,
    placed: &mut Vec<(usize, &'static str, Record)>,
) {
    const PLACES: usize = 1 << 40;
    let part = PLACES / records.len().max(1);
    for (number, record) in records.into_iter().enumerate() {
        placed.push((number * part + random.below(part), class, record));
    }
}

/// A number for a name, by the hash known as FNV-1a.
fn number_of(name: &str) -> u64 {
    name.bytes().fold(0xcbf2_9ce4_8422_2325, |hash, byte| {
        (hash ^ u64::from(byte)).wrapping_mul(0x0000_0100_0000_01b3)
    })
}
