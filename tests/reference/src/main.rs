//! The alphabet of a process description, worked out a second time.
//!
//! This program is written from document 01 and the requests that were built
//! since, and shares nothing with the proved crates, so that a misreading on
//! either side shows up as a difference. It prefers the plainest way over the
//! quickest one.
//!
//! Without an argument it reads one description and prints its text; with
//! `--runs` it prints the labels that are met on runs instead (see `runs`), and
//! with `--batch` it does so for each record (see `batch`). With `--tally` and
//! the names of files it prints the tally over these (see `tally`), and with
//! `--additions` it makes additions to a tally (see `additions`).

mod additions;
mod bag;
mod batch;
mod description;
mod label_set;
mod limits;
mod reading;
mod rounds;
mod runs;
mod sets;
mod tally;
#[cfg(test)]
mod tests;
mod text;

use std::fs;
use std::io::{self, BufWriter, Read, Write};
use std::process::ExitCode;
use tally::{Tally, Verdict};

fn main() -> ExitCode {
    match run() {
        Ok(()) => ExitCode::SUCCESS,
        Err(fault) => {
            eprintln!("reference: {}", fault);
            ExitCode::FAILURE
        }
    }
}

fn run() -> Result<(), String> {
    let arguments: Vec<String> = std::env::args().skip(1).collect();
    let arguments: Vec<&str> = arguments.iter().map(String::as_str).collect();
    let mut input = io::stdin().lock();
    let mut output = BufWriter::new(io::stdout().lock());
    let done = match arguments[..] {
        [] => answer_one(text::answer, &mut input, &mut output),
        ["--batch"] => batch::answer_all(text::answer, &mut input, &mut output),
        ["--runs"] => answer_one(text::met_on_runs, &mut input, &mut output),
        ["--runs", "--batch"] => batch::answer_all(text::met_on_runs, &mut input, &mut output),
        ["--tally", ref files @ ..] => tally_files(files, &mut output),
        ["--additions"] => additions::add_all(&mut input, &mut output),
        _ => {
            Err(String::from("usage: reference [--runs] [--batch] | --tally FILE.. | --additions"))
        }
    };
    // What was answered before a fault is printed, too.
    output.flush().map_err(|fault| fault.to_string())?;
    done
}

fn answer_one(
    answer: fn(&[u8]) -> String,
    input: &mut impl Read,
    output: &mut impl Write,
) -> Result<(), String> {
    let mut description = Vec::new();
    let read = input.read_to_end(&mut description);
    let written = read.and_then(|_| output.write_all(answer(&description).as_bytes()));
    written.map_err(|fault| fault.to_string())
}

/// The tally over files. One that cannot be opened or read is named and counted
/// nowhere.
fn tally_files(files: &[&str], output: &mut impl Write) -> Result<(), String> {
    let mut tally = Tally::default();
    let mut left_out = 0;
    for file in files {
        if let Err(fault) = add_file(&mut tally, file) {
            eprintln!("reference: {}: {}", file, fault);
            left_out += 1;
        }
    }
    output.write_all(tally.text().as_bytes()).map_err(|fault| fault.to_string())?;
    match left_out {
        0 => Ok(()),
        _ => Err(format!("{} of {} files are not counted", left_out, files.len())),
    }
}

fn add_file(tally: &mut Tally, file: &str) -> Result<(), String> {
    let description = fs::read(file).map_err(|fault| fault.to_string())?;
    let added = tally.add(&Verdict::of(&description));
    added.map_err(|left_out| format!("refusal {} of the tally", left_out.number()))
}
