//! Many descriptions in one run: each record is a decimal length, LF and that
//! many bytes, and so is each text that is printed.

use std::io::{BufRead, Error, Read, Write};

/// Answers each record before it reads the next one, so that a comparison can
/// stop at the first difference.
pub fn answer_all(
    answer: fn(&[u8]) -> String,
    input: &mut impl BufRead,
    output: &mut impl Write,
) -> Result<(), String> {
    let mut number = 1;
    while let Some(record) = next_record(input).map_err(|fault| in_record(number, &fault))? {
        let text = answer(&record);
        let written = write!(output, "{}\n{}", text.len(), text);
        written.map_err(|fault| in_record(number, &fault.to_string()))?;
        number += 1;
    }
    Ok(())
}

fn in_record(number: usize, fault: &str) -> String {
    format!("record {}: {}", number, fault)
}

/// The next record, or nothing at the end of the input.
fn next_record(input: &mut impl BufRead) -> Result<Option<Vec<u8>>, String> {
    let told = |fault: Error| fault.to_string();
    let mut line = Vec::new();
    if input.read_until(b'\n', &mut line).map_err(told)? == 0 {
        return Ok(None);
    }
    let digits = line.strip_suffix(b"\n").unwrap_or(&[]);
    let length = std::str::from_utf8(digits).ok().and_then(|digits| digits.parse().ok());
    let length: u64 = length.ok_or("a length is due")?;
    let mut record = Vec::new();
    input.take(length).read_to_end(&mut record).map_err(told)?;
    if (record.len() as u64) < length {
        return Err(format!("{} bytes are due, {} are there", length, record.len()));
    }
    Ok(Some(record))
}
