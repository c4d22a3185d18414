//! The batch interface.

use crate::{batch, text};

const LISTED: &str = "names=1\nname=a\nequations=0\nterms=1\nterm=act a\nroot=0\norder=all\n";

fn answers(mut input: &[u8]) -> Result<String, String> {
    let mut output = Vec::new();
    batch::answer_all(text::answer, &mut input, &mut output)?;
    String::from_utf8(output).map_err(|fault| fault.to_string())
}

#[test]
fn each_record_gets_its_text() {
    let input = format!("{}\n{}0\n3\n\n\n\n{}\n{}", LISTED.len(), LISTED, LISTED.len(), LISTED);
    let answer = "38\nanswer=ok\nrounds=1\nlabels=1\nlabel=a:1\n";
    let refusal = "40\nanswer=refused\nreason=2\nline=1\ncolumn=1\n";
    assert_eq!(answers(input.as_bytes()), Ok([answer, refusal, refusal, answer].concat()));
    assert_eq!(answers(b""), Ok(String::new()));
}

#[test]
fn a_record_that_is_not_whole_is_told() {
    let cases = [
        ("5\nabc", "record 1: 5 bytes are due, 3 are there"),
        ("3\nabc2\nx", "record 2: 2 bytes are due, 1 are there"),
        ("x\nabc", "record 1: a length is due"),
        ("3", "record 1: a length is due"),
        ("-1\n", "record 1: a length is due"),
        ("\nabc", "record 1: a length is due"),
    ];
    for (input, fault) in cases {
        assert_eq!(answers(input.as_bytes()), Err(String::from(fault)), "{:?}", input);
    }
}
