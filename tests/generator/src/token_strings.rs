//! Every short string of list tokens, in each place where a list or a name
//! stands.

use crate::draft::Draft;

const TOKENS: &[&str] = &[
    "a", "b", "tau", "none", "all", "zz", "A", "0", "2", "31", "32", "01", ":", ".", ",", ">", " ",
];

/// Lists need more tokens than that; so whole entries are tokens as well.
const ENTRIES: &[&str] = &[
    "", "a", "b", "tau", "none", "all", "zz", "A", "a:1", "b:1", "a:2", "a:0", "a:31", "a:32",
    "a:01", "a:100", "a:", ":1", "tau:1", "none:0", "all:99", "zz:1", "A:1",
];

const FEW_ENTRIES: &[&str] = &["a:1", "b:1", "a:2", "b:2", "a:0", "a:16", "zz:1", "tau:1", "a", ""];

const NAMES: &[&str] = &["a", "b", "c", "tau", "none", "all", "zz", "A", "9", "a:1", ""];

const LABELS: &[&str] = &["a:2", "b:2", "a:1.b:1", "b:1.a:1", "a:1", "a:32", "zz:2", "tau:2", "a"];

const PLACES: &[&str] = &["act", "block", "hide", "rename", "comm", "allow", "order"];

pub fn records() -> Vec<Vec<u8>> {
    let mut records = Vec::new();
    for place in PLACES {
        let mut strings = strings_up_to_three();
        strings.extend(joined(ENTRIES, &[",", ".", ">", " "], ENTRIES));
        strings.extend(strings_for(place));
        records.extend(strings.iter().map(|list| in_place(place, list)));
    }
    records
}

/// The description in which this list stands at this place.
fn in_place(place: &str, list: &str) -> Vec<u8> {
    let mut draft = Draft::with_letters(3);
    let first = draft.act(0);
    let second = draft.act(1);
    let some = draft.two("merge", first, second);
    let more = draft.two("merge", some, first);
    if place == "act" {
        draft.add(format!("act {}", list));
    } else {
        draft.place_list(place, more, list);
    }
    draft.bytes()
}

fn strings_up_to_three() -> Vec<String> {
    let none = vec![String::new()];
    let one = longer(&none);
    let two = longer(&one);
    let three = longer(&two);
    [none, one, two, three].concat()
}

/// Every string with one token more.
fn longer(strings: &[String]) -> Vec<String> {
    strings
        .iter()
        .flat_map(|string| TOKENS.iter().map(move |token| format!("{}{}", string, token)))
        .collect()
}

/// Longer strings where this place can take them.
fn strings_for(place: &str) -> Vec<String> {
    match place {
        "block" | "hide" => joined(&joined(NAMES, &[","], NAMES), &[","], NAMES),
        "rename" => {
            let pairs = joined(NAMES, &[">"], NAMES);
            joined(&pairs, &[","], &["a>b", "b>a", "c>c", "b>zz", "tau>b", "b", "", "B>a"])
        }
        "comm" => {
            let rules = joined(LABELS, &[">"], &["a", "b", "zz", "tau", "A", "a:1", ""]);
            let two_parts =
                joined(&joined(FEW_ENTRIES, &["."], FEW_ENTRIES), &[">"], &["c", "none"]);
            [joined(&rules, &[","], &rules), two_parts, rules].concat()
        }
        "allow" | "order" => {
            let two = joined(FEW_ENTRIES, &[",", "."], FEW_ENTRIES);
            joined(&two, &[",", "."], FEW_ENTRIES)
        }
        _ => Vec::new(),
    }
}

fn joined<L: AsRef<str>, R: AsRef<str>>(left: &[L], marks: &[&str], right: &[R]) -> Vec<String> {
    let mut strings = Vec::new();
    for left in left {
        for mark in marks {
            let begun = format!("{}{}", left.as_ref(), mark);
            strings.extend(right.iter().map(|right| format!("{}{}", begun, right.as_ref())));
        }
    }
    strings
}
