//! Lines with two faults, every pair of them: the first number that applies
//! decides, wherever in the line the faults stand.

use crate::draft::Draft;

/// Operands; OWN stands for the term's own number, NEXT for the one after it.
const NUMBERS: &[&str] = &["0", "1", "2", "3", "OWN", "NEXT", "99", "00", "100", "x", ""];

const NAMES: &[&str] = &["a", "b", "c", "zz", "tau", "none", "A", "9", "a:1", "a>b", ""];

const PAIRS: &[&str] = &[
    "a>b", "a>c", "b>a", "c>c", "zz>a", "a>zz", "tau>a", "b>all", "a", "a>", "A>b", "a>b>c",
    "a:1>b", "",
];

const RULES: &[&str] = &[
    "a:2>b", "b:2>a", "a:1.b:1>c", "a:1>b", "a:0>b", "a:32>b", "zz:2>a", "a:2>zz", "tau:1>a",
    "b:2>tau", "tau>a", "a>b", "a:2", "a:02>b", "A:2>b", "b:1.a:1>c", "",
];

const LABELS: &[&str] = &[
    "a:1", "b:1", "a:1.b:1", "b:1.a:1", "a:0", "a:32", "zz:1", "tau:1", "tau:0", "none:1", "tau",
    "a", "a:01", "A:1", "none", "all", "",
];

/// The places of lists, the entries that are tried there, and how many
/// entries there may be.
const PLACES: &[(&str, &[&str], usize)] = &[
    ("block", NAMES, 3),
    ("hide", NAMES, 3),
    ("rename", PAIRS, 3),
    ("comm", RULES, 8),
    ("allow", LABELS, 32),
    ("order", LABELS, 32),
];

pub fn records() -> Vec<Vec<u8>> {
    let mut records = Vec::new();
    for kind in ["choice", "ifelse", "seq", "merge", "lmerge", "sync"] {
        for left in NUMBERS {
            records.extend(NUMBERS.iter().map(|right| in_term(kind, left, right)));
        }
    }
    for (place, entries, most) in PLACES {
        for list in lists(place, entries, *most) {
            if *place == "order" {
                records.push(in_order(&list));
            } else {
                records.extend(NUMBERS.iter().map(|number| in_term(place, number, &list)));
            }
        }
    }
    records
}

/// One entry, two of them, and one behind as many good ones as there may be.
fn lists(place: &str, entries: &[&str], most: usize) -> Vec<String> {
    let mut lists = Vec::new();
    for entry in entries {
        lists.push(entry.to_string());
        lists.extend(entries.iter().map(|other| format!("{},{}", entry, other)));
        let good: Vec<String> = (0..most).map(|number| good_entry(place, number)).collect();
        lists.push(format!("{},{}", good[1..].join(","), entry));
        lists.push(format!("{},{}", good.join(","), entry));
    }
    lists
}

/// Entries that ascend with their number.
fn good_entry(place: &str, number: usize) -> String {
    let name = ["a", "b", "c"][number % 3];
    match place {
        "comm" => format!("a:{}>b", number + 2),
        "allow" | "order" if number < 31 => format!("a:{}", number + 1),
        "allow" | "order" => format!("c:{}", number - 30),
        "rename" => format!("{}>a", name),
        _ => String::from(name),
    }
}

fn in_term(kind: &str, operand: &str, second: &str) -> Vec<u8> {
    let mut draft = some_terms();
    let own = draft.terms.len();
    let operands = format!("{} {}", operand, second);
    let operands = operands.replace("OWN", &own.to_string());
    let operands = operands.replace("NEXT", &(own + 1).to_string());
    let root = draft.add(format!("{} {}", kind, operands));
    draft.add(String::from("tau"));
    draft.root = root;
    draft.bytes()
}

fn in_order(list: &str) -> Vec<u8> {
    let mut draft = some_terms();
    draft.order = String::from(list);
    draft.bytes()
}

/// Two actions, what they are together, and a deadlock.
fn some_terms() -> Draft {
    let mut draft = Draft::with_letters(3);
    let first = draft.act(0);
    let second = draft.act(1);
    draft.add(String::from("delta"));
    draft.two("merge", first, second);
    draft
}
