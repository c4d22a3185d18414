//! Both sides of each limit of the reading, apart from those that fit into
//! one line.

use super::{answered, as_strs, refused, Case};

/// The text of a description with so many names, terms and equations, whose
/// last term and order are as given.
fn text(names: usize, terms: usize, equations: usize, last: &str, order: &str) -> String {
    let names: Vec<String> = (0..names).map(|number| format!("n{}", number)).collect();
    let names = as_strs(&names);
    let mut lines = vec!["act n0"; terms - 1];
    lines.push(last);
    let bodies = vec![terms - 1; equations];
    Case { names: &names, terms: &lines, bodies: &bodies, root: 0, order }.text()
}

#[test]
fn counts_of_lines() {
    let is_read = |text: String| text.starts_with("answer=ok\n");
    for names in 1..=24 {
        let last = format!("act n{}", names - 1);
        assert!(is_read(text(names, 96, 16, &last, "all")), "{} names", names);
    }
    for names in [0, 25, 26, 99] {
        assert_eq!(text(names, 96, 16, "act n0", "all"), refused(2, 1, 7), "{} names", names);
    }
    assert_eq!(text(24, 96, 17, "act n23", "all"), refused(2, 26, 11));
    assert_eq!(text(24, 97, 16, "act n23", "all"), refused(2, 27, 7));
}

/// Lists of 32 and 33 labels, in an allow and in the order. The further
/// entries of a list that is too long are still looked at.
#[test]
fn labels_of_a_list() {
    let labels = |count: usize, last: &str| {
        let counted = (0..count).map(|place| format!("n{}:{}", place / 31, place % 31 + 1));
        counted.chain([String::from(last)]).collect::<Vec<_>>().join(",")
    };
    let cases = [(31, "n2:1", 0), (32, "n2:1", 5), (32, "zz:1", 3), (32, "n2", 2), (32, "n0:1", 5)];
    for (count, last, reason) in cases {
        let list = labels(count, last);
        let in_allow = text(12, 2, 0, &format!("allow 0 {}", list), "all");
        let in_order = text(12, 2, 0, "tau", &list);
        // A label without a count is found at its end.
        let in_list = if reason == 2 { list.len() } else { list.len() - last.len() };
        let expected = |line, list_column| match reason {
            0 => answered(1, "n0:1"),
            _ => refused(reason, line, list_column + in_list),
        };
        assert_eq!(in_allow, expected(17, 14), "{}", list);
        assert_eq!(in_order, expected(19, 7), "{}", list);
    }
}

/// Counts of several names that add up to more than a byte holds (14, eleven
/// times 22, so 256; 14 and 22 times 11, the same; 14 and 23 times 99, so 2,291)
/// are over 31 as well.
#[test]
fn actions_of_a_long_label() {
    let cases = [(0, 0), (1, 17), (17, 1), (1, 18), (18, 1), (11, 22), (22, 11), (23, 1), (23, 99)];
    for (others, count) in cases {
        let parts = (1..=others).map(|name| format!(".n{}:{}", name, count));
        let label = format!("n0:14{}", parts.collect::<String>());
        let is_legal = 14 + others * count <= 31;
        let expected = if is_legal { answered(1, "") } else { refused(5, 31, 7) };
        assert_eq!(text(24, 2, 0, "tau", &label), expected, "{}", label);
    }
}
