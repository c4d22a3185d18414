//! A description while it is being put together.

use crate::names;
use crate::random::Random;

/// The kinds that have both sides and their product; sync, which stands last,
/// has the product alone where both sides are multi-actions.
pub const GROWING: &[&str] = &["merge", "lmerge", "sync"];

/// The values of the lines; nothing here demands that they are right.
#[derive(Clone)]
pub struct Draft {
    pub names: Vec<String>,
    pub terms: Vec<String>,
    pub bodies: Vec<usize>,
    pub root: usize,
    pub order: String,
    /// Of each term, whether it is built of act, tau, delta and sync only.
    multi_actions: Vec<bool>,
}

impl Draft {
    pub fn new(names: Vec<String>) -> Draft {
        let order = String::from("all");
        let (terms, multi_actions) = (Vec::new(), Vec::new());
        Draft { names, terms, bodies: Vec::new(), root: 0, order, multi_actions }
    }

    /// A draft with the names a, b, c and so on.
    pub fn with_letters(count: usize) -> Draft {
        Draft::new(names::letters(count))
    }

    /// Adds a term, which is the root until another is added, and gives its
    /// number.
    pub fn add(&mut self, term: String) -> usize {
        self.multi_actions.push(self.builds_multi_action(&term));
        self.terms.push(term);
        self.root = self.terms.len() - 1;
        self.root
    }

    fn builds_multi_action(&self, term: &str) -> bool {
        let is_one = |word: &str| {
            word.parse().ok().and_then(|term: usize| self.multi_actions.get(term)) == Some(&true)
        };
        match term.split(' ').collect::<Vec<_>>()[..] {
            ["act", _] | ["tau"] | ["delta"] => true,
            ["sync", left, right] => is_one(left) && is_one(right),
            _ => false,
        }
    }

    pub fn act(&mut self, name: usize) -> usize {
        self.add(format!("act {}", self.names[name]))
    }

    /// A choice between the first names, so many of them.
    pub fn one_of_the_first(&mut self, count: usize) -> usize {
        let first = self.act(0);
        (1..count).fold(first, |all, name| {
            let act = self.act(name);
            self.two("choice", all, act)
        })
    }

    /// The actions of a label at once; those of one name are joined by
    /// doubling.
    pub fn multi_action(&mut self, label: &[usize]) -> usize {
        let mut whole = None;
        for (name, count) in label.iter().enumerate().filter(|(_, count)| **count > 0) {
            let act = self.act(name);
            let part = doubled(act, *count, &mut |left, right| self.two("sync", left, right));
            whole = Some(whole.map_or(part, |whole| self.two("sync", whole, part)));
        }
        whole.expect("a label with an action")
    }

    pub fn one(&mut self, kind: &str, operand: usize) -> usize {
        self.add(format!("{} {}", kind, operand))
    }

    pub fn two(&mut self, kind: &str, left: usize, right: usize) -> usize {
        self.add(format!("{} {} {}", kind, left, right))
    }

    pub fn with_list(&mut self, kind: &str, operand: usize, list: &str) -> usize {
        self.add(format!("{} {} {}", kind, operand, list))
    }

    /// Puts a list where it belongs: into a new term or into the order.
    pub fn place_list(&mut self, kind: &str, operand: usize, list: &str) {
        if kind == "order" {
            self.order = String::from(list);
        } else {
            self.with_list(kind, operand, list);
        }
    }

    /// Takes the term away that was added last.
    pub fn drop_last(&mut self) {
        self.terms.pop();
        self.multi_actions.pop();
        self.root = self.terms.len() - 1;
    }

    /// Whether a term is built of act, tau, delta and sync only: a sync of two
    /// such terms has their product alone.
    pub fn is_multi_action(&self, term: usize) -> bool {
        self.multi_actions[term]
    }

    /// A term of two operands that has both sides and their product.
    pub fn side_by_side(&mut self, random: &mut Random, left: usize, right: usize) -> usize {
        let is_narrow = self.is_multi_action(left) && self.is_multi_action(right);
        let kinds = if is_narrow { &GROWING[..2] } else { GROWING };
        self.two(random.pick(kinds), left, right)
    }

    pub fn lines(&self) -> Vec<Vec<u8>> {
        let mut lines = vec![format!("names={}", self.names.len())];
        lines.extend(self.names.iter().map(|name| format!("name={}", name)));
        lines.push(format!("equations={}", self.bodies.len()));
        lines.push(format!("terms={}", self.terms.len()));
        lines.extend(self.terms.iter().map(|term| format!("term={}", term)));
        lines.extend(self.bodies.iter().map(|body| format!("equation={}", body)));
        lines.push(format!("root={}", self.root));
        lines.push(format!("order={}", self.order));
        lines.into_iter().map(String::into_bytes).collect()
    }

    pub fn bytes(&self) -> Vec<u8> {
        ended(&self.lines())
    }
}

/// The lines, each ended by LF.
pub fn ended(lines: &[Vec<u8>]) -> Vec<u8> {
    let mut text = Vec::new();
    for line in lines {
        text.extend_from_slice(line);
        text.push(b'\n');
    }
    text
}

/// `count` times the unit, joined by doubling as dies are: 2, 4, 8, 16.
pub fn doubled<T: Copy>(unit: T, count: usize, join: &mut impl FnMut(T, T) -> T) -> T {
    if count == 1 {
        return unit;
    }
    let half = doubled(unit, count / 2, join);
    let even = join(half, half);
    if count % 2 == 0 {
        even
    } else {
        join(even, unit)
    }
}
