//! A draft that knows the size of each of its sets.

use crate::draft::{doubled, Draft};
use crate::names;
use crate::random::Random;

/// A term whose set's size is known.
#[derive(Clone, Copy)]
pub struct Node {
    pub term: usize,
    /// The size of the set with tau, whether tau is in it or not.
    size_with_tau: usize,
    has_tau: bool,
}

impl Node {
    pub fn size(&self) -> usize {
        self.size_with_tau - usize::from(!self.has_tau)
    }
}

pub struct Sized {
    pub draft: Draft,
    pub nodes: Vec<Node>,
    next_name: usize,
}

impl Sized {
    /// Twelve names, now and then the longest, which make the longest texts.
    pub fn new(random: &mut Random) -> Sized {
        let names = if random.chance(30) { names::long(12) } else { names::letters(12) };
        Sized { draft: Draft::new(names), nodes: Vec::new(), next_name: 0 }
    }

    /// The labels of all sets together.
    pub fn together(&self) -> usize {
        self.nodes.iter().map(Node::size).sum()
    }

    fn note(&mut self, term: usize, size_with_tau: usize, has_tau: bool) -> Node {
        let node = Node { term, size_with_tau, has_tau };
        self.nodes.push(node);
        node
    }

    /// A term with the same set as this one.
    pub fn copy(&mut self, random: &mut Random, node: Node) {
        let unused = random.below(12 - self.next_name) + self.next_name;
        let unused = self.draft.names[unused].clone();
        let term = match random.below(8) {
            0 => self.draft.one("sum", node.term),
            1 => self.draft.one("cond", node.term),
            2 => self.draft.two("choice", node.term, node.term),
            3 => self.draft.two("seq", node.term, node.term),
            4 => self.draft.with_list("block", node.term, &unused),
            5 => self.draft.with_list("hide", node.term, &unused),
            6 => self.draft.with_list("rename", node.term, &format!("{0}>{0}", unused)),
            _ => self.refer(node),
        };
        self.note(term, node.size_with_tau, node.has_tau);
    }

    /// A reference to an equation with this body.
    fn refer(&mut self, node: Node) -> usize {
        if self.draft.bodies.len() == 16 {
            return self.draft.one("sum", node.term);
        }
        self.draft.bodies.push(node.term);
        self.draft.one("ref", self.draft.bodies.len() - 1)
    }

    /// Makes the largest sets bodies of equations, as many as there may be:
    /// what the equations had before must be kept beside what they have.
    pub fn make_bodies(&mut self) {
        let mut largest = self.nodes.clone();
        largest.sort_by_key(|node| std::cmp::Reverse(node.size()));
        let free = 16 - self.draft.bodies.len();
        self.draft.bodies.extend(largest.iter().take(free).map(|node| node.term));
    }

    /// Two sets that have no name in common, side by side.
    pub fn merge(&mut self, random: &mut Random, left: Node, right: Node) -> Node {
        self.merge_to(random, left, right, left.size_with_tau * right.size_with_tau)
    }

    fn merge_to(
        &mut self,
        random: &mut Random,
        left: Node,
        right: Node,
        size_with_tau: usize,
    ) -> Node {
        let term = self.draft.side_by_side(random, left.term, right.term);
        self.note(term, size_with_tau, left.has_tau || right.has_tau)
    }

    /// The choice of two sets that have no label in common, save tau.
    fn choice(&mut self, left: Node, right: Node) -> Node {
        let term = self.draft.two("choice", left.term, right.term);
        let size = left.size_with_tau + right.size_with_tau - 1;
        self.note(term, size, left.has_tau || right.has_tau)
    }

    /// One to `most` actions of a name that no label so far has.
    fn chain(&mut self, random: &mut Random, most: usize) -> Node {
        let term = self.draft.act(self.next_name);
        self.next_name += 1;
        let act = self.note(term, 2, false);
        doubled(act, most, &mut |left, right| {
            let size_with_tau = left.size_with_tau + right.size_with_tau - 1;
            self.merge_to(random, left, right, size_with_tau)
        })
    }

    fn with_tau(&mut self, node: Node) -> Node {
        let term = self.draft.add(String::from("tau"));
        let tau = self.note(term, 1, true);
        self.choice(node, tau)
    }

    /// A set of this size (counting tau), built from chains of fresh names.
    pub fn set_of(&mut self, random: &mut Random, size_with_tau: usize, has_tau: bool) -> Node {
        if size_with_tau <= 9 {
            let chain = self.chain(random, size_with_tau - 1);
            return if has_tau { self.with_tau(chain) } else { chain };
        }
        let side = random.within(4..=6.min(size_with_tau / 2));
        let (quotient, remainder) = (size_with_tau / side, size_with_tau % side);
        let left = self.set_of(random, quotient, has_tau);
        let right = self.chain(random, side - 1);
        let product = self.merge(random, left, right);
        if remainder == 0 {
            return product;
        }
        let further = self.chain(random, remainder);
        self.choice(product, further)
    }
}
