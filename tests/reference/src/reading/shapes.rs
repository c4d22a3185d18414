//! The forms of values once more, written so that it can be told how far the
//! bytes of a line go on in their form. Whether a line has its form is decided
//! by `forms` and `words`, in another way; the tests hold both together.

use crate::limits::{MOST_BYTES_OF_A_NAME, MOST_DIGITS_OF_A_NUMBER};
use std::collections::BTreeSet;
use Shape::{Each, Either, Joined, OneOf, UpTo, Word};

/// What bytes may look like. There are bytes of every shape, so what has led
/// into one can go on to its end.
#[derive(Clone, Copy)]
pub enum Shape {
    Word(&'static str),
    OneOf(&'static [u8]),
    /// All of them, one after the other.
    Each(&'static [Shape]),
    Either(&'static [Shape]),
    /// As often as this at most, or not at all.
    UpTo(usize, &'static Shape),
    /// Once or more often, with a mark between.
    Joined(&'static str, &'static Shape),
}

pub const NUMBER: Shape = Either(&[
    Word("0"),
    Each(&[OneOf(b"123456789"), UpTo(MOST_DIGITS_OF_A_NUMBER - 1, &OneOf(b"0123456789"))]),
]);

pub const NAME: Shape = Each(&[
    OneOf(b"abcdefghijklmnopqrstuvwxyz"),
    UpTo(MOST_BYTES_OF_A_NAME - 1, &OneOf(b"abcdefghijklmnopqrstuvwxyz0123456789")),
]);

const PART: Shape = Each(&[NAME, Word(":"), NUMBER]);
const LABEL: Shape = Joined(".", &PART);
const LABELS: Shape = Either(&[Word("none"), Joined(",", &LABEL)]);
const PAIR: Shape = Each(&[NAME, Word(">"), NAME]);
const RULE: Shape = Each(&[LABEL, Word(">"), NAME]);

const ONE_KIND: Shape = Either(&[Word("ref "), Word("sum "), Word("cond ")]);

const TWO_KIND: Shape = Either(&[
    Word("choice "),
    Word("ifelse "),
    Word("seq "),
    Word("merge "),
    Word("lmerge "),
    Word("sync "),
]);

pub const TERM: Shape = Either(&[
    Word("tau"),
    Word("delta"),
    Each(&[Word("act "), NAME]),
    Each(&[ONE_KIND, NUMBER]),
    Each(&[TWO_KIND, NUMBER, Word(" "), NUMBER]),
    Each(&[Either(&[Word("block "), Word("hide ")]), NUMBER, Word(" "), Joined(",", &NAME)]),
    Each(&[Word("rename "), NUMBER, Word(" "), Joined(",", &PAIR)]),
    Each(&[Word("comm "), NUMBER, Word(" "), Joined(",", &RULE)]),
    Each(&[Word("allow "), NUMBER, Word(" "), LABELS]),
]);

pub const ORDER: Shape = Either(&[Word("all"), LABELS]);

/// Numbers of bytes of a line.
type Places = BTreeSet<usize>;

/// The length of the longest beginning of the line with which something of these
/// shapes, one after the other, begins.
pub fn reach(line: &[u8], shapes: &[Shape]) -> usize {
    let mut walk = Walk { line, furthest: 0 };
    walk.each(shapes, &Places::from([0]));
    walk.furthest
}

/// Every way through the shapes is gone at once.
struct Walk<'a> {
    line: &'a [u8],
    furthest: usize,
}

impl Walk<'_> {
    /// Where something of this shape ends that begins at one of these places.
    fn ends(&mut self, shape: &Shape, starts: &Places) -> Places {
        match shape {
            _ if starts.is_empty() => Places::new(),
            Word(word) => word.bytes().fold(starts.clone(), |at, byte| self.step(&[byte], &at)),
            OneOf(bytes) => self.step(bytes, starts),
            Each(shapes) => self.each(shapes, starts),
            Either(shapes) => shapes.iter().flat_map(|shape| self.ends(shape, starts)).collect(),
            UpTo(most, shape) => self.up_to(*most, shape, starts),
            Joined(mark, shape) => self.joined(mark, shape, starts),
        }
    }

    fn step(&mut self, bytes: &[u8], starts: &Places) -> Places {
        let goes_on = |place: &usize| self.line.get(*place).map_or(false, |at| bytes.contains(at));
        let ends: Places = starts.iter().copied().filter(goes_on).map(|place| place + 1).collect();
        self.furthest = ends.iter().copied().fold(self.furthest, usize::max);
        ends
    }

    fn each(&mut self, shapes: &[Shape], starts: &Places) -> Places {
        shapes.iter().fold(starts.clone(), |at, shape| self.ends(shape, &at))
    }

    fn up_to(&mut self, most: usize, shape: &Shape, starts: &Places) -> Places {
        let mut all = starts.clone();
        let mut last = starts.clone();
        for _ in 0..most {
            last = self.ends(shape, &last);
            all.extend(&last);
        }
        all
    }

    fn joined(&mut self, mark: &'static str, shape: &Shape, starts: &Places) -> Places {
        let mut last = self.ends(shape, starts);
        let mut all = Places::new();
        while !last.is_empty() {
            all.extend(&last);
            last = self.each(&[Word(mark), *shape], &last);
        }
        all
    }
}
