//! The lines of the input, one after the other, numbered from 1.

use super::columns;
use super::shapes::Shape;
use crate::description::Refusal;

pub struct Lines<'a> {
    rest: &'a [u8],
    /// The line that was last gone on to, with its LF if it has one.
    line: &'a [u8],
    number: usize,
}

impl<'a> Lines<'a> {
    pub fn new(input: &'a [u8]) -> Lines<'a> {
        Lines { rest: input, line: &[], number: 0 }
    }

    /// Goes on to the next line, which must have this key, and gives what stands
    /// behind `key=` as `form` reads it. The shape is that of the same form.
    pub fn read<T>(
        &mut self,
        key: &'static str,
        form: fn(&'a [u8]) -> Option<T>,
        shape: &Shape,
    ) -> Result<T, Refusal> {
        self.number += 1;
        self.take_line();
        let form = self.value(key).and_then(form);
        form.ok_or_else(|| self.refuse(2, |line| columns::stuck(line, key, shape)))
    }

    /// Nothing may follow the last line.
    pub fn end(&mut self) -> Result<(), Refusal> {
        self.number += 1;
        if self.rest.is_empty() {
            Ok(())
        } else {
            Err(self.refuse(2, |_| 1))
        }
    }

    /// A refusal of the line that was last gone on to, at the column that is
    /// found in it.
    pub fn refuse(&self, reason: u8, column: impl Fn(&[u8]) -> usize) -> Refusal {
        Refusal { reason, line: self.number, column: column(self.line) }
    }

    /// The bytes up to the next LF and this, or all that are left.
    fn take_line(&mut self) {
        let end = self.rest.iter().position(|byte| *byte == b'\n');
        let length = end.map_or(self.rest.len(), |end| end + 1);
        self.line = &self.rest[..length];
        self.rest = &self.rest[length..];
    }

    /// What stands behind `key=` in a line that has its LF.
    fn value(&self, key: &str) -> Option<&'a [u8]> {
        let line = self.line.strip_suffix(b"\n")?;
        line.strip_prefix(key.as_bytes())?.strip_prefix(b"=")
    }
}
