//! The bytes that stand in the place of a field, whatever they were meant to be.

use super::field::Field;
use super::walker::Fault;

pub(super) struct Token<'a> {
    pub bytes: &'a [u8],
    pub field: Field,
    /// What follows them: what separates fields, a line feed, or nothing where the text ends.
    pub next: Option<u8>,
}

impl<'a> Token<'a> {
    pub fn at(text: &'a [u8], fault: &Fault) -> Token<'a> {
        Token {
            bytes: &text[fault.from..fault.to],
            field: fault.field,
            next: text.get(fault.to).copied(),
        }
    }

    pub fn has(&self, byte: u8) -> bool {
        self.bytes.contains(&byte)
    }

    /// A carriage return stands before the line feed.
    pub fn ends_line_with_return(&self) -> bool {
        self.next == Some(b'\n') && self.bytes.ends_with(b"\r")
    }
}
