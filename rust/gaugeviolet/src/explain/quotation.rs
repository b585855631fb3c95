//! A line of a text, quoted with a mark under a part of it.

use std::fmt;

use super::walker::visible;

/// The most characters of a line that are quoted.
const QUOTED: usize = 72;

/// Which of the texts.
#[derive(Clone, Copy, Debug, PartialEq, Eq, Hash)]
pub enum Text {
    /// The line file.
    LineFile,
    /// The timetable.
    Timetable,
    /// The stop times.
    StopTimes,
}

/// A line of a text and the part of it that a refusal is about.
#[derive(Clone, Debug, PartialEq, Eq)]
pub struct Quotation {
    /// The text.
    pub text: Text,
    /// The line, from 1.
    pub line: usize,
    /// The column at which the part begins, in bytes from 1. Where something is missing it is the one
    /// after the last byte.
    pub column: usize,
    /// How many bytes the part has; 1 where something is missing.
    pub width: usize,
    /// The bytes of the line, without the line feed.
    pub bytes: Vec<u8>,
}

impl Quotation {
    /// The part of a text between two positions, both on one line or at its end.
    pub(super) fn part(text: Text, bytes: &[u8], line: usize, from: usize, to: usize) -> Quotation {
        let line_from = bytes[..from].iter().rposition(|&byte| byte == b'\n');
        let line_from = line_from.map_or(0, |at| at + 1);
        let row = bytes[line_from..].split(|&byte| byte == b'\n').next();
        Quotation {
            text,
            line,
            column: from - line_from + 1,
            width: (to - from).max(1),
            bytes: row.unwrap_or(&[]).to_vec(),
        }
    }

    /// A field of a text that has the right form: its line from 1, and its place there from 0.
    pub(super) fn field(text: Text, bytes: &[u8], line: usize, at: usize) -> Option<Quotation> {
        let row = bytes.split(|&byte| byte == b'\n').nth(line - 1)?;
        let mut fields = row.split(|&byte| byte == b' ');
        let before = fields.by_ref().take(at);
        let column = 1 + before.map(|field| field.len() + 1).sum::<usize>();
        Some(Quotation {
            text,
            line,
            column,
            width: fields.next()?.len(),
            bytes: row.to_vec(),
        })
    }
}

impl fmt::Display for Quotation {
    fn fmt(&self, f: &mut fmt::Formatter<'_>) -> fmt::Result {
        // A long line is cut so that the mark is in sight.
        let from = self.column.saturating_sub(QUOTED / 2);
        let from = if self.bytes.len() > QUOTED { from } else { 0 };
        let to = self.bytes.len().min(from + QUOTED);
        let before = if from > 0 { "..." } else { "" };
        let past = if to < self.bytes.len() { "..." } else { "" };
        writeln!(f, "    {before}{}{past}", visible(&self.bytes[from..to]))?;
        let indent = before.len() + self.column - 1 - from;
        let width = self.width.min(QUOTED / 2);
        writeln!(f, "    {}{}", " ".repeat(indent), "^".repeat(width))
    }
}
