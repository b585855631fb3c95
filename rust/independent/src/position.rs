//! Where a reader stands in a text of lines and fields.

use crate::{Limits, Refusal};

pub(crate) const SPACE: u8 = b' ';
pub(crate) const LINE_FEED: u8 = b'\n';

/// What is yet to read, and the number of the line that it begins on. The line's number moves only
/// once its line feed is taken.
pub(crate) struct Position<'a> {
    pub(crate) bytes: &'a [u8],
    pub(crate) line: u32,
}

impl<'a> Position<'a> {
    /// Before the first byte of `bytes`.
    #[inline]
    pub(crate) fn first(bytes: &'a [u8]) -> Position<'a> {
        Position { bytes, line: 1 }
    }

    /// Holds that nothing is left.
    #[inline]
    pub(crate) fn at_the_end(&self) -> Result<(), Refusal> {
        if self.bytes.is_empty() {
            Ok(())
        } else {
            Err(Refusal::form(self.line))
        }
    }

    /// A number of one to four digits without a leading zero, the byte `after` it, then its range.
    #[inline]
    pub(crate) fn number(&mut self, after: u8, limits: Limits) -> Result<u16, Refusal> {
        self.number_and(|_| after, limits)
    }

    /// As [`Position::number`], where the byte after the number depends on the number.
    #[inline]
    pub(crate) fn number_and(
        &mut self,
        after: impl Fn(u16) -> u8,
        limits: Limits,
    ) -> Result<u16, Refusal> {
        let line = self.line;
        let Some((number, rest)) = front_number::<4>(self.bytes) else {
            return Err(Refusal::form(line));
        };
        let number = number as u16;
        self.pass(rest, after(number))?;
        // A range fault stands on the field's own line, also where its line feed has been taken.
        if limits.hold(number) {
            Ok(number)
        } else {
            Err(Refusal::range(line))
        }
    }

    /// A number of one to seven digits without a leading zero and the line feed after it. It has no
    /// range.
    #[inline]
    pub(crate) fn total(&mut self) -> Result<u32, Refusal> {
        let Some((total, rest)) = front_number::<7>(self.bytes) else {
            return Err(Refusal::form(self.line));
        };
        self.pass(rest, LINE_FEED)?;
        Ok(total)
    }

    /// Goes on behind the byte `after`, which must be the first of `rest`.
    #[inline]
    fn pass(&mut self, rest: &'a [u8], after: u8) -> Result<(), Refusal> {
        match rest.split_first() {
            Some((&next, past)) if next == after => self.bytes = past,
            _ => return Err(Refusal::form(self.line)),
        }
        self.line += u32::from(after == LINE_FEED);
        Ok(())
    }
}

/// The number of at most `MOST` digits at the front of `bytes`, and what is left past it.
#[inline]
fn front_number<const MOST: usize>(bytes: &[u8]) -> Option<(u32, &[u8])> {
    let (&first, mut rest) = bytes.split_first()?;
    let mut number = digit(first)?;
    // A number that begins with 0 has no second digit. One digit too many is left for the test of
    // the byte after, which it fails.
    let more = if number == 0 { 0 } else { MOST - 1 };
    for _ in 0..more {
        let (&next, past) = rest.split_first()?;
        let Some(worth) = digit(next) else { break };
        number = 10 * number + worth;
        rest = past;
    }
    Some((number, rest))
}

#[inline]
fn digit(byte: u8) -> Option<u32> {
    byte.is_ascii_digit().then(|| u32::from(byte - b'0'))
}
