//! A text of numbers in the making.

use crate::Refusal;

/// The text as far as it is made: built apart, so that nothing lent is touched before all of it is
/// known to fit. `ROOM` has [`SPARE`] bytes more than the longest text, for the last number's
/// piece.
pub(crate) struct Text<const ROOM: usize> {
    bytes: [u8; ROOM],
    length: usize,
}

impl<const ROOM: usize> Text<ROOM> {
    pub(crate) fn new() -> Text<ROOM> {
        Text {
            bytes: [0; ROOM],
            length: 0,
        }
    }

    /// Copies the text to the front of `lent` and returns its length, or 6 with no byte changed.
    pub(crate) fn copy_to(&self, lent: &mut [u8]) -> Result<usize, Refusal> {
        let written = &self.bytes[..self.length];
        match lent.get_mut(..written.len()) {
            Some(front) => front.copy_from_slice(written),
            None => return Err(Refusal::LENT_TOO_FEW),
        }
        Ok(written.len())
    }

    #[inline]
    pub(crate) fn byte(&mut self, byte: u8) {
        self.bytes[self.length] = byte;
        self.length += 1;
    }

    pub(crate) fn bytes(&mut self, bytes: &[u8]) {
        self.bytes[self.length..self.length + bytes.len()].copy_from_slice(bytes);
        self.length += bytes.len();
    }

    /// A number of at most four digits and the byte `after` it, stored as one piece of five bytes:
    /// those past the field are written over by the next one.
    #[inline]
    pub(crate) fn number(&mut self, number: u16, after: u8) {
        let digit = |unit: u16| b'0' + (number / unit % 10) as u8;
        let (piece, length) = match number {
            0..10 => ([digit(1), after, 0, 0, 0], 2),
            10..100 => ([digit(10), digit(1), after, 0, 0], 3),
            100..1000 => ([digit(100), digit(10), digit(1), after, 0], 4),
            _ => ([digit(1000), digit(100), digit(10), digit(1), after], 5),
        };
        self.bytes[self.length..self.length + 5].copy_from_slice(&piece);
        self.length += length;
    }

    /// A number of any length and the byte `after` it.
    pub(crate) fn long_number(&mut self, number: u32, after: u8) {
        let mut unit = 1;
        while number / unit >= 10 {
            unit *= 10;
        }
        while unit > 0 {
            self.byte(b'0' + (number / unit % 10) as u8);
            unit /= 10;
        }
        self.byte(after);
    }
}

/// The bytes that a [`Text`] needs past its longest text.
pub(crate) const SPARE: usize = 4;
