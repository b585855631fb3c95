//! Holds the library's export or import to the independent one, input by input, and counts.

use std::hint::black_box;

use independent::Line;
use inputs::{shown, Seen};

use crate::guarded::{Guarded, MOST_LENT};

/// What takes a line file and another text, writes to lent bytes and returns the length of what it wrote.
type Writing<R> = fn(&[u8], &[u8], &mut [u8]) -> Result<usize, R>;

/// An operation of the library, and the same one of the independent code.
pub struct Operation {
    pub name: &'static str,
    pub library: Writing<gaugeviolet::Refusal>,
    pub independent: Writing<independent::Refusal>,
}

/// What has been compared so far.
pub struct Compared {
    pub seen: Seen,
    operation: &'static Operation,
    guarded: Guarded,
}

impl Compared {
    pub fn new(operation: &'static Operation) -> Compared {
        Compared {
            seen: Seen::default(),
            operation,
            guarded: Guarded::new(),
        }
    }

    /// Compares the operation on these texts, with no byte lent, one, too few, just enough and more, and holds
    /// that the texts themselves stay. Returns what it writes, if it is not refused.
    pub fn texts(&mut self, file: &[u8], other: &[u8]) -> Option<Vec<u8>> {
        let before = (file.to_vec(), other.to_vec());
        let mut written = [0; gaugeviolet::STOP_TIMES_BYTES];
        let answer = (self.operation.independent)(&before.0, &before.1, &mut written);
        let answer = answer.map_err(|refusal| (refusal.number, refusal.place));
        self.seen.input(answer.map(|_| ()));
        let text = answer.map(|length| &written[..length]);
        match text {
            Ok(text) => {
                for few in [0, 1, text.len() - 1] {
                    self.lent(file, other, few, Err((6, 0)));
                    self.seen.answer(Err((6, 0)));
                }
                let more = 2 + self.seen.inputs() % 600;
                for enough in [text.len(), text.len() + 1, text.len() + more] {
                    self.lent(file, other, enough, Ok(text));
                }
            }
            Err(refusal) => {
                for lent in [0, 1, gaugeviolet::STOP_TIMES_BYTES] {
                    self.lent(file, other, lent, Err(refusal));
                }
            }
        }
        assert!(
            black_box((file, other)) == (&before.0, &before.1),
            "a byte of a lent text changed: {} with {}",
            shown(&before.0),
            shown(&before.1)
        );
        text.ok().map(<[u8]>::to_vec)
    }

    /// Lends so many bytes and looks at every one afterwards.
    pub fn lent(
        &mut self,
        file: &[u8],
        other: &[u8],
        lent: usize,
        expected: Result<&[u8], (u32, u32)>,
    ) {
        let Operation { name, library, .. } = self.operation;
        let told = || format!("{name} for {} of {}", shown(file), shown(other));
        let write = |lent: &mut [u8]| library(file, other, lent);
        self.guarded.lend(lent, expected, told, write);
    }

    /// Lends every number of bytes up to a hundred more than the text has, and then some.
    pub fn every_lent_length(&mut self, file: &[u8], other: &[u8]) {
        let text = self.texts(file, other).expect("texts that are in order");
        for few in 0..text.len() {
            self.lent(file, other, few, Err((6, 0)));
        }
        for enough in (text.len()..text.len() + 100).chain([4095, 4096, 4097, MOST_LENT]) {
            self.lent(file, other, enough, Ok(&text));
        }
    }

    /// Compares these texts with the second and then the first cut short at every byte.
    pub fn cut_short(&mut self, file: &[u8], other: &[u8]) {
        // Lent as a part of the whole text: a reader that looks past the end finds a good one.
        for end in 0..other.len() {
            self.texts(file, &other[..end]);
            self.texts(file, &[&other[..end], b"\n"].concat());
        }
        for end in 0..file.len() {
            self.texts(&file[..end], other);
        }
    }

    /// Compares texts of a length that is kept in few bits or not at all, with the first in order.
    pub fn lengths(&mut self, file: &[u8], other: &[u8]) {
        let long_file = [b'1'; gaugeviolet::FILE_BYTES + 1];
        for byte in [0, b'\n', b' ', b',', b'0', b'1', b'T', 255] {
            for length in [0, 4095, 4096, 4097, 8192, 65_536, 65_536 + other.len()] {
                let mut long = other.to_vec();
                long.resize(length, byte);
                self.texts(file, &long);
                self.texts(file, &vec![byte; length]);
                self.texts(&long_file, &long);
                self.texts(b"", &long);
            }
        }
    }
}

/// The file of a line.
pub fn file_of(line: &Line) -> Vec<u8> {
    independent::write(line).expect("a line within the limits")
}
