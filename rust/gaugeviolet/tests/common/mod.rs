//! Holds the library to the independent reader and writer, input by input, and counts.

use std::hint::black_box;

use inputs::{shown, Seen};

use crate::guarded::{Guarded, MOST_LENT};

/// What has been compared so far.
pub struct Compared {
    pub seen: Seen,
    guarded: Guarded,
}

impl Compared {
    pub fn new() -> Compared {
        Compared {
            seen: Seen::default(),
            guarded: Guarded::new(),
        }
    }

    /// Compares reading and rewriting of `file`, and holds that the file's own bytes stay.
    pub fn file(&mut self, file: &[u8]) {
        let before = file.to_vec();
        let expected = independent::read(&before);
        let answer = expected.map(|_| ()).map_err(own_pair);
        let read = gaugeviolet::read(file);
        assert_eq!(read.map_err(pair), answer, "reading {}", shown(&before));
        self.seen.input(answer);
        match expected {
            Ok(line) => {
                let text = independent::write(&line).expect("a line that was read");
                self.accepted_file(file, &text);
            }
            Err(refusal) => {
                for lent in [0, 1, before.len().min(MOST_LENT)] {
                    self.lent(file, lent, Err(own_pair(refusal)));
                }
            }
        }
        assert!(
            black_box(file) == before,
            "a byte of the lent file changed: {}",
            shown(&before)
        );
    }

    /// Rewriting with no byte, one, too few, just enough and more. `text` is what is to be written.
    fn accepted_file(&mut self, file: &[u8], text: &[u8]) {
        for lent in [0, 1, text.len() - 1] {
            self.lent(file, lent, Err((6, 0)));
            self.seen.answer(Err((6, 0)));
        }
        for lent in [
            text.len(),
            text.len() + 1,
            text.len() + 1 + self.seen.inputs() % 600,
        ] {
            self.lent(file, lent, Ok(text));
        }
    }

    /// Rewrites `file` with `lent` bytes lent between guards and looks at every byte afterwards.
    pub fn lent(&mut self, file: &[u8], lent: usize, expected: Result<&[u8], (u32, u32)>) {
        let told = || format!("rewriting {}", shown(file));
        let rewrite = |lent: &mut [u8]| gaugeviolet::rewrite(file, lent);
        self.guarded.lend(lent, expected, told, rewrite);
    }
}

fn pair(refusal: gaugeviolet::Refusal) -> (u32, u32) {
    (refusal.number, refusal.place)
}

fn own_pair(refusal: independent::Refusal) -> (u32, u32) {
    (refusal.number, refusal.place)
}
