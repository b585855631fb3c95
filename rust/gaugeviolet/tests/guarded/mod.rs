//! Lends bytes for writing between guards, and looks at every byte afterwards.

use inputs::shown;

/// Bytes before and after the lent part that nobody may touch.
const GUARD: usize = 64;
/// The most bytes that a test lends.
pub const MOST_LENT: usize = 8192;

/// The bytes to lend, and their guards.
pub struct Guarded {
    /// The former content of all of them. No byte of it occurs in a text, so a written byte shows and so does
    /// one left out.
    former: Vec<u8>,
    buffer: Vec<u8>,
}

impl Guarded {
    pub fn new() -> Guarded {
        let former: Vec<u8> = (0..2 * GUARD + MOST_LENT)
            .map(|at| 0x80 | (at * 37 % 128) as u8)
            .collect();
        Guarded {
            buffer: former.clone(),
            former,
        }
    }

    /// Lends so many bytes to `write`. It has to write the expected text and no other byte, or to refuse with
    /// the expected number and place and no byte changed; `told` tells of its input.
    pub fn lend(
        &mut self,
        lent: usize,
        expected: Result<&[u8], (u32, u32)>,
        told: impl Fn() -> String,
        write: impl FnOnce(&mut [u8]) -> Result<usize, gaugeviolet::Refusal>,
    ) {
        let all = GUARD + lent + GUARD;
        self.buffer[..all].copy_from_slice(&self.former[..all]);
        let answer = write(&mut self.buffer[GUARD..GUARD + lent]);
        let told = || format!("{} with {lent} bytes lent", told());
        assert_eq!(
            answer.map_err(|refusal| (refusal.number, refusal.place)),
            expected.map(<[u8]>::len),
            "{}",
            told()
        );
        let written = expected.unwrap_or(&[]);
        let (front, rest) = self.buffer[..all].split_at(GUARD);
        let (text, past) = rest.split_at(written.len());
        assert!(
            front == &self.former[..GUARD],
            "a byte before the lent ones changed, {}",
            told()
        );
        assert!(text == written, "another text, {}: {}", told(), shown(text));
        assert!(
            past == &self.former[GUARD + written.len()..all],
            "a byte past the text changed, {}",
            told()
        );
    }
}
