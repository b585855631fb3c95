//! Compares line files that end too early, and that go on.

use crate::common::Compared;

/// A text cut short at every byte, alone and with a line feed there.
pub fn cut_short(compared: &mut Compared, text: &[u8]) {
    for end in 0..text.len() {
        // Lent as a part of the whole file: a reader that looks past the end finds a good file.
        compared.file(&text[..end]);
        compared.file(&[&text[..end], b"\n"].concat());
    }
}

/// A text with every byte after it, and with each of `more`.
pub fn bytes_after(compared: &mut Compared, text: &[u8], more: &[&str]) {
    for byte in 0..=255 {
        compared.file(&[text, &[byte]].concat());
    }
    for more in more {
        compared.file(&[text, more.as_bytes()].concat());
    }
}
