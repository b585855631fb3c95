//! The bytes of an input, to tell of it.

/// The bytes in a form to copy into a test, the first 2,000 of them.
pub fn shown(bytes: &[u8]) -> String {
    let end = bytes.len().min(2000);
    format!(
        "b\"{}\" ({} bytes)",
        bytes[..end].escape_ascii(),
        bytes.len()
    )
}
