//! What the tests of sections share.

use independent::{read, write, write_into, Line, Refusal, FILE_BYTES};
use inputs::{shown, Fields, Seen};

/// Four stations; a train over the whole line, one back over a part of it, and one over one segment.
pub const SMALL: &[u8] =
    b"4\n1\n1\n1\n1\n3\nS 1 1\nS 1 1\nS 1 1\n3\n1 4 0 99 1 5 0 5 0 5\n4 2 0 99 1 5 0 5\n2 3 0 9 1 5\n";

/// Fields at and past limits, and in forms that are none.
#[rustfmt::skip]
pub const FIELD_TEXTS: [&str; 34] = [
    "0", "1", "2", "3", "11", "12", "13", "119", "120", "121", "255", "256", "2878", "2879",
    "2880", "9999", "10000", "65536", "65537", "00", "01", "0002", "", " ", "-1", "1 1", "1 ",
    " 1", "1\n", "\n1", "x", "1x", "\0", "S",
];

/// Counts what reading says, and holds that what is accepted is written back byte for byte.
pub fn count(seen: &mut Seen, file: &[u8]) -> Result<Line, Refusal> {
    let answer = read(file);
    if let Ok(line) = &answer {
        assert_eq!(write(line).as_deref(), Ok(file), "{}", shown(file));
    }
    seen.input(
        answer
            .map(|_| ())
            .map_err(|refusal| (refusal.number, refusal.place)),
    );
    answer
}

/// Counts what reading the fields of a record says, and holds that writing the record says the same and
/// changes no lent byte where it is refused.
pub fn count_record(seen: &mut Seen, line: &Line) -> Result<(), Refusal> {
    let text = Fields::of(line).text();
    let answer = count(seen, &text);
    let written = answer.map(|_| text.clone());
    assert_eq!(write(line), written, "{}", shown(&text));
    if answer.is_err() {
        let mut lent = [0xA5; FILE_BYTES];
        assert_eq!(write_into(line, &mut lent).err(), answer.err());
        assert!(lent.iter().all(|&byte| byte == 0xA5));
    }
    answer.map(|_| ())
}
