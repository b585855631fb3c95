//! Compares line files whose sections past the third are altered.

use independent::Line;
use inputs::{damage_bytes, damage_lines, Fields, Random};

use crate::common::Compared;

/// At each limit of the ranges, next to it and past it; what wraps to a good number; leading zeros; forms
/// that are no number.
#[rustfmt::skip]
const FIELD_TEXTS: &[&str] = &[
    "0", "1", "2", "3", "10", "11", "12", "13", "14", "119", "120", "121", "122", "127", "128",
    "239", "240", "241", "255", "256", "257", "2878", "2879", "2880", "9999",
    "10000", "65536", "65537", "65538", "99999", "4294967297", "18446744073709551617",
    "00", "01", "02", "0002", "00002", "02879",
    "", " ", "-1", "+1", "1.", "1 1", " 1", "1 ", "1\n", "\n1", "\n", "x", "1x", "x1", "\0", "1\0",
    "\u{7f}", "\u{e9}", "S",
];

/// Where the fields of a line's sections past the third are.
pub fn optional_places(line: &Line, fields: &Fields) -> Vec<(usize, usize)> {
    let first = usize::from(2 * line.station_count + line.train_count) + 2;
    let places = fields.places().into_iter();
    places.filter(|place| place.0 >= first).collect()
}

/// Every number of four digits in each field of a file's sections past the third.
pub fn every_number(compared: &mut Compared, file: &[u8]) {
    let line = independent::read(file).expect("a line file");
    let fields = Fields::of(&line);
    for place in optional_places(&line, &fields) {
        for number in 0..=9999 {
            compared.file(&fields.text_with(place, &number.to_string()));
        }
    }
}

/// Each of these fields to its limits and past them.
pub fn limits(compared: &mut Compared, line: &Line, fields: &Fields, places: &[(usize, usize)]) {
    let counts = [
        line.station_count,
        line.train_count,
        line.booking_count,
        line.due_count,
    ];
    for &place in places {
        for text in FIELD_TEXTS {
            compared.file(&fields.text_with(place, text));
        }
        // The line's own counts, and next to them.
        for count in counts {
            for near in [count.saturating_sub(1), count, count + 1] {
                compared.file(&fields.text_with(place, &near.to_string()));
            }
        }
    }
}

/// The file of a line with its lines damaged, with one byte damaged and with several.
pub fn damaged(compared: &mut Compared, random: &mut Random, line: &Line) {
    let text = Fields::of(line).text();
    compared.file(&damage_lines(random, &text));
    let many = 2 + random.below(7);
    for times in [1, many] {
        let mut bytes = text.clone();
        damage_bytes(random, &mut bytes, times);
        compared.file(&bytes);
    }
}
