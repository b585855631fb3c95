//! What people and their programs write in a column of stop times, and what they mean by it.

use super::field::Field;
use super::stop_times::{time, COLUMNS};
use super::token::Token;
use super::walker::{numeral, Fault};

/// The bytes that stand in the place of a column.
pub(super) struct Column<'a>(Token<'a>);

impl<'a> Column<'a> {
    /// The kinds of mistake, those that others would hide first.
    const MISTAKES: [fn(&Column<'a>) -> Option<String>; 9] = [
        Self::line_end,
        Self::unprintable,
        Self::quotes,
        Self::separator,
        Self::empty,
        Self::header,
        Self::trip,
        Self::time,
        Self::number,
    ];

    pub fn at(text: &'a [u8], fault: &Fault) -> Column<'a> {
        Column(Token::at(text, fault))
    }

    /// What is wrong with it, by the first kind of mistake that it shows.
    pub fn hint(&self) -> Option<String> {
        Self::MISTAKES.iter().find_map(|mistake| mistake(self))
    }

    fn line_end(&self) -> Option<String> {
        self.0.ends_line_with_return().then(|| {
            "the line ends with CR LF, as many programs write it; save it with line feeds alone"
                .into()
        })
    }

    fn unprintable(&self) -> Option<String> {
        if !self.0.bytes.is_ascii() {
            return Some("there is a character that is not ASCII; take it away".into());
        }
        let control = |&byte: &u8| byte != b'\t' && byte.is_ascii_control();
        let control = self.0.bytes.iter().any(control);
        control.then(|| "there is a byte that cannot be printed; take it away".into())
    }

    fn quotes(&self) -> Option<String> {
        let quoted = self.0.has(b'"') || self.0.has(b'\'');
        quoted.then(|| "fields are written without quotes".into())
    }

    fn separator(&self) -> Option<String> {
        let found = match self.0.bytes {
            token if token.contains(&b';') => "a semicolon",
            token if token.contains(&b'\t') => "a tab",
            token if token.contains(&b' ') => "a space",
            _ => return None,
        };
        Some(format!(
            "there is {found}; fields are separated by one comma without spaces"
        ))
    }

    /// In GTFS some fields may be left empty.
    fn empty(&self) -> Option<String> {
        (self.0.bytes == b",").then(|| "the field is empty; here every stop has all five".into())
    }

    fn header(&self) -> Option<String> {
        let Field::ColumnName { column } = self.0.field else {
            return None;
        };
        let name = COLUMNS[column as usize - 1].as_bytes();
        Some(if self.0.bytes.eq_ignore_ascii_case(name) {
            "the names of the columns are written in small letters".into()
        } else if column == 1 && self.0.bytes.starts_with(b"T") {
            format!("the header is missing; line 1 is {}", COLUMNS.join(","))
        } else {
            "the columns are these five in this order, and no others".into()
        })
    }

    fn trip(&self) -> Option<String> {
        let Field::TripId { train, .. } = self.0.field else {
            return None;
        };
        let digits = self.0.bytes.strip_prefix(b"T").unwrap_or_default();
        let numbered = !digits.is_empty() && digits.iter().all(u8::is_ascii_digit);
        Some(match numbered {
            true if digits[0] == b'0' => "a number has no leading zero".into(),
            true => "the number has too many digits".into(),
            false => format!(
                "a trip is T and the number of its train; that of train {train} is T{train}"
            ),
        })
    }

    fn time(&self) -> Option<String> {
        if !matches!(
            self.0.field,
            Field::ArrivalTime { .. } | Field::DepartureTime { .. }
        ) {
            return None;
        }
        if let Some(minute) = numeral(self.0.bytes, 4).filter(|&minute| minute < 2880) {
            let written = time(minute);
            return Some(format!("times are HH:MM:SS; minute {minute} is {written}"));
        }
        let text = std::str::from_utf8(self.0.bytes).ok()?;
        let parts: Vec<&str> = text.split(':').collect();
        let numbers: Option<Vec<u32>> = parts.iter().map(|part| one_or_two(part)).collect();
        Some(match numbers?[..] {
            [hours, ..] if hours > 47 => "the second day ends at 47:59:00".into(),
            [_, _, seconds] if seconds > 0 => {
                "trains run by whole minutes: the seconds are always 00".into()
            }
            [_, minutes, ..] if minutes > 59 => "minutes go from 00 to 59".into(),
            [hours, minutes] => format!(
                "a time has seconds too, always 00; write {}",
                time(60 * hours + minutes)
            ),
            [hours, minutes, _] => format!(
                "hours, minutes and seconds have two digits each; write {}",
                time(60 * hours + minutes)
            ),
            _ => return None,
        })
    }

    /// A stop or a sequence.
    fn number(&self) -> Option<String> {
        let what = match self.0.field {
            Field::StopId { .. } => "stops are told by the numbers of the stations",
            Field::StopSequence { .. } => "the sequence is a number: 1, 2, 3 and so on",
            _ => return None,
        };
        let digits = self.0.bytes.iter().all(u8::is_ascii_digit);
        Some(match digits {
            true if self.0.bytes[0] == b'0' => "a number has no leading zero".into(),
            true => "the number has too many digits".into(),
            false => what.into(),
        })
    }
}

/// A number of one or two digits.
fn one_or_two(part: &str) -> Option<u32> {
    let digits = part.bytes().all(|byte| byte.is_ascii_digit());
    let right = (1..=2).contains(&part.len()) && digits;
    part.parse().ok().filter(|_| right)
}
