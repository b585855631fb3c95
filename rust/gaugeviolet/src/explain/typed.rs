//! What people type in the place of a field, and what they mean by it.

use super::field::Field;
use super::token::Token;
use super::walker::Fault;

/// The bytes that stand in the place of a field.
pub(super) struct Typed<'a>(Token<'a>);

impl<'a> Typed<'a> {
    /// The kinds of mistake, those that others would hide first.
    const MISTAKES: [fn(&Typed<'a>) -> Option<String>; 11] = [
        Self::line_end,
        Self::tab,
        Self::unprintable,
        Self::time_of_day,
        Self::hours,
        Self::separator,
        Self::letter_of_kind,
        Self::digits,
        Self::letter_for_digit,
        Self::sign,
        Self::comment,
    ];

    pub fn at(text: &'a [u8], fault: &Fault) -> Typed<'a> {
        Typed(Token::at(text, fault))
    }

    /// What is wrong with it, by the first kind of mistake that it shows.
    pub fn hint(&self) -> Option<String> {
        Self::MISTAKES.iter().find_map(|mistake| mistake(self))
    }

    fn is_kind(&self) -> bool {
        matches!(self.0.field, Field::SegmentKind { .. })
    }

    fn line_end(&self) -> Option<String> {
        self.0.ends_line_with_return().then(|| {
            "the line ends with CR LF, as editors on Windows write it; save it with line feeds alone"
                .into()
        })
    }

    fn tab(&self) -> Option<String> {
        let other = |&byte: &u8| byte != b'\t' && !byte.is_ascii_graphic();
        if !self.0.has(b'\t') || self.0.bytes.iter().any(other) {
            None
        } else if self.0.next != Some(b' ') && self.0.bytes.ends_with(b"\t") {
            Some("there is a tab at the end of the line; take it away".into())
        } else {
            Some("there is a tab; fields are separated by one space".into())
        }
    }

    fn unprintable(&self) -> Option<String> {
        if !self.0.bytes.is_ascii() {
            let hint =
                "there is a character that is not ASCII; it may look like a space or a digit";
            return Some(hint.into());
        }
        let control = self.0.bytes.iter().any(u8::is_ascii_control);
        control.then(|| "there is a byte that cannot be printed; take it away".into())
    }

    /// A time of day such as `6:00`, `6.00`, `6h00` or `0600`.
    fn time_of_day(&self) -> Option<String> {
        let text = std::str::from_utf8(self.0.bytes).ok()?;
        if !self.0.field.is_time() {
            return None;
        }
        if let Some(minutes) = clock(text, &[':', '.', 'h']) {
            return Some(format!("times are minutes from midnight; write {minutes}"));
        }
        if let Some(minutes) = four_digits(text) {
            return Some(format!(
                "a number has no leading zero; if a time of day is meant, write {minutes}"
            ));
        }
        let on_a_clock = self.0.has(b':') || is_half_day(text);
        on_a_clock.then(|| "times are minutes from midnight; 6:00 is written 360".into())
    }

    /// Hours and minutes where so many minutes are due.
    fn hours(&self) -> Option<String> {
        let text = std::str::from_utf8(self.0.bytes).ok()?;
        let minutes = clock(text, &[':']).filter(|_| self.0.field.is_duration())?;
        Some(format!("times are minutes; write {minutes}"))
    }

    fn separator(&self) -> Option<String> {
        let name = match (self.0.has(b','), self.0.has(b';')) {
            (true, _) => "comma",
            (_, true) => "semicolon",
            _ => return None,
        };
        Some(format!(
            "there is a {name}; fields are separated by one space, and numbers have none in them"
        ))
    }

    fn letter_of_kind(&self) -> Option<String> {
        let [letter, rest @ ..] = self.0.bytes else {
            return None;
        };
        if !self.is_kind() {
            None
        } else if rest.is_empty() && b"sfd".contains(letter) {
            Some("the kind is written with a capital letter".into())
        } else {
            Some("a segment's line is its kind, its following gap and its opposing gap".into())
        }
    }

    fn digits(&self) -> Option<String> {
        if !self.0.bytes.iter().all(u8::is_ascii_digit) {
            None
        } else if self.0.bytes[0] == b'0' {
            Some("a number has no leading zero".into())
        } else {
            Some("the number has too many digits".into())
        }
    }

    fn letter_for_digit(&self) -> Option<String> {
        let alike = |byte: &u8| byte.is_ascii_digit() || b"OolI".contains(byte);
        let all = self.0.bytes.iter().all(alike);
        all.then(|| "there is a letter that looks like a digit: O and 0, l and 1".into())
    }

    fn sign(&self) -> Option<String> {
        let signed = matches!(self.0.bytes, [b'-' | b'+', ..]);
        (signed || self.0.has(b'.')).then(|| "numbers are whole and have no sign".into())
    }

    fn comment(&self) -> Option<String> {
        let begins = self.0.bytes.starts_with(b"#") || self.0.bytes.starts_with(b"//");
        begins.then(|| "comments are not allowed".into())
    }
}

/// Whether it is hours with the half of the day, such as `6am`.
fn is_half_day(text: &str) -> bool {
    let text = text.to_ascii_lowercase();
    let hours = text.strip_suffix("am").or(text.strip_suffix("pm"));
    hours.is_some_and(|hours| hours.starts_with(|first: char| first.is_ascii_digit()))
}

/// The minutes of a time of day with one of these between hours and minutes.
fn clock(text: &str, between: &[char]) -> Option<u32> {
    let (hours, minutes) = text.split_once(between)?;
    minutes_of(hours, minutes)
}

/// The minutes of a time of day such as `0630`, which has the leading zero of its hours.
fn four_digits(text: &str) -> Option<u32> {
    let (hours, minutes) = text.split_at_checked(2)?;
    minutes_of(hours, minutes).filter(|_| text.starts_with('0'))
}

fn minutes_of(hours: &str, minutes: &str) -> Option<u32> {
    let digits = |part: &str| part.bytes().all(|byte| byte.is_ascii_digit());
    let right = (1..=2).contains(&hours.len()) && minutes.len() == 2;
    if !(right && digits(hours) && digits(minutes)) {
        return None;
    }
    let (hours, minutes): (u32, u32) = (hours.parse().ok()?, minutes.parse().ok()?);
    (hours < 48 && minutes < 60).then_some(60 * hours + minutes)
}
