//! Going through a text field by field up to its first fault: the field's form, the byte after it, then
//! its range, as the library does it.

use super::field::Field;

/// What is wrong at a field.
#[derive(Clone, Copy, Debug, PartialEq, Eq)]
pub(super) enum Wrong {
    Form,
    /// What has to follow it does not.
    After(After),
    Range,
    SameStation,
    /// A booking or a due minute is out of order, or a booking not at a middle station of its train.
    OutOfPlace,
    /// Arrival and departure differ where a train begins or ends.
    NotRepeated,
    /// A trip, a stop or a sequence is not the next one on the line's paths.
    NotNext,
}

/// The first fault of a text, with the bytes that it is about.
#[derive(Clone, Debug)]
pub(super) struct Fault {
    pub wrong: Wrong,
    pub field: Field,
    /// The line of the field, from 1.
    pub line: usize,
    /// Where the bytes begin and end in the text.
    pub from: usize,
    pub to: usize,
    pub found: String,
    pub allowed: String,
}

/// What has to follow a field.
#[derive(Clone, Copy, Debug, PartialEq, Eq)]
pub(super) enum After {
    Space,
    Comma,
    LineFeed,
}

impl After {
    fn byte(self) -> u8 {
        match self {
            After::Space => b' ',
            After::Comma => b',',
            After::LineFeed => b'\n',
        }
    }

    fn in_words(self) -> &'static str {
        match self {
            After::Space => "a space",
            After::Comma => "a comma",
            After::LineFeed => "the end of the line",
        }
    }
}

/// The numbers that a field may have.
#[derive(Clone, Copy, Debug)]
pub(super) struct Allowed {
    pub least: u32,
    pub most: u32,
}

impl Allowed {
    pub fn exactly(number: u32) -> Allowed {
        Allowed {
            least: number,
            most: number,
        }
    }

    pub fn from(least: u32, most: u32) -> Allowed {
        Allowed { least, most }
    }

    pub fn in_words(self) -> String {
        match self {
            Allowed { least, most } if least == most => format!("the number {least}"),
            Allowed { least, most } if least > most => "no number".to_string(),
            Allowed { least, most } => format!("a number from {least} to {most}"),
        }
    }
}

/// A text, and how far it has been read.
pub(super) struct Walker<'a> {
    text: &'a [u8],
    at: usize,
    line: usize,
    /// What stands between the fields of a line.
    between: After,
}

/// A field that was read, and where. Its value is that of its number.
#[derive(Clone, Copy)]
pub(super) struct Read {
    pub value: u32,
    line: usize,
    from: usize,
    to: usize,
}

impl<'a> Walker<'a> {
    /// A text whose fields are separated by spaces.
    pub fn new(text: &'a [u8]) -> Walker<'a> {
        Walker {
            text,
            at: 0,
            line: 1,
            between: After::Space,
        }
    }

    /// A text whose fields are separated by commas.
    pub fn with_commas(text: &'a [u8]) -> Walker<'a> {
        Walker {
            between: After::Comma,
            ..Walker::new(text)
        }
    }

    /// The bytes up to the next separator or line feed, or the end.
    fn token(&self) -> &'a [u8] {
        let rest = &self.text[self.at..];
        let ends = [self.between.byte(), b'\n'];
        let end = rest.iter().position(|byte| ends.contains(byte));
        &rest[..end.unwrap_or(rest.len())]
    }

    /// A number of one to `digits` digits without leading zero.
    pub fn number(&mut self, field: Field, digits: usize, allowed: &str) -> Result<Read, Fault> {
        self.form(field, |token| numeral(token, digits), allowed)
    }

    /// A field with a value by its form.
    pub fn form(
        &mut self,
        field: Field,
        value: impl Fn(&[u8]) -> Option<u32>,
        allowed: &str,
    ) -> Result<Read, Fault> {
        let token = self.token();
        let Some(value) = value(token) else {
            return Err(self.bad_token(field, allowed));
        };
        let read = Read {
            value,
            line: self.line,
            from: self.at,
            to: self.at + token.len(),
        };
        self.at = read.to;
        Ok(read)
    }

    /// The letter of a kind, with the space after it.
    pub fn kind(&mut self, field: Field) -> Result<(), Fault> {
        let token = self.token();
        if !matches!(token, b"S" | b"F" | b"D") {
            return Err(self.bad_token(field, "one of the letters S, F and D"));
        }
        self.at += 1;
        self.after(field, After::Space)
    }

    /// The byte after a field.
    pub fn after(&mut self, field: Field, after: After) -> Result<(), Fault> {
        let found = self.text.get(self.at);
        if found == Some(&after.byte()) {
            self.at += 1;
            self.line += usize::from(after == After::LineFeed);
            return Ok(());
        }
        let (found, to) = match found {
            None => ("the end of the text", self.at),
            Some(b'\n') => (After::LineFeed.in_words(), self.at),
            Some(_) => (self.between.in_words(), self.at + 1),
        };
        let allowed = match after {
            After::Space => "a space and the next field after it",
            After::Comma => "a comma and the next field after it",
            After::LineFeed => "the end of the line (a line feed) after it",
        };
        Err(self.fault(Wrong::After(after), field, to, found.into(), allowed))
    }

    /// A number of up to four digits within its range, with what follows it.
    pub fn ranged(&mut self, field: Field, allowed: Allowed, after: After) -> Result<u32, Fault> {
        let read = self.number(field, 4, &allowed.in_words())?;
        self.after(field, after)?;
        self.within(field, read, allowed)
    }

    /// Whether a number that was read is within its range.
    pub fn within(&self, field: Field, read: Read, allowed: Allowed) -> Result<u32, Fault> {
        if (allowed.least..=allowed.most).contains(&read.value) {
            return Ok(read.value);
        }
        Err(self.read_fault(Wrong::Range, field, read, allowed.in_words()))
    }

    /// A number within its range, with the space after it. It is wrong all the same where `instead` says
    /// what is allowed instead.
    pub fn fitting(
        &mut self,
        field: Field,
        allowed: Allowed,
        wrong: Wrong,
        instead: impl Fn(u32) -> Option<String>,
    ) -> Result<u32, Fault> {
        let read = self.number(field, 4, &allowed.in_words())?;
        self.after(field, After::Space)?;
        let number = self.within(field, read, allowed)?;
        match instead(number) {
            None => Ok(number),
            Some(instead) => Err(self.read_fault(wrong, field, read, instead)),
        }
    }

    /// Whether all of the text has been read.
    pub fn at_end(&self) -> bool {
        self.at == self.text.len()
    }

    /// The end of the text.
    pub fn end(&self) -> Result<(), Fault> {
        if self.at_end() {
            return Ok(());
        }
        let line = self.text[self.at..].split(|&byte| byte == b'\n').next();
        let to = self.at + line.map_or(0, <[u8]>::len);
        let found = "something after the last line".into();
        Err(self.fault(Wrong::Form, Field::End, to, found, "nothing more"))
    }

    fn bad_token(&self, field: Field, allowed: &str) -> Fault {
        let token = self.token();
        let (found, to) = match (token, self.text.get(self.at)) {
            ([], None) => ("the end of the text".to_string(), self.at),
            ([], Some(b'\n')) if self.begins_line() => ("an empty line".to_string(), self.at),
            ([], Some(b'\n')) => (After::LineFeed.in_words().to_string(), self.at),
            ([], _) => (self.between.in_words().to_string(), self.at + 1),
            _ => (told(token), self.at + token.len()),
        };
        self.fault(Wrong::Form, field, to, found, allowed)
    }

    fn begins_line(&self) -> bool {
        self.at == 0 || self.text[self.at - 1] == b'\n'
    }

    fn fault(&self, wrong: Wrong, field: Field, to: usize, found: String, allowed: &str) -> Fault {
        Fault {
            wrong,
            field,
            line: self.line,
            from: self.at,
            to,
            found,
            allowed: allowed.to_string(),
        }
    }

    /// A fault of a field that was read, and so has its form.
    pub fn read_fault(&self, wrong: Wrong, field: Field, read: Read, allowed: String) -> Fault {
        Fault {
            wrong,
            field,
            line: read.line,
            from: read.from,
            to: read.to,
            found: String::from_utf8_lossy(&self.text[read.from..read.to]).into_owned(),
            allowed,
        }
    }
}

/// The value of a number of one to `digits` digits without leading zero.
pub(super) fn numeral(token: &[u8], digits: usize) -> Option<u32> {
    let is_number = (1..=digits).contains(&token.len())
        && token.iter().all(u8::is_ascii_digit)
        && (token.len() == 1 || token[0] != b'0');
    let value = |value: u32, byte: &u8| value * 10 + u32::from(byte - b'0');
    is_number.then(|| token.iter().fold(0, value))
}

/// The most bytes of a token that are told.
const TOLD: usize = 40;

/// A token as it is told in a sentence: what cannot be printed as an escape, and a long one cut.
fn told(token: &[u8]) -> String {
    let (told, cut) = match token.get(..TOLD) {
        Some(begin) if begin.len() < token.len() => (begin, "..."),
        _ => (token, ""),
    };
    let characters = told.iter().map(|&byte| match byte {
        b' '..=b'~' => char::from(byte).to_string(),
        _ => byte.escape_ascii().to_string(),
    });
    format!("`{}{cut}`", characters.collect::<String>())
}

/// Bytes with one character for each, so that a mark can stand under them. What cannot be printed is a
/// question mark.
pub(super) fn visible(bytes: &[u8]) -> String {
    let character = |&byte: &u8| match byte {
        b' '..=b'~' => char::from(byte),
        _ => '?',
    };
    bytes.iter().map(character).collect()
}
