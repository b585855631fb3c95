//! Refusals explained from the bytes that were refused: the line with a mark under the fault, the
//! field's name, what was found and what is allowed, and what usually lies behind it.
//!
//! Number and place are the library's. The bytes are looked at again here, and where that does not lead
//! to the same number and place there is no explanation.

use std::fmt;

mod column;
mod field;
mod hints;
mod line_file;
mod needed;
mod quotation;
mod rules;
mod stop_times;
mod timetable_text;
mod token;
mod typed;
mod walker;

pub use field::Field;
pub use quotation::{Quotation, Text};

use crate::{Cause, Line, Refusal, Timetable, Train};
use line_file::Known;
use walker::{Fault, Wrong};

/// What is wrong with the bytes that were refused.
///
/// ```
/// let file = b"2\n1\n1\n1\nS 5 4\n1\n1 2 6:00 600 1 10\n";
/// let refusal = gaugeviolet::read(file).unwrap_err();
/// let explanation = refusal.explanation(file, None).unwrap();
/// assert_eq!(
///     explanation.to_string(),
///     "line 7, column 5, train 1: earliest\n    \
///          1 2 6:00 600 1 10\n        \
///              ^^^^\n\
///      found: `6:00`\n\
///      allowed: a number from 0 to 2879\n\
///      hint: times are minutes from midnight; write 360\n"
/// );
/// ```
#[derive(Clone, Debug, PartialEq, Eq)]
pub struct Explanation {
    /// Where it is, unless it is about a whole text.
    pub quotation: Option<Quotation>,
    /// The field that it is about.
    pub field: Option<Field>,
    /// What was found.
    pub found: String,
    /// What is allowed there.
    pub allowed: String,
    /// What usually lies behind the fault, and how many fields the line needs.
    pub hints: Vec<String>,
}

impl Refusal {
    /// Explains the refusal of a line file, or of the text that was lent with it: a timetable, and for 20
    /// and 21 stop times. Nothing where the library does not refuse these bytes so; only that a line has no
    /// timetable (5) or that lent bytes were too few (6) is believed. Nothing for 22 either, which is about
    /// what was asked and not about bytes.
    ///
    /// ```
    /// let file = b"2\n1\n1\n1\nS 5 4\n1\n1 2 0 99 1 10\n";
    /// let stop_times = b"trip_id,arrival_time,departure_time,stop_id,stop_sequence\n\
    ///                    T1,0:14:00,0:14:00,1,1\n";
    /// let refusal = gaugeviolet::import(file, stop_times, &mut []).unwrap_err();
    /// let explanation = refusal.explanation(file, Some(stop_times)).unwrap();
    /// assert_eq!(
    ///     explanation.to_string(),
    ///     "line 2 of the stop times, column 4, train 1 at station 1: arrival_time\n    \
    ///          T1,0:14:00,0:14:00,1,1\n       \
    ///             ^^^^^^^\n\
    ///      found: `0:14:00`\n\
    ///      allowed: a time HH:MM:00 from 00:00:00 to 47:59:00\n\
    ///      hint: hours, minutes and seconds have two digits each; write 00:14:00\n"
    /// );
    /// ```
    pub fn explanation(&self, file: &[u8], text: Option<&[u8]>) -> Option<Explanation> {
        let cause = self.cause()?;
        if !self.is_of(cause, file, text) {
            return None;
        }
        match cause {
            Cause::FileLength => Some(too_long(file)),
            Cause::FileForm | Cause::FileRange | Cause::SameStation | Cause::OutOfPlace => {
                self.of_file(cause, file)
            }
            Cause::NoTimetable => without_timetable(file),
            Cause::LentBytes => Some(whole(
                "fewer lent bytes than the text has",
                "4096 always suffice",
            )),
            Cause::TimetableLength => text.map(too_long),
            Cause::Starts => None,
            Cause::StopTimesForm | Cause::StopTimesPath => {
                self.of_stop_times(cause, &Line::read(file).ok()?, text?)
            }
            _ => self.of_timetable(cause, &Line::read(file).ok()?, text?),
        }
    }

    /// Whether the library refuses these bytes so.
    fn is_of(&self, cause: Cause, file: &[u8], text: Option<&[u8]>) -> bool {
        match cause {
            Cause::NoTimetable | Cause::LentBytes => true,
            _ if cause.is_of_timetable() => {
                text.is_some_and(|text| crate::check(file, text) == Err(*self))
            }
            // Their faults come before that no bytes are lent.
            _ if cause.is_of_stop_times() => {
                text.is_some_and(|text| crate::import(file, text, &mut []) == Err(*self))
            }
            _ => crate::read(file) == Err(*self),
        }
    }

    fn of_file(&self, cause: Cause, file: &[u8]) -> Option<Explanation> {
        let mut known = Known::default();
        let fault = line_file::walk(file, &mut known).err()?;
        let told = (cause_in_file(fault.wrong), fault.line as u32);
        (told == (cause, self.place)).then(|| {
            let needed = needed::in_file(file, &fault, &known);
            explained(Text::LineFile, file, fault, needed)
        })
    }

    fn of_stop_times(&self, cause: Cause, line: &Line, text: &[u8]) -> Option<Explanation> {
        let fault = stop_times::walk(line, text).err()?;
        let told = (cause_in_stop_times(fault.wrong), fault.line as u32);
        (told == (cause, self.place)).then(|| {
            let needed = needed::in_stop_times(line, text, &fault);
            explained(Text::StopTimes, text, fault, needed)
        })
    }

    fn of_timetable(&self, cause: Cause, line: &Line, text: &[u8]) -> Option<Explanation> {
        match timetable_text::walk(line, text) {
            Err(fault) => {
                let told = (cause_in_timetable(fault.wrong), fault.line as u32);
                (told == (cause, self.place)).then(|| {
                    let needed = needed::in_timetable(line, text, &fault);
                    explained(Text::Timetable, text, fault, needed)
                })
            }
            Ok(()) => {
                let breach = rules::breach(&Timetable::in_form(line, text), cause, self.place)?;
                Some(Explanation {
                    quotation: Quotation::field(Text::Timetable, text, breach.line, breach.at),
                    field: Some(breach.field),
                    found: breach.found,
                    allowed: breach.allowed,
                    hints: Vec::new(),
                })
            }
        }
    }
}

fn cause_in_file(wrong: Wrong) -> Cause {
    match wrong {
        Wrong::Range => Cause::FileRange,
        Wrong::SameStation => Cause::SameStation,
        Wrong::OutOfPlace => Cause::OutOfPlace,
        _ => Cause::FileForm,
    }
}

fn cause_in_timetable(wrong: Wrong) -> Cause {
    match wrong {
        Wrong::Form | Wrong::After(_) => Cause::TimetableForm,
        _ => Cause::TimetableRange,
    }
}

fn cause_in_stop_times(wrong: Wrong) -> Cause {
    match wrong {
        Wrong::NotNext => Cause::StopTimesPath,
        _ => Cause::StopTimesForm,
    }
}

/// An explanation that is about a whole text.
fn whole(found: &str, allowed: &str) -> Explanation {
    Explanation {
        quotation: None,
        field: None,
        found: found.to_string(),
        allowed: allowed.to_string(),
        hints: Vec::new(),
    }
}

fn too_long(text: &[u8]) -> Explanation {
    whole(&format!("{} bytes", text.len()), "at most 4096 bytes")
}

/// A fault explained, with what is needed on its line.
fn explained(text: Text, bytes: &[u8], fault: Fault, needed: Option<String>) -> Explanation {
    let hint = hints::hint(text, bytes, &fault);
    let Fault { line, from, to, .. } = fault;
    Explanation {
        quotation: Some(Quotation::part(text, bytes, line, from, to)),
        field: Some(fault.field),
        found: fault.found,
        allowed: fault.allowed,
        hints: hint.into_iter().chain(needed).collect(),
    }
}

/// Of a file without a timetable: the first train that cannot be in time even alone, if there is one.
fn without_timetable(file: &[u8]) -> Option<Explanation> {
    let line = Line::read(file).ok()?;
    let late = |&(number, train): &(u32, &Train)| line.free_arrival(number) > train.latest;
    let Some((number, train)) = (1..).zip(line.trains()).find(late) else {
        return Some(whole(
            "trains that can each be in time alone, but not together",
            "trains that keep every rule together",
        ));
    };
    let row = 2 * line.tracks().len() + 2 + number as usize;
    let kept = match line.bookings().iter().any(|it| it.train == number) {
        true => ", bookings kept",
        false => "",
    };
    Some(Explanation {
        quotation: Quotation::field(Text::LineFile, file, row, 3),
        field: Some(Field::Latest { train: number }),
        found: rules::minute(train.latest),
        allowed: format!(
            "{} or later: earliest plus all runs and stops{kept}",
            rules::minute(line.free_arrival(number))
        ),
        hints: Vec::new(),
    })
}

impl fmt::Display for Explanation {
    fn fmt(&self, f: &mut fmt::Formatter<'_>) -> fmt::Result {
        if let Some(quotation) = &self.quotation {
            let text = match quotation.text {
                Text::LineFile => "",
                Text::Timetable => " of the timetable",
                Text::StopTimes => " of the stop times",
            };
            let (line, column) = (quotation.line, quotation.column);
            write!(f, "line {line}{text}, column {column}")?;
            match self.field {
                Some(field) => writeln!(f, ", {field}")?,
                None => writeln!(f)?,
            }
            quotation.fmt(f)?;
        }
        writeln!(f, "found: {}", self.found)?;
        writeln!(f, "allowed: {}", self.allowed)?;
        for hint in &self.hints {
            writeln!(f, "hint: {hint}")?;
        }
        Ok(())
    }
}
