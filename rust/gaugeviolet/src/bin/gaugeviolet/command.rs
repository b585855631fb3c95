//! What a subcommand is, and how it can fail.

use std::ffi::OsStr;

use gaugeviolet::{Cause, Refusal};

use crate::arguments::Arguments;
use crate::given::{in_words, MOST_BYTES};

/// A subcommand.
pub struct Command {
    pub name: &'static str,
    /// Its files and what is asked of them, as the help shows them.
    pub arguments: &'static str,
    /// How many of these it takes, at least and at most.
    pub takes: (usize, usize),
    /// Its options, each with the name of the value after it.
    pub options: &'static [(&'static str, &'static str)],
    /// What it does, in a line.
    pub summary: &'static str,
    /// What it does, with an example.
    pub help: &'static str,
    /// Works out the bytes of its answer. Nothing is written before that.
    pub run: fn(&Arguments) -> Result<Vec<u8>, Failure>,
}

impl Command {
    /// How it is called.
    pub fn usage(&self) -> String {
        let options = self.options.iter();
        let options: String = options
            .map(|(name, value)| format!("[{name} {value}] "))
            .collect();
        format!("gaugeviolet {} {options}{}", self.name, self.arguments)
    }
}

/// Why there is no answer, with the words for people.
pub enum Failure {
    /// The library refused a file, or what was asked of it.
    Refused { refusal: Refusal, words: String },
    /// The arguments are wrong.
    Usage(String),
    /// A file cannot be read.
    File(String),
}

/// A file as it was named, with its bytes.
pub struct Named<'a> {
    pub name: &'a OsStr,
    pub bytes: Vec<u8>,
}

impl Failure {
    /// Wrong usage of a command, with how it is used.
    pub fn usage(why: &str, usage: &str) -> Failure {
        Failure::Usage(format!(
            "gaugeviolet: {why}\nusage: {usage}\n`gaugeviolet help` says more\n"
        ))
    }

    /// The refusal of a line file, or of a timetable or stop times for it: the sentence and the
    /// explanation.
    pub fn refused(refusal: Refusal, line: &Named, text: Option<&Named>) -> Failure {
        let of_text = |cause: Cause| cause.is_of_timetable() || cause.is_of_stop_times();
        let of_text = refusal.cause().is_some_and(of_text);
        let about = text.filter(|_| of_text).unwrap_or(line);
        let mut words = format!("gaugeviolet: {}: {refusal}\n", in_words(about.name));
        let bytes = text.map(|named| &named.bytes[..]);
        if let Some(explanation) = refusal.explanation(&line.bytes, bytes) {
            words += &explanation.to_string();
        }
        if about.bytes.len() == MOST_BYTES {
            words += &format!("only the first {MOST_BYTES} bytes were read\n");
        }
        if refusal.cause() == Some(Cause::NoTimetable) {
            words += "`gaugeviolet why` names trains that have no timetable by themselves\n";
        }
        Failure::Refused { refusal, words }
    }
}
