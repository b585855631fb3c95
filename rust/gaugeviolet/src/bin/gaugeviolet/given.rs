//! The files that were given: read whole, then as line and timetable.

use std::ffi::OsStr;
use std::fs::File;
use std::io::{self, Read};

use gaugeviolet::{Line, Timetable};

use crate::arguments::Arguments;
use crate::command::{Failure, Named};
use crate::{interrupt, planning};

/// No file is read further: what is longer than 4,096 bytes is refused anyhow, and stop times by a line
/// that begins before that.
pub const MOST_BYTES: usize = 65_536;

/// A file's name as it is told to people.
pub fn in_words(name: &OsStr) -> String {
    match name.to_str() {
        Some("-") => "standard input".to_string(),
        _ => name.display().to_string(),
    }
}

/// The bytes of a file; `-` is standard input.
pub fn bytes(name: &OsStr) -> Result<Named<'_>, Failure> {
    interrupt::going_on(&format!("reading {}", in_words(name)));
    let read = match name == "-" {
        true => first_bytes(io::stdin().lock()),
        false => File::open(name).and_then(first_bytes),
    };
    match read {
        Ok(bytes) => Ok(Named { name, bytes }),
        Err(why) => Err(Failure::File(format!(
            "gaugeviolet: {}: {why}\n",
            in_words(name)
        ))),
    }
}

fn first_bytes(file: impl Read) -> io::Result<Vec<u8>> {
    let mut bytes = Vec::new();
    file.take(MOST_BYTES as u64).read_to_end(&mut bytes)?;
    Ok(bytes)
}

/// The line of a file.
pub fn line(file: &Named) -> Result<Line, Failure> {
    Line::read(&file.bytes).map_err(|refusal| Failure::refused(refusal, file, None))
}

/// The timetable that the arguments name after the line file, or the best one of the line. Both files are
/// read before either is judged.
pub fn timetable(arguments: &Arguments) -> Result<Timetable, Failure> {
    let file = bytes(arguments.file(0))?;
    let given = arguments.optional_file(1).map(bytes).transpose()?;
    let line = line(&file)?;
    match given {
        Some(given) => Timetable::read(&line, &given.bytes)
            .map_err(|refusal| Failure::refused(refusal, &file, Some(&given))),
        None => {
            let best = planning::best(&file.bytes);
            let best = best.map_err(|refusal| Failure::refused(refusal, &file, None))?;
            Ok(checked(&line, &best))
        }
    }
}

/// A best timetable. It passes the check; that is proved.
pub fn checked(line: &Line, best: &[u8]) -> Timetable {
    Timetable::read(line, best).expect("the best timetable passes the check")
}
