//! The program of the planner's week: one subcommand for each thing that its people do with a line file
//! and a timetable. Standard output has the answer or `refused n p` and nothing else; what is for people
//! is on standard error.

mod arguments;
mod command;
mod commands;
mod given;
mod interrupt;
mod planning;

use std::ffi::OsString;
use std::io::{self, ErrorKind, Write};
use std::process::ExitCode;

use command::Failure;

fn main() -> ExitCode {
    interrupt::watch();
    let arguments: Vec<OsString> = std::env::args_os().skip(1).collect();
    match commands::run(&arguments) {
        Ok(answer) => finish(&answer, "", 0),
        Err(Failure::Refused { refusal, words }) => {
            let answer = format!("{}\n", refusal.in_numbers());
            finish(answer.as_bytes(), &words, 1)
        }
        Err(Failure::Usage(words) | Failure::File(words)) => finish(b"", &words, 2),
    }
}

/// Writes the answer, then what is for people. A reader who has closed the pipe has what he wanted.
fn finish(answer: &[u8], words: &str, status: u8) -> ExitCode {
    interrupt::going_on("writing the answer");
    let mut out = io::stdout().lock();
    let written = out.write_all(answer).and_then(|()| out.flush());
    match written {
        Err(why) if why.kind() != ErrorKind::BrokenPipe => {
            tell(&format!("gaugeviolet: standard output: {why}\n"));
            ExitCode::from(2)
        }
        _ => {
            tell(words);
            ExitCode::from(status)
        }
    }
}

/// Writes to standard error, which may be closed too.
fn tell(words: &str) {
    let _ = io::stderr().write_all(words.as_bytes());
}
