//! The subcommands. A new one is a file here and an entry in [`ALL`].

mod check;
mod export;
mod graph;
mod help;
mod import;
mod lists;
mod plan;
mod read;
mod rewrite;
mod starts;
mod why;

use std::ffi::OsString;

use crate::arguments::{parse, Asked};
use crate::command::{Command, Failure};

/// All subcommands in the order of the help.
const ALL: [&Command; 10] = [
    &read::COMMAND,
    &rewrite::COMMAND,
    &plan::COMMAND,
    &check::COMMAND,
    &lists::COMMAND,
    &graph::COMMAND,
    &why::COMMAND,
    &starts::COMMAND,
    &export::COMMAND,
    &import::COMMAND,
];

/// Runs the subcommand that the first argument names.
pub fn run(arguments: &[OsString]) -> Result<Vec<u8>, Failure> {
    let Some((name, rest)) = arguments.split_first() else {
        return Err(Failure::Usage(help::overview()));
    };
    match name.to_str() {
        Some("help" | "--help" | "-h") => help::help(rest),
        Some("--version" | "-V") if rest.is_empty() => {
            Ok(format!("gaugeviolet {}\n", env!("CARGO_PKG_VERSION")).into())
        }
        Some("--version" | "-V") => Err(Failure::usage(
            "--version stands alone",
            "gaugeviolet --version",
        )),
        name => {
            let command = find(name).ok_or_else(|| unknown(&arguments[0]))?;
            match parse(command, rest)? {
                Asked::Help => Ok(help::of(command).into()),
                Asked::Run(arguments) => (command.run)(&arguments),
            }
        }
    }
}

fn find(name: Option<&str>) -> Option<&'static Command> {
    ALL.into_iter().find(|command| Some(command.name) == name)
}

fn unknown(name: &OsString) -> Failure {
    let why = format!("there is no command {}", name.display());
    Failure::usage(&why, "gaugeviolet COMMAND LINE [TIMETABLE]")
}
