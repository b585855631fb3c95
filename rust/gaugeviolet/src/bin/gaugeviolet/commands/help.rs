//! What the program and its subcommands do, in words.

use std::ffi::OsString;

use super::{find, unknown, ALL};
use crate::command::{Command, Failure};

const ENDING: &str = "
LINE is a line file, TIMETABLE a timetable for it, and STOP_TIMES the same for journey
planners; `-` is standard input. Without TIMETABLE the best one is worked out. TRAIN is
the number of a train of the line, and MINUTE counts from midnight.

Standard output has the answer, or `refused n p`: the number of the refusal and its
place. What is wrong is told on standard error. The exit status is 0 for an answer,
1 for a refusal, 2 for wrong usage or a file that cannot be read or written.

example: gaugeviolet plan samples/saturday.line > saturday.timetable
";

/// All subcommands, a line each.
pub fn overview() -> String {
    let mut words = String::from(
        "gaugeviolet plans trains on single-track railways.\n\nusage: gaugeviolet COMMAND LINE [TIMETABLE]\n\n",
    );
    let line = |called: &str, summary: &str| format!("  {called:<28}{summary}\n");
    for command in ALL {
        let called = format!("{} {}", command.name, command.arguments);
        words += &line(&called, command.summary);
    }
    words += &line("help [COMMAND]", "what a command does, with an example");
    words += &line("--version", "the version");
    words + ENDING
}

/// What a subcommand does.
pub fn of(command: &Command) -> String {
    format!("usage: {}\n\n{}", command.usage(), command.help)
}

/// The help on the subcommand that is named, or the overview.
pub fn help(arguments: &[OsString]) -> Result<Vec<u8>, Failure> {
    match arguments {
        [] => Ok(overview().into()),
        [name] if name == "help" => Ok(overview().into()),
        [name] => match find(name.to_str()) {
            Some(command) => Ok(of(command).into()),
            None => Err(unknown(name)),
        },
        _ => Err(Failure::usage(
            "help takes one command",
            "gaugeviolet help [COMMAND]",
        )),
    }
}
