//! A timetable checked against its line.

use crate::arguments::Arguments;
use crate::command::{Command, Failure};
use crate::given;

pub const COMMAND: Command = Command {
    name: "check",
    arguments: "LINE TIMETABLE",
    takes: (2, 2),
    options: &[],
    summary: "`passed` where the timetable keeps every rule",
    help: "\
Checks a timetable against its line: `passed`, or the first rule that it breaks.
The exit status says it too, so what comes after `&&` is done only if it passed.

example: gaugeviolet check samples/saturday.line my.timetable && echo publish it
",
    run,
};

fn run(arguments: &Arguments) -> Result<Vec<u8>, Failure> {
    let file = given::bytes(arguments.file(0))?;
    let timetable = given::bytes(arguments.file(1))?;
    match gaugeviolet::check(&file.bytes, &timetable.bytes) {
        Ok(()) => Ok(b"passed\n".to_vec()),
        Err(refusal) => Err(Failure::refused(refusal, &file, Some(&timetable))),
    }
}
