//! The best timetable.

use crate::arguments::Arguments;
use crate::command::{Command, Failure};
use crate::{given, planning};

pub const COMMAND: Command = Command {
    name: "plan",
    arguments: "LINE",
    takes: (1, 1),
    options: &[],
    summary: "the best timetable of the line",
    help: "\
Finds the best timetable of a line: the one with the least weighted delay. There is
no limit of time; on a terminal the time gone is shown. The answer has a line of
departures and arrivals for each train, the order lists, and the total.

A line without a timetable is refused by 5; `gaugeviolet why` then says more.

example: gaugeviolet plan samples/saturday.line > saturday.timetable
",
    run,
};

fn run(arguments: &Arguments) -> Result<Vec<u8>, Failure> {
    let file = given::bytes(arguments.file(0))?;
    planning::best(&file.bytes).map_err(|refusal| Failure::refused(refusal, &file, None))
}
