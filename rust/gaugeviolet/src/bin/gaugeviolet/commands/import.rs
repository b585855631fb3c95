//! Stop times read back as the minutes of a timetable.

use gaugeviolet::TIMETABLE_BYTES;

use crate::arguments::Arguments;
use crate::command::{Command, Failure};
use crate::given;

pub const COMMAND: Command = Command {
    name: "import",
    arguments: "LINE STOP_TIMES",
    takes: (2, 2),
    options: &[],
    summary: "the minutes of stop times, as a timetable has them",
    help: "\
Reads stop times back for a line, in the form in which `gaugeviolet export` writes them:
the train count and the departures and arrivals of each train, as a timetable begins.
What has another form, or is not the stops of the line's trains in their order, is
refused by the first line that is wrong.

example: gaugeviolet import samples/saturday.line samples/saturday.stop_times
",
    run,
};

fn run(arguments: &Arguments) -> Result<Vec<u8>, Failure> {
    let file = given::bytes(arguments.file(0))?;
    let stop_times = given::bytes(arguments.file(1))?;
    let mut lent = vec![0; TIMETABLE_BYTES];
    let length = gaugeviolet::import(&file.bytes, &stop_times.bytes, &mut lent)
        .map_err(|refusal| Failure::refused(refusal, &file, Some(&stop_times)))?;
    lent.truncate(length);
    Ok(lent)
}
