//! A timetable as stop times for journey planners.

use gaugeviolet::STOP_TIMES_BYTES;

use crate::arguments::Arguments;
use crate::command::{Command, Failure};
use crate::given;

pub const COMMAND: Command = Command {
    name: "export",
    arguments: "LINE TIMETABLE",
    takes: (2, 2),
    options: &[],
    summary: "the timetable as stop times for journey planners",
    help: "\
Writes a timetable as `stop_times.txt` of GTFS, which journey planners take: under the
header a line for each train and station of its path. Train 1 is trip T1, a station is
a stop by its number, and hours run past 23 on the second day. Rules, order lists and
total are not tested; `gaugeviolet check` does that.

example: gaugeviolet export samples/saturday.line samples/saturday.timetable > stop_times.txt
",
    run,
};

fn run(arguments: &Arguments) -> Result<Vec<u8>, Failure> {
    let file = given::bytes(arguments.file(0))?;
    let timetable = given::bytes(arguments.file(1))?;
    let mut lent = vec![0; STOP_TIMES_BYTES];
    let length = gaugeviolet::export(&file.bytes, &timetable.bytes, &mut lent)
        .map_err(|refusal| Failure::refused(refusal, &file, Some(&timetable)))?;
    lent.truncate(length);
    Ok(lent)
}
