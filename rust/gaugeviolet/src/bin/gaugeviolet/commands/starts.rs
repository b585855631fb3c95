//! What a day costs for each minute from which a train may set out.

use gaugeviolet::{time_of_day, Cause, Line, Refusal};

use crate::arguments::Arguments;
use crate::command::{Command, Failure, Named};
use crate::{given, planning};

mod question;

use question::Question;

pub const COMMAND: Command = Command {
    name: "starts",
    arguments: "LINE TRAIN MINUTE..",
    // How many minutes there may be is the library's to say.
    takes: (2, usize::MAX),
    options: &[],
    summary: "the total for each minute from which a train may set out",
    help: "\
A club is offered some minutes from which its train may set out, and wants to know what
each costs. For each the day is planned as if it were the earliest minute of the train,
all else in the file being the same: a row has the minute, its time of day, and the total
weighted delay of the best timetable, or `no timetable` where none keeps every rule. The
least totals are marked.

A train without a due minute is late from when it would be there alone on the line,
setting out at that minute; one with a due minute is late from that, whatever the minute.

There are 1 to 24 minutes, counted from midnight, 0 to 2879, each greater than the one
before. Anything else, and a train that the line has not, is refused by 22. There is no
limit of time; on a terminal the time gone is shown.

example: gaugeviolet starts samples/saturday.line 6 570 585 600 615 630
",
    run,
};

fn run(arguments: &Arguments) -> Result<Vec<u8>, Failure> {
    let question =
        Question::read(arguments.after(1)).map_err(|why| Failure::usage(&why, &COMMAND.usage()))?;
    let file = given::bytes(arguments.file(0))?;
    let minutes = question.minutes();
    match planning::totals(&file.bytes, question.train(), &minutes) {
        Ok(totals) => Ok(table(&minutes, &totals).into()),
        Err(refusal) => Err(refused(refusal, &file, &question)),
    }
}

/// The refusal of the file, or of what was asked: then with what is wrong there.
fn refused(refusal: Refusal, file: &Named, question: &Question) -> Failure {
    if refusal.cause() != Some(Cause::Starts) {
        return Failure::refused(refusal, file, None);
    }
    let trains = Line::read(&file.bytes).map_or(0, |line| line.trains().len());
    let fault = question.fault(trains as u32);
    let words = format!("gaugeviolet: {}: {refusal}\n{fault}", COMMAND.name);
    Failure::Refused { refusal, words }
}

/// A row for each minute. The columns are as wide as their widest entry.
fn table(minutes: &[u16], totals: &[Option<u32>]) -> String {
    let least = totals.iter().flatten().min();
    let times: Vec<String> = minutes.iter().map(|&it| time_of_day(it.into())).collect();
    let minute_width = widest(minutes.iter().map(u16::to_string));
    let time_width = widest(times.iter());
    let total_width = widest(totals.iter().flatten().map(u32::to_string));
    let mut rows = String::new();
    for ((minute, time), total) in minutes.iter().zip(&times).zip(totals) {
        let cost = match total {
            None => "no timetable".to_string(),
            Some(total) => {
                let mark = if Some(total) == least { "  least" } else { "" };
                format!("total {total:>total_width$}{mark}")
            }
        };
        rows += &format!("{minute:>minute_width$}  {time:<time_width$}  {cost}\n");
    }
    rows
}

fn widest(entries: impl Iterator<Item = impl AsRef<str>>) -> usize {
    entries.map(|entry| entry.as_ref().len()).max().unwrap_or(0)
}
