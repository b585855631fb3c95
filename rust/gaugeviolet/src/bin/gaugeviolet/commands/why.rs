//! Why a timetable costs what it does, or why there is none.

use std::cmp::Ordering;
use std::ffi::OsStr;
use std::time::Duration;

use gaugeviolet::{counted, punctuality, time_of_day, Timetable, Wait};

use crate::arguments::Arguments;
use crate::command::{Command, Failure};
use crate::{given, planning};

mod impossible;

use impossible::Impossible;

/// How many seconds are spent on trains without a timetable, unless `--within` says otherwise.
const SECONDS: u64 = 60;
/// A day is more than anybody waits, and no duration overflows with it.
const MOST_SECONDS: u64 = 86_400;

pub const COMMAND: Command = Command {
    name: "why",
    arguments: "LINE [TIMETABLE]",
    takes: (1, 2),
    options: &[("--within", "SECONDS")],
    summary: "where trains wait for which; or why there is no timetable",
    help: "\
Of a timetable: the delay of each train, and where it waits how long for which
train or for its booked minute. At its own origin a train waits in the yard, where it
takes no track. Standing for a booking is no delay in itself. A train with a due
minute is late from that minute on; the others are from when they would be there
alone on the line. To be early costs nothing and gains nothing.

Of a line without a timetable: first the trains that cannot be in time even alone;
then trains of the others that have no timetable together, and such that without
any one of them there is one. Looking for the best timetable has no limit of time;
where there is none, looking for these trains takes at most 60 seconds more, or as
many as `--within` says. If that was too short the answer says so.

example: gaugeviolet why samples/saturday.line
",
    run,
};

fn run(arguments: &Arguments) -> Result<Vec<u8>, Failure> {
    let within = seconds(arguments.option("--within"))?;
    if arguments.optional_file(1).is_some() {
        return Ok(delays(&given::timetable(arguments)?).into());
    }
    let line = given::line(&given::bytes(arguments.file(0))?)?;
    let alone = impossible::alone(&line);
    if !alone.is_empty() {
        return Ok(Impossible::find(&line, alone, within).in_words().into());
    }
    // The line is accepted, so it is refused only where it has no timetable.
    let words = match planning::best(line.file()) {
        Ok(best) => delays(&given::checked(&line, &best)),
        Err(_) => Impossible::find(&line, alone, within).in_words(),
    };
    Ok(words.into())
}

fn seconds(value: Option<&OsStr>) -> Result<Duration, Failure> {
    let Some(value) = value else {
        return Ok(Duration::from_secs(SECONDS));
    };
    let seconds = value.to_str().and_then(|value| value.parse().ok());
    let wrong = || {
        let value = value.display();
        let why =
            format!("--within takes a number of seconds from 0 to {MOST_SECONDS}, not {value}");
        Failure::usage(&why, &COMMAND.usage())
    };
    seconds
        .filter(|&seconds: &u64| seconds <= MOST_SECONDS)
        .map(Duration::from_secs)
        .ok_or_else(wrong)
}

/// The delay of each train, with its waits.
fn delays(timetable: &Timetable) -> String {
    let waits = timetable.waits();
    let mut words = format!("total weighted delay {}\n", timetable.total());
    for number in timetable.numbers() {
        let own = waits.iter().filter(|wait| wait.train == number);
        let own: Vec<&Wait> = own.collect();
        let arrival = time_of_day(timetable.last_arrival(number));
        let late = lateness(timetable, number);
        words += &format!("\ntrain {number} arrives {arrival}, {late}\n");
        words += &alone(timetable, number, !own.is_empty());
        words.extend(own.iter().map(|wait| format!("  {}\n", wait.sentence())));
    }
    words
}

/// How late a train is and what that costs; of a train that is listed with a due minute, from that.
fn lateness(timetable: &Timetable, number: u32) -> String {
    let (line, delay) = (timetable.line(), timetable.delay(number));
    let weight = line.train(number).weight;
    let due = line.listed_due(number).map(|due| {
        let kept = punctuality(timetable.last_arrival(number), due);
        format!("due {}, {kept}", time_of_day(due))
    });
    let cost = format!("weight {weight}: {}", delay * weight);
    match (due, delay) {
        (None, 0) => "no delay".to_string(),
        (None, _) => format!("delay {}, {cost}", counted(delay, "minute")),
        (Some(due), 0) => format!("{due}, no delay"),
        (Some(due), _) => format!("{due}, {cost}"),
    }
}

/// A row on how a train would keep its due minute alone on the line: where it would be late even then, and
/// where it would be early and so may wait.
fn alone(timetable: &Timetable, number: u32, waits: bool) -> String {
    let line = timetable.line();
    let (free, due) = (line.free_arrival(number), line.due(number));
    let free_of_cost = match free.cmp(&due) {
        Ordering::Greater => "",
        Ordering::Less if waits => ", so it may wait that long at no cost",
        _ => return String::new(),
    };
    format!(
        "  alone it arrives {}, {}{free_of_cost}\n",
        time_of_day(free),
        punctuality(free, due)
    )
}
