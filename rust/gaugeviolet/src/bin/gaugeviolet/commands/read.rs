//! The line in words.

use gaugeviolet::{counted, punctuality, time_of_day, Kind, Leg, Line, Segment, Train};

use crate::arguments::Arguments;
use crate::command::{Command, Failure};
use crate::given;

pub const COMMAND: Command = Command {
    name: "read",
    arguments: "LINE",
    takes: (1, 1),
    options: &[],
    summary: "the line in words, or what is wrong with its file",
    help: "\
Reads a line file and says in words what it describes: the stations with their
tracks, the segments with their gaps, and the trains with their times of day, their
bookings and their due minutes. So what was typed can be read over. A file with a
mistake is refused; standard error then quotes the line, marks the fault and says
what is allowed there.

example: gaugeviolet read samples/saturday.line
",
    run,
};

fn run(arguments: &Arguments) -> Result<Vec<u8>, Failure> {
    let line = given::line(&given::bytes(arguments.file(0))?)?;
    Ok(in_words(&line).into())
}

fn in_words(line: &Line) -> String {
    let mut words = counts(line);
    let station = |(number, &tracks): (u32, &u32)| {
        format!("station {number}: {}\n", counted(tracks, "track"))
    };
    words.extend((1..).zip(line.tracks()).map(station));
    words.push('\n');
    let segments = (1..).zip(line.segments());
    words.extend(segments.map(|(number, segment)| segment_in_words(number, segment)));
    let numbers = 1..=line.trains().len() as u32;
    words.extend(numbers.map(|number| train_in_words(line, number)));
    words
}

/// How much there is of everything; of bookings and due minutes only where there are any.
fn counts(line: &Line) -> String {
    let mut counts = vec![
        counted(line.tracks().len() as u32, "station"),
        counted(line.segments().len() as u32, "segment"),
        counted(line.trains().len() as u32, "train"),
    ];
    let optional = [
        (line.bookings().len() as u32, "booking"),
        (line.dues().len() as u32, "due minute"),
    ];
    let there = optional.into_iter().filter(|&(count, _)| count > 0);
    counts.extend(there.map(|(count, word)| counted(count, word)));
    counts.join(", ") + "\n\n"
}

fn segment_in_words(number: u32, segment: &Segment) -> String {
    let (letter, gap) = (segment.kind.letter(), segment.following);
    let track = match segment.kind {
        Kind::S => "single track, one train at a time",
        Kind::F => "single track, trains of one direction follow each other",
        Kind::D => "double track",
    };
    let opposing = match segment.kind {
        Kind::D => String::new(),
        _ => format!(", opposing gap {}", segment.opposing),
    };
    format!(
        "segment {number}, stations {number} to {}: {letter}, {track}; following gap {gap}{opposing}\n",
        number + 1
    )
}

fn train_in_words(line: &Line, number: u32) -> String {
    let (train, free) = (line.train(number), line.free_arrival(number));
    let spare = match train.latest.checked_sub(free) {
        Some(spare) => format!("{} to spare", counted(spare, "minute")),
        None => "which is too late".to_string(),
    };
    format!(
        "\ntrain {number}, {}, station {} to station {}, weight {}\n  \
         departs {} or later, arrives {} or earlier\n{}{}  \
         alone on the line it takes {}, {spare}:\n{}",
        train.direction(),
        train.origin,
        train.destination,
        train.weight,
        minute(train.earliest),
        minute(train.latest),
        bookings_in_words(line, number),
        due_in_words(line, number),
        counted(free - train.earliest, "minute"),
        free_journey(train, &line.free_legs(number))
    )
}

/// The bookings of a train in travel order, a row for each.
fn bookings_in_words(line: &Line, number: u32) -> String {
    let train = line.train(number);
    let stations = (1..train.legs()).map(|leg| train.station(leg));
    let row = |station| {
        let booked = minute(line.booked(number, station)?);
        Some(format!(
            "  is booked to leave station {station} at {booked} or later\n"
        ))
    };
    stations.filter_map(row).collect()
}

/// The due minute of a train that is listed, and how it would keep it alone; nothing of another.
fn due_in_words(line: &Line, number: u32) -> String {
    let Some(due) = line.listed_due(number) else {
        return String::new();
    };
    let free = line.free_arrival(number);
    format!(
        "  is due at {}; alone it arrives {}, {}\n",
        minute(due),
        time_of_day(free),
        punctuality(free, due)
    )
}

/// A time of day with its minute, as the file has it.
fn minute(minute: u32) -> String {
    format!("{} (minute {minute})", time_of_day(minute))
}

/// The journey of a train that is alone on the line, a row for each of its legs.
fn free_journey(train: &Train, legs: &[Leg]) -> String {
    let mut rows = String::new();
    for (leg, &Leg { departure, arrival }) in legs.iter().enumerate() {
        rows += &format!(
            "    {} from station {}, {} over segment {}, {} at station {}",
            time_of_day(departure),
            train.station(leg),
            train.run(leg),
            train.segment(leg),
            time_of_day(arrival),
            train.station(leg + 1)
        );
        if leg + 1 < train.legs() {
            rows += &format!(", stop {}", train.stop(leg + 1));
        }
        rows.push('\n');
    }
    rows
}
