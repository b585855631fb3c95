//! What the text before a fault asks for on its line: how many fields, and what stands there by the counts
//! before it. A fault may come from there.

use super::field::Field;
use super::line_file::Known;
use super::walker::{Fault, Wrong};
use crate::timetable::list_places;
use crate::{counted, Line};

/// How many fields the fault's line has. Nothing where that is not clear: a comma may stand between two
/// numbers or in one, and so may a byte that cannot be printed.
fn fields_on_line(text: &[u8], fault: &Fault) -> Option<usize> {
    let row = text.split(|&byte| byte == b'\n').nth(fault.line - 1)?;
    let row = row.strip_suffix(b"\r").unwrap_or(row);
    let clear = |byte: &u8| (b' '..=b'~').contains(byte) && !b",;".contains(byte);
    let fields = row.split(|&byte| byte == b' ');
    let fields = fields.filter(|field| !field.is_empty());
    row.iter().all(clear).then(|| fields.count())
}

/// What is needed on the fault's line of a line file.
pub(super) fn in_file(file: &[u8], fault: &Fault, known: &Known) -> Option<String> {
    match fault.field {
        Field::Earliest { train }
        | Field::Latest { train }
        | Field::Weight { train }
        | Field::Run { train, .. }
        | Field::Stop { train, .. } => runs_and_stops(file, fault, train, *known.paths.last()?),
        _ if fault.wrong == Wrong::OutOfPlace => {
            let number = std::str::from_utf8(&file[fault.from..fault.to]).ok()?;
            out_of_place(fault, known, number.parse().ok()?)
        }
        Field::BookingCount | Field::BookedTrain { .. } | Field::BookedStation { .. } => {
            by_bookings(file, fault, known)
        }
        Field::DueCount | Field::DueTrain { .. } | Field::DueMinute { .. } | Field::End => {
            by_dues(file, fault, known)
        }
        _ => by_counts(file, fault, known),
    }
}

/// How many runs and stops the path of a train needs, where its line has more or fewer.
fn runs_and_stops(file: &[u8], fault: &Fault, train: u32, path: (u32, u32)) -> Option<String> {
    let (origin, destination) = path;
    let legs = origin.abs_diff(destination);
    // Origin, destination, earliest, latest and weight stand before them.
    let (needed, has) = (2 * legs as usize + 4, fields_on_line(file, fault)?);
    (needed != has).then(|| {
        format!(
            "from station {origin} to station {destination} train {train} goes over {}, so it needs {} \
             and {} after its weight (run stop run .. run), {needed} fields in all; the line has {has}",
            counted(legs, "segment"),
            counted(legs, "run"),
            counted(legs - 1, "stop"),
        )
    })
}

/// What the counts before the fault say of its line.
fn by_counts(file: &[u8], fault: &Fault, known: &Known) -> Option<String> {
    let stations = known.stations?;
    let (segment_count, train_count) = (stations + 2, 2 * stations + 2);
    let by_stations = |line: u32, what: &str| {
        format!("line 1 says {stations} stations, so line {line} is {what}")
    };
    match fault.field {
        Field::SegmentCount => Some(by_stations(segment_count, "the number of segments")),
        Field::TrainCount => Some(by_stations(train_count, "the number of trains")),
        Field::SegmentKind { segment } if fault.wrong == Wrong::Form => {
            let line = segment_count + segment;
            Some(by_stations(line, &format!("segment {segment}")))
        }
        Field::Origin { train } if fault.from == file.len() => Some(format!(
            "line {train_count} says {}, and there are only {}",
            counted(known.trains?, "train"),
            train - 1
        )),
        _ => None,
    }
}

/// The line of the number of trains, and what it says.
fn says_trains(known: &Known) -> Option<(u32, String)> {
    let line = 2 * known.stations? + 2;
    Some((line, says(line, known.trains?, "train")))
}

/// The line of the number of bookings, and what it says.
fn says_bookings(known: &Known) -> Option<(u32, String)> {
    let line = says_trains(known)?.0 + known.trains? + 1;
    Some((line, says(line, known.bookings?, "booking")))
}

/// The same of the due minutes.
fn says_dues(known: &Known) -> Option<(u32, String)> {
    let line = says_bookings(known)?.0 + known.bookings? + 1;
    Some((line, says(line, known.dues?, "due minute")))
}

fn says(line: u32, count: u32, word: &str) -> String {
    format!("line {line} says {}", counted(count, word))
}

/// What the counts before a fault in the section of bookings say of its line.
fn by_bookings(file: &[u8], fault: &Fault, known: &Known) -> Option<String> {
    let (_, trains) = says_trains(known)?;
    match fault.field {
        Field::BookingCount if &file[fault.from..fault.to] == b"0" => Some(
            "without bookings and due minutes their sections are left off; take the line away"
                .into(),
        ),
        Field::BookingCount => Some(format!(
            "{trains}, so the file ends after line {} or goes on with the number of bookings",
            fault.line - 1
        )),
        Field::BookedTrain { booking } if fault.from == file.len() => Some(format!(
            "{}, and there are only {}",
            says_bookings(known)?.1,
            booking - 1
        )),
        Field::BookedTrain { .. } if fault.wrong == Wrong::Range => Some(trains),
        Field::BookedStation { booking: 1 } if fields_on_line(file, fault) == Some(2) => {
            Some(format!(
                "a booking is train, station and minute; if this is a due minute, the line `0` for no \
                 bookings is missing before line {}",
                fault.line - 1
            ))
        }
        _ => None,
    }
}

/// What the counts before a fault in the section of due minutes, or after it, say of its line.
fn by_dues(file: &[u8], fault: &Fault, known: &Known) -> Option<String> {
    let none = &file[fault.from..fault.to] == b"0";
    match fault.field {
        Field::DueCount if none || fault.wrong != Wrong::Range => due_count(fault, known),
        Field::DueCount | Field::DueTrain { .. } if fault.wrong == Wrong::Range => {
            Some(says_trains(known)?.1)
        }
        Field::DueTrain { due } if fault.from == file.len() => Some(format!(
            "{}, and there are only {}",
            says_dues(known)?.1,
            due - 1
        )),
        Field::DueMinute { .. } if fields_on_line(file, fault).is_some_and(|has| has > 2) => Some(
            "here a line is a train and its due minute; bookings are the section before".into(),
        ),
        Field::End => Some(format!(
            "{}, so the file ends after line {}",
            says_dues(known)?.1,
            fault.line - 1
        )),
        _ => None,
    }
}

/// What the number of bookings says of the line that is to be the number of due minutes. That is 0, or
/// something else than a number.
fn due_count(fault: &Fault, known: &Known) -> Option<String> {
    let (line, bookings) = says_bookings(known)?;
    Some(match (fault.wrong, known.bookings?) {
        (Wrong::Range, 0) => format!(
            "without bookings and due minutes their sections are left off; take line {line} away too"
        ),
        (Wrong::Range, _) => {
            "without due minutes their section is left off; take the line away".into()
        }
        (_, 0) => format!(
            "{bookings}, so line {} is the number of due minutes; without any, take line {line} away",
            fault.line
        ),
        _ => format!(
            "{bookings}, so the file ends after line {} or goes on with the number of due minutes",
            fault.line - 1
        ),
    })
}

/// Why a number may not stand where it does, although it is in its range.
fn out_of_place(fault: &Fault, known: &Known, number: u32) -> Option<String> {
    match fault.field {
        Field::BookedStation { .. } => booking_place(known, known.booked_train?, number),
        Field::DueTrain { .. } if known.due_train == Some(number) => Some(format!(
            "train {number} has two due minutes; take one of them away"
        )),
        Field::DueTrain { .. } => Some("due minutes stand in rising order of train".into()),
        _ => None,
    }
}

/// Why a train cannot be booked at a station, or not behind the booking before.
fn booking_place(known: &Known, train: u32, station: u32) -> Option<String> {
    let &(origin, destination) = known.paths.get(train as usize - 1)?;
    let (low, high) = (origin.min(destination), origin.max(destination));
    Some(if station == origin {
        format!(
            "station {station} is the origin of train {train}; its earliest minute says when it may \
             leave there"
        )
    } else if station == destination {
        format!("station {station} is the destination of train {train}, which does not leave it")
    } else if !(low..=high).contains(&station) {
        format!(
            "train {train} goes from station {origin} to station {destination} and does not come to \
             station {station}"
        )
    } else if known.booked_before == Some((train, station)) {
        format!("train {train} is booked twice at station {station}; take one of them away")
    } else {
        "bookings stand in rising order of train, and of station for one train".into()
    })
}

/// What is needed on the fault's line of a timetable.
pub(super) fn in_timetable(line: &Line, text: &[u8], fault: &Fault) -> Option<String> {
    let trains = line.trains().len() as u32;
    match fault.field {
        Field::TrainCount => Some(format!("the line file has {}", counted(trains, "train"))),
        Field::Departure { train, .. } | Field::Arrival { train, .. } => {
            times(line, text, fault, train)
        }
        Field::ListCount => Some("there is a list for each segment, on D two".into()),
        Field::ListLength { list } | Field::Listed { list, .. } => of_list(line, fault, list),
        _ => None,
    }
}

/// How many times a train's line of the timetable needs, where it has more or fewer.
fn times(line: &Line, text: &[u8], fault: &Fault, train: u32) -> Option<String> {
    let legs = line.train(train).legs();
    let has = fields_on_line(text, fault)?;
    (has != 2 * legs).then(|| {
        format!(
            "train {train} goes over {}: it needs a departure and an arrival for each, {} numbers; \
             the line has {has}",
            counted(legs as u32, "segment"),
            2 * legs
        )
    })
}

/// Which list a line is for, and what stands in it.
fn of_list(line: &Line, fault: &Fault, list: u32) -> Option<String> {
    let (segment, lane) = list_places(line).nth(list as usize - 1)?;
    let lane = lane.after_segment();
    Some(format!(
        "line {} is the list of segment {segment}{lane}: how many trains it has, then their numbers",
        fault.line
    ))
}

/// What is needed on the fault's line of stop times.
pub(super) fn in_stop_times(line: &Line, text: &[u8], fault: &Fault) -> Option<String> {
    match fault.field {
        Field::TripId { train, station }
        | Field::ArrivalTime { train, station }
        | Field::DepartureTime { train, station }
        | Field::StopId { train, station }
        | Field::StopSequence { train, station } => {
            let told = fault.wrong == Wrong::NotNext || fault.from == text.len();
            told.then(|| stop_due(line, fault, train, station))
        }
        Field::End => Some(format!(
            "the line file has {}, so the text ends after line {}",
            counted(line.trains().len() as u32, "train"),
            fault.line - 1
        )),
        _ => None,
    }
}

/// The line that is due, by the path of its train.
fn stop_due(line: &Line, fault: &Fault, number: u32, station: u32) -> String {
    let train = line.train(number);
    let (origin, destination) = (train.origin, train.destination);
    let sequence = origin.abs_diff(station) + 1;
    format!(
        "train {number} goes from station {origin} to station {destination}, so line {} is \
         T{number},HH:MM:00,HH:MM:00,{station},{sequence}",
        fault.line
    )
}
