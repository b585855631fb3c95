//! The first fault of stop times: on each line its form and the minute that is repeated at an end, then
//! whether trip, stop and sequence are the next ones on the line's paths.

use super::field::Field;
use super::walker::{numeral, After, Fault, Read, Walker, Wrong};
use crate::{Line, Train};

/// The names of the columns.
pub(super) const COLUMNS: [&str; 5] = [
    "trip_id",
    "arrival_time",
    "departure_time",
    "stop_id",
    "stop_sequence",
];

/// The last minute of the second day.
const LAST: u32 = 2879;

/// Goes through the whole text, which is to be stop times of the line.
pub(super) fn walk(line: &Line, text: &[u8]) -> Result<(), Fault> {
    let mut walker = Walker::with_commas(text);
    header(&mut walker)?;
    for (number, train) in (1..).zip(line.trains()) {
        for at in 0..=train.legs() {
            Stop::of(number, train, at).line(&mut walker)?;
        }
    }
    walker.end()
}

fn header(walker: &mut Walker) -> Result<(), Fault> {
    for (column, name) in (1..).zip(COLUMNS) {
        let field = Field::ColumnName { column };
        let named = |token: &[u8]| (token == name.as_bytes()).then_some(column);
        walker.form(field, named, &format!("`{name}`"))?;
        let last = column as usize == COLUMNS.len();
        walker.after(field, if last { After::LineFeed } else { After::Comma })?;
    }
    Ok(())
}

/// A minute as a time of stop times.
pub(super) fn time(minute: u32) -> String {
    format!("{:02}:{:02}:00", minute / 60, minute % 60)
}

/// The minute of a time. One past the second day has the form too.
fn minute(token: &[u8]) -> Option<u32> {
    let &[h, hh, b':', m, mm, b':', b'0', b'0'] = token else {
        return None;
    };
    let two = |tens: u8, ones: u8| {
        let digits = tens.is_ascii_digit() && ones.is_ascii_digit();
        digits.then(|| 10 * u32::from(tens - b'0') + u32::from(ones - b'0'))
    };
    let minutes = two(m, mm).filter(|&minutes| minutes < 60)?;
    Some(60 * two(h, hh)? + minutes)
}

/// The number of a trip.
fn trip(token: &[u8]) -> Option<u32> {
    numeral(token.strip_prefix(b"T")?, 4)
}

/// The stop that is due on a line.
struct Stop {
    train: u32,
    station: u32,
    sequence: u32,
    begins: bool,
    ends: bool,
}

impl Stop {
    /// The stop of a train after so many legs.
    fn of(number: u32, train: &Train, legs: usize) -> Stop {
        Stop {
            train: number,
            station: train.station(legs),
            sequence: legs as u32 + 1,
            begins: legs == 0,
            ends: legs == train.legs(),
        }
    }

    fn line(&self, walker: &mut Walker) -> Result<(), Fault> {
        let &Stop { train, station, .. } = self;
        let field = Field::TripId { train, station };
        let read = walker.form(field, trip, "T and the number of the train")?;
        walker.after(field, After::Comma)?;
        let arrival = time_field(walker, Field::ArrivalTime { train, station })?;
        let departure = time_field(walker, Field::DepartureTime { train, station })?;
        let field = Field::StopId { train, station };
        let stop = walker.number(field, 4, "the number of the station")?;
        walker.after(field, After::Comma)?;
        let field = Field::StopSequence { train, station };
        let sequence = walker.number(field, 4, "which stop of the trip it is, from 1")?;
        walker.after(field, After::LineFeed)?;
        self.repeated(walker, arrival, departure)?;
        self.next(walker, read, stop, sequence)
    }

    /// Whether there is one minute where the train begins or ends.
    fn repeated(&self, walker: &Walker, arrival: Read, departure: Read) -> Result<(), Fault> {
        let &Stop { train, station, .. } = self;
        if !(self.begins || self.ends) || arrival.value == departure.value {
            return Ok(());
        }
        let (field, read, other) = match self.begins {
            true => (Field::ArrivalTime { train, station }, arrival, departure),
            false => (Field::DepartureTime { train, station }, departure, arrival),
        };
        let allowed = match self.begins {
            true => format!("{}, as its departure_time", time(other.value)),
            false => format!("{}, as its arrival_time", time(other.value)),
        };
        Err(walker.read_fault(Wrong::NotRepeated, field, read, allowed))
    }

    /// Whether it is the stop that was written.
    fn next(&self, walker: &Walker, trip: Read, stop: Read, sequence: Read) -> Result<(), Fault> {
        let &Stop { train, station, .. } = self;
        let fields = [
            (Field::TripId { train, station }, trip, train, "T"),
            (Field::StopId { train, station }, stop, station, ""),
            (
                Field::StopSequence { train, station },
                sequence,
                self.sequence,
                "",
            ),
        ];
        let wrong = fields.iter().find(|(_, read, due, _)| read.value != *due);
        wrong.map_or(Ok(()), |&(field, read, due, letter)| {
            Err(walker.read_fault(Wrong::NotNext, field, read, format!("{letter}{due}")))
        })
    }
}

/// A time with the comma after it.
fn time_field(walker: &mut Walker, field: Field) -> Result<Read, Fault> {
    let allowed = format!("a time HH:MM:00 from {} to {}", time(0), time(LAST));
    let read = walker.form(field, minute, &allowed)?;
    walker.after(field, After::Comma)?;
    match read.value <= LAST {
        true => Ok(read),
        false => Err(walker.read_fault(Wrong::Range, field, read, allowed)),
    }
}
