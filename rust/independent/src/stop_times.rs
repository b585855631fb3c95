//! Stop times for journey planners, the public file `stop_times.txt`: written from a timetable, and read
//! back for a line.

use crate::position::LINE_FEED;
use crate::rules::Minutes;
use crate::text::{Text, SPARE};
use crate::{timetable, Line, Refusal, Train, FILE_BYTES};

/// The first line, without its line feed.
pub const HEADER: &str = "trip_id,arrival_time,departure_time,stop_id,stop_sequence";

/// The bytes of the longest text: the header and its line feed, and for each of 12 trains at each of 12
/// stations 22 bytes and the digits of trip, stop and sequence. Of the numbers 1 to 12 those are 15 digits.
const LONGEST: usize = HEADER.len() + 1 + 12 * 12 * 22 + 3 * 12 * 15;

/// The bytes of the longest train count and train lines: 3, and 110 for each of 12 trains.
const LONGEST_MINUTES: usize = 3 + 12 * 110;

/// The stop times of a timetable for its line file: 1 to 4 and 19 of the file, then 7, 8 and 9 over the
/// whole timetable. Rules, lists and total are not judged.
pub fn export(file: &[u8], timetable: &[u8]) -> Result<Vec<u8>, Refusal> {
    let mut lent = [0; FILE_BYTES];
    let length = export_into(file, timetable, &mut lent)?;
    Ok(lent[..length].to_vec())
}

/// Writes the text of [`export`] to the front of `lent` and returns its length, or 6 where `lent` has fewer
/// bytes than the text. A refusal changes no lent byte.
pub fn export_into(file: &[u8], timetable: &[u8], lent: &mut [u8]) -> Result<usize, Refusal> {
    let line = crate::read(file)?;
    let timetable = timetable::read(&line, timetable)?;
    text(&line, &timetable.minutes).copy_to(lent)
}

/// The minutes that stop times give for a line file: 1 to 4 and 19 of the file, then 20 or 21 with the
/// first bad line of the stop times.
pub fn import(file: &[u8], stop_times: &[u8]) -> Result<Minutes, Refusal> {
    read(&crate::read(file)?, stop_times)
}

/// Writes the minutes of [`import`] to the front of `lent`, as the train count and the train lines of a
/// timetable, and returns the length of that text; or 6 where `lent` has fewer bytes. A refusal changes no
/// lent byte.
pub fn import_into(file: &[u8], stop_times: &[u8], lent: &mut [u8]) -> Result<usize, Refusal> {
    let line = crate::read(file)?;
    let minutes = read(&line, stop_times)?;
    let mut text = Text::<{ LONGEST_MINUTES + SPARE }>::new();
    timetable::put_minutes(&mut text, &line, &minutes);
    text.copy_to(lent)
}

/// The stop times of `line` with these minutes, which are at most 2,879 and need not keep the rules.
pub fn write(line: &Line, minutes: &Minutes) -> Vec<u8> {
    let mut lent = [0; FILE_BYTES];
    let length = text(line, minutes).copy_to(&mut lent);
    lent[..length.expect("4,096 bytes always suffice")].to_vec()
}

/// Reads stop times for a line that was read: 20 or 21 with the first bad line, and on one line 20 first.
pub fn read(line: &Line, text: &[u8]) -> Result<Minutes, Refusal> {
    let mut minutes = Minutes::default();
    let mut lines = Lines { text, place: 1 };
    let header = lines.next()?;
    if header.bytes != HEADER.as_bytes() {
        return Err(not_of_the_form(header.place));
    }
    for (number, train) in line.used_trains().iter().enumerate() {
        for call in 0..=train.legs() {
            read_call(lines.next()?, number, train, call, &mut minutes)?;
        }
    }
    if lines.text.is_empty() {
        Ok(minutes)
    } else {
        Err(not_of_the_form(lines.place))
    }
}

/// Number 20.
const fn not_of_the_form(place: u32) -> Refusal {
    let number = 20;
    Refusal { number, place }
}

/// Number 21.
const fn not_next(place: u32) -> Refusal {
    let number = 21;
    Refusal { number, place }
}

/// A station of a train's path, with the minutes of the train there: the fields of a line, in their order.
struct Stop {
    trip: u16,
    arrival: u16,
    departure: u16,
    station: u16,
    sequence: u16,
}

/// The station, from 1, of a train's call, from 0 at its origin.
fn station(train: &Train, call: usize) -> u16 {
    if train.outbound() {
        train.origin + call as u16
    } else {
        train.origin - call as u16
    }
}

/// The stop of a train, by its number from 0, at one of its calls. At an end it has one minute only, which
/// is written twice.
fn stop(minutes: &Minutes, number: usize, train: &Train, call: usize) -> Stop {
    let arrived = |leg| minutes.arrivals[train.segment(leg)][number];
    let departs = |leg| minutes.departures[train.segment(leg)][number];
    let (arrival, departure) = match call {
        0 => (departs(0), departs(0)),
        _ if call == train.legs() => (arrived(call - 1), arrived(call - 1)),
        _ => (arrived(call - 1), departs(call)),
    };
    Stop {
        trip: number as u16 + 1,
        arrival,
        departure,
        station: station(train, call),
        sequence: call as u16 + 1,
    }
}

/// Reads the line on which this call is due and keeps its minutes.
fn read_call(
    row: Row,
    number: usize,
    train: &Train,
    call: usize,
    minutes: &mut Minutes,
) -> Result<(), Refusal> {
    let read = row.stop().ok_or(not_of_the_form(row.place))?;
    // Whether this is an end is a matter of the path, whatever stop the line names.
    let (origin, destination) = (call == 0, call == train.legs());
    if (origin || destination) && read.arrival != read.departure {
        return Err(not_of_the_form(row.place));
    }
    let next = (number as u16 + 1, station(train, call), call as u16 + 1);
    if (read.trip, read.station, read.sequence) != next {
        return Err(not_next(row.place));
    }
    if !origin {
        minutes.arrivals[train.segment(call - 1)][number] = read.arrival;
    }
    if !destination {
        minutes.departures[train.segment(call)][number] = read.departure;
    }
    Ok(())
}

/// What is yet to read, whole lines at a time, and the number of the line that it begins on.
struct Lines<'a> {
    text: &'a [u8],
    place: u32,
}

/// A line without its line feed, and its number.
#[derive(Clone, Copy)]
struct Row<'a> {
    bytes: &'a [u8],
    place: u32,
}

impl<'a> Lines<'a> {
    /// The next line, or 20 where the text ends before its line feed.
    fn next(&mut self) -> Result<Row<'a>, Refusal> {
        let place = self.place;
        let end = self.text.iter().position(|&byte| byte == LINE_FEED);
        let end = end.ok_or(not_of_the_form(place))?;
        let bytes = &self.text[..end];
        self.text = &self.text[end + 1..];
        self.place += 1;
        Ok(Row { bytes, place })
    }
}

impl Row<'_> {
    /// What the line says, if it is of the form.
    fn stop(self) -> Option<Stop> {
        let mut fields = self.bytes.split(|&byte| byte == b',');
        let stop = Stop {
            trip: number(fields.next()?.strip_prefix(b"T")?)?,
            arrival: minute(fields.next()?)?,
            departure: minute(fields.next()?)?,
            station: number(fields.next()?)?,
            sequence: number(fields.next()?)?,
        };
        fields.next().is_none().then_some(stop)
    }
}

/// A number as in the line file: one to four digits, and no leading zero but that of 0 itself.
fn number(field: &[u8]) -> Option<u16> {
    match field {
        [b'0'] => Some(0),
        [b'1'..=b'9', others @ ..] if others.len() < 4 && others.iter().all(u8::is_ascii_digit) => {
            Some(worth(field))
        }
        _ => None,
    }
}

/// A minute as HH:MM:00, at most 47:59:00.
fn minute(field: &[u8]) -> Option<u16> {
    let &[a, b, b':', c, d, b':', b'0', b'0'] = field else {
        return None;
    };
    if ![a, b, c, d].iter().all(u8::is_ascii_digit) {
        return None;
    }
    let (hours, minutes) = (worth(&[a, b]), worth(&[c, d]));
    (hours <= 47 && minutes <= 59).then_some(60 * hours + minutes)
}

/// What these decimal digits are worth.
fn worth(digits: &[u8]) -> u16 {
    let digit = |worth, &byte| 10 * worth + u16::from(byte - b'0');
    digits.iter().fold(0, digit)
}

fn text(line: &Line, minutes: &Minutes) -> Text<{ LONGEST + SPARE }> {
    let mut text = Text::new();
    text.bytes(HEADER.as_bytes());
    text.byte(LINE_FEED);
    for (number, train) in line.used_trains().iter().enumerate() {
        for call in 0..=train.legs() {
            text.stop(stop(minutes, number, train, call));
        }
    }
    text
}

impl Text<{ LONGEST + SPARE }> {
    fn stop(&mut self, stop: Stop) {
        self.byte(b'T');
        self.number(stop.trip, b',');
        self.time(stop.arrival);
        self.time(stop.departure);
        self.number(stop.station, b',');
        self.number(stop.sequence, LINE_FEED);
    }

    /// Hours and minutes of two digits each, the seconds 00, and a comma.
    fn time(&mut self, minute: u16) {
        for number in [minute / 60, minute % 60] {
            self.bytes(&[number / 10, number % 10].map(|digit| b'0' + digit as u8));
            self.byte(b':');
        }
        self.bytes(b"00,");
    }
}
