//! Writing a line: its fields in the reader's order, each held to its range.

use crate::text::{Text, SPARE};
use crate::{Booking, Due, Limits, Line, Refusal, Segment, Train, FILE_BYTES, SEGMENTS};

/// The bytes of the longest line within the limits: 39 for the stations, 91 for the segments, 3 for
/// the train count, 102 for each of 12 trains, 4 for the booking count, and 92 for the bookings of each
/// train with one digit, 102 for those of each with two; 3 for the due count, 7 for the due of each train
/// with one digit, 8 for that of each with two.
const LONGEST: usize = 39 + 91 + 3 + 12 * 102 + 4 + 9 * 92 + 3 * 102 + 3 + 9 * 7 + 3 * 8;

/// The text of `line`, or 3, 4 or 19 with the line that the first bad field would have.
pub fn write(line: &Line) -> Result<Vec<u8>, Refusal> {
    let mut lent = [0; FILE_BYTES];
    let length = write_into(line, &mut lent)?;
    Ok(lent[..length].to_vec())
}

/// Writes `line` to the front of `lent` and returns the text's length; 3, 4 or 19 as in [`write()`], then
/// 6 where `lent` has fewer bytes than the text. A refusal changes no lent byte.
pub fn write_into(line: &Line, lent: &mut [u8]) -> Result<usize, Refusal> {
    check(line)?;
    let mut text = Text::<{ LONGEST + SPARE }>::new();
    text.line(line);
    text.copy_to(lent)
}

/// Reads `file` and writes its line to the front of `lent`.
pub fn rewrite(file: &[u8], lent: &mut [u8]) -> Result<usize, Refusal> {
    write_into(&crate::read(file)?, lent)
}

/// The first field of `line` that is outside its range, or a destination that equals its origin, or a
/// booking that does not suit, or a due out of order.
fn check(line: &Line) -> Result<(), Refusal> {
    field(line.station_count, Limits::STATION_COUNT, 1)?;
    let stations = usize::from(line.station_count);
    let mut place = 1;
    for &tracks in &line.tracks[..stations] {
        place += 1;
        field(tracks, Limits::TRACKS, place)?;
    }
    place += 1;
    for segment in &line.segments[..stations - 1] {
        place += 1;
        field(segment.following, Limits::GAP, place)?;
        field(segment.opposing, Limits::GAP, place)?;
    }
    place += 1;
    field(line.train_count, Limits::TRAIN_COUNT, place)?;
    for train in &line.trains[..usize::from(line.train_count)] {
        place += 1;
        check_train(train, Limits::new(1, line.station_count), place)?;
    }
    check_bookings(line, place + 1)?;
    check_dues(line, place + 2 + u32::from(line.booking_count))
}

fn check_train(train: &Train, stations: Limits, place: u32) -> Result<(), Refusal> {
    field(train.origin, stations, place)?;
    field(train.destination, stations, place)?;
    if train.destination == train.origin {
        return Err(Refusal::same_station(place));
    }
    field(train.earliest, Limits::MINUTE, place)?;
    field(train.latest, Limits::MINUTE, place)?;
    field(train.weight, Limits::WEIGHT, place)?;
    // The number of the fault is the same for a run and a stop, so their order does not show.
    let last = train.legs() - 1;
    let runs_hold = train.runs[..=last].iter().all(|&run| Limits::RUN.hold(run));
    let stops_hold = train.stops[..last]
        .iter()
        .all(|&stop| Limits::STOP.hold(stop));
    if runs_hold && stops_hold {
        Ok(())
    } else {
        Err(Refusal::range(place))
    }
}

/// The bookings, whose count would stand on the line `place`.
fn check_bookings(line: &Line, place: u32) -> Result<(), Refusal> {
    field(line.booking_count, Limits::BOOKING_COUNT, place)?;
    let mut before = None;
    for (booking, place) in line.used_bookings().iter().zip(place + 1..) {
        field(booking.train, Limits::new(1, line.train_count), place)?;
        field(booking.station, Limits::new(1, line.station_count), place)?;
        if !booking.suits(&line.trains, before) {
            return Err(Refusal::misplaced(place));
        }
        field(booking.minute, Limits::MINUTE, place)?;
        before = Some(booking);
    }
    Ok(())
}

/// The dues, whose count would stand on the line `place`.
fn check_dues(line: &Line, place: u32) -> Result<(), Refusal> {
    field(line.due_count, Limits::new(0, line.train_count), place)?;
    let mut before = None;
    for (due, place) in line.used_dues().iter().zip(place + 1..) {
        field(due.train, Limits::new(1, line.train_count), place)?;
        if !Due::may_follow(due.train, before) {
            return Err(Refusal::misplaced(place));
        }
        field(due.minute, Limits::MINUTE, place)?;
        before = Some(due);
    }
    Ok(())
}

#[inline]
fn field(number: u16, limits: Limits, place: u32) -> Result<(), Refusal> {
    if limits.hold(number) {
        Ok(())
    } else {
        Err(Refusal::range(place))
    }
}

impl Text<{ LONGEST + SPARE }> {
    fn line(&mut self, line: &Line) {
        let stations = usize::from(line.station_count);
        self.number(line.station_count, b'\n');
        for &tracks in &line.tracks[..stations] {
            self.number(tracks, b'\n');
        }
        self.number(line.station_count - 1, b'\n');
        for segment in &line.segments[..stations - 1] {
            self.segment(segment);
        }
        self.number(line.train_count, b'\n');
        for train in &line.trains[..usize::from(line.train_count)] {
            self.train(train);
        }
        self.optional_sections(line);
    }

    /// The sections past the third, up to the last that is not empty.
    fn optional_sections(&mut self, line: &Line) {
        if line.booking_count > 0 || line.due_count > 0 {
            self.number(line.booking_count, b'\n');
            for booking in line.used_bookings() {
                self.booking(booking);
            }
        }
        if line.due_count > 0 {
            self.number(line.due_count, b'\n');
            for due in line.used_dues() {
                self.number(due.train, b' ');
                self.number(due.minute, b'\n');
            }
        }
    }

    fn segment(&mut self, segment: &Segment) {
        self.byte(segment.kind.letter());
        self.byte(b' ');
        self.number(segment.following, b' ');
        self.number(segment.opposing, b'\n');
    }

    fn train(&mut self, train: &Train) {
        self.number(train.origin, b' ');
        self.number(train.destination, b' ');
        self.number(train.earliest, b' ');
        self.number(train.latest, b' ');
        self.number(train.weight, b' ');
        let last = (train.legs() - 1).min(SEGMENTS - 1);
        for (&run, &stop) in train.runs[..last].iter().zip(&train.stops) {
            self.number(run, b' ');
            self.number(stop, b' ');
        }
        self.number(train.runs[last], b'\n');
    }

    fn booking(&mut self, booking: &Booking) {
        self.number(booking.train, b' ');
        self.number(booking.station, b' ');
        self.number(booking.minute, b'\n');
    }
}
