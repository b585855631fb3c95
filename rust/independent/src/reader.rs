//! Reading a line file: once through the bytes, field by field.

use crate::position::{Position, LINE_FEED, SPACE};
use crate::{Booking, Due, Kind, Limits, Line, Refusal, Segment, Train, FILE_BYTES};

/// Reads a line file. A field's form comes first, then the byte after it, then its range, then (at
/// a destination) whether it equals the origin, or (at a booking's station) whether the booking suits, or
/// (at a due's train) whether it is above the one before.
pub fn read(file: &[u8]) -> Result<Line, Refusal> {
    if file.len() > FILE_BYTES {
        return Err(Refusal::TOO_LONG);
    }
    let mut line = Line::default();
    let mut at = Position::first(file);
    at.stations(&mut line)?;
    at.segments(&mut line)?;
    at.trains(&mut line)?;
    at.bookings(&mut line)?;
    at.dues(&mut line)?;
    at.at_the_end()?;
    Ok(line)
}

impl Position<'_> {
    fn stations(&mut self, line: &mut Line) -> Result<(), Refusal> {
        line.station_count = self.number(LINE_FEED, Limits::STATION_COUNT)?;
        for tracks in &mut line.tracks[..usize::from(line.station_count)] {
            *tracks = self.number(LINE_FEED, Limits::TRACKS)?;
        }
        Ok(())
    }

    fn segments(&mut self, line: &mut Line) -> Result<(), Refusal> {
        let count = line.station_count - 1;
        self.number(LINE_FEED, Limits::new(count, count))?;
        for segment in &mut line.segments[..usize::from(count)] {
            *segment = Segment {
                kind: self.kind()?,
                following: self.number(SPACE, Limits::GAP)?,
                opposing: self.number(LINE_FEED, Limits::GAP)?,
            };
        }
        Ok(())
    }

    fn trains(&mut self, line: &mut Line) -> Result<(), Refusal> {
        line.train_count = self.number(LINE_FEED, Limits::TRAIN_COUNT)?;
        let stations = Limits::new(1, line.station_count);
        for train in &mut line.trains[..usize::from(line.train_count)] {
            self.train(stations, train)?;
        }
        Ok(())
    }

    fn train(&mut self, stations: Limits, train: &mut Train) -> Result<(), Refusal> {
        train.origin = self.number(SPACE, stations)?;
        train.destination = self.number(SPACE, stations)?;
        if train.destination == train.origin {
            return Err(Refusal::same_station(self.line));
        }
        train.earliest = self.number(SPACE, Limits::MINUTE)?;
        train.latest = self.number(SPACE, Limits::MINUTE)?;
        train.weight = self.number(SPACE, Limits::WEIGHT)?;
        let last = train.legs() - 1;
        let runs = &mut train.runs[..=last];
        let stops = &mut train.stops[..last];
        for (run, stop) in runs.iter_mut().zip(stops) {
            *run = self.number(SPACE, Limits::RUN)?;
            *stop = self.number(SPACE, Limits::STOP)?;
        }
        runs[last] = self.number(LINE_FEED, Limits::RUN)?;
        Ok(())
    }

    /// The bookings, if anything follows the trains. Their section is empty only where another follows it.
    fn bookings(&mut self, line: &mut Line) -> Result<(), Refusal> {
        if self.bytes.is_empty() {
            return Ok(());
        }
        let place = self.line;
        line.booking_count = self.number(LINE_FEED, Limits::BOOKING_COUNT)?;
        if line.booking_count == 0 && self.bytes.is_empty() {
            return Err(Refusal::range(place));
        }
        for at in 0..usize::from(line.booking_count) {
            line.bookings[at] = self.booking(line, at)?;
        }
        Ok(())
    }

    /// The booking at this place, from 0, behind those that `line` has already.
    fn booking(&mut self, line: &Line, at: usize) -> Result<Booking, Refusal> {
        let mut booking = Booking {
            train: self.number(SPACE, Limits::new(1, line.train_count))?,
            station: self.number(SPACE, Limits::new(1, line.station_count))?,
            minute: 0,
        };
        if !booking.suits(&line.trains, line.bookings[..at].last()) {
            return Err(Refusal::misplaced(self.line));
        }
        booking.minute = self.number(LINE_FEED, Limits::MINUTE)?;
        Ok(booking)
    }

    /// The dues, if anything follows the bookings. No section follows theirs, so it is never empty.
    fn dues(&mut self, line: &mut Line) -> Result<(), Refusal> {
        if self.bytes.is_empty() {
            return Ok(());
        }
        line.due_count = self.number(LINE_FEED, Limits::new(1, line.train_count))?;
        for at in 0..usize::from(line.due_count) {
            line.dues[at] = self.due(line, at)?;
        }
        Ok(())
    }

    /// The due at this place, from 0, behind those that `line` has already.
    fn due(&mut self, line: &Line, at: usize) -> Result<Due, Refusal> {
        let train = self.number(SPACE, Limits::new(1, line.train_count))?;
        if !Due::may_follow(train, line.dues[..at].last()) {
            return Err(Refusal::misplaced(self.line));
        }
        let minute = self.number(LINE_FEED, Limits::MINUTE)?;
        Ok(Due { train, minute })
    }

    /// A kind and the space after it.
    fn kind(&mut self) -> Result<Kind, Refusal> {
        let (kind, rest) = match self.bytes {
            [b'S', SPACE, rest @ ..] => (Kind::S, rest),
            [b'F', SPACE, rest @ ..] => (Kind::F, rest),
            [b'D', SPACE, rest @ ..] => (Kind::D, rest),
            _ => return Err(Refusal::form(self.line)),
        };
        self.bytes = rest;
        Ok(kind)
    }
}
