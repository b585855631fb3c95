//! The parts of a line and of a train that are in use, for the generators to draw one after another.

use independent::{Booking, Due, Line, Segment, Train};

/// A line of this size with nothing drawn yet.
pub(crate) fn of_size(stations: u16, trains: u16) -> Line {
    Line {
        station_count: stations,
        train_count: trains,
        ..Line::default()
    }
}

/// The tracks, segments and trains that the line has.
pub(crate) fn used_parts(line: &mut Line) -> (&mut [u16], &mut [Segment], &mut [Train]) {
    let stations = usize::from(line.station_count);
    (
        &mut line.tracks[..stations],
        &mut line.segments[..stations - 1],
        &mut line.trains[..usize::from(line.train_count)],
    )
}

/// Earliest plus all runs and stops: the free arrival of a train without bookings.
pub(crate) fn unbooked_arrival(train: &Train) -> u16 {
    let legs = train.legs();
    let times = train.runs[..legs].iter().chain(&train.stops[..legs - 1]);
    train.earliest + times.sum::<u16>()
}

/// The runs of the train's legs and the stops between them.
pub(crate) fn used_runs_and_stops(train: &mut Train) -> (&mut [u16], &mut [u16]) {
    let legs = train.legs();
    (&mut train.runs[..legs], &mut train.stops[..legs - 1])
}

/// Gives the line these bookings and no others, in their order.
pub(crate) fn put_bookings(line: &mut Line, mut bookings: Vec<Booking>) {
    bookings.sort_by_key(|booking| (booking.train, booking.station));
    line.booking_count = bookings.len() as u16;
    line.bookings = Line::default().bookings;
    line.bookings[..bookings.len()].copy_from_slice(&bookings);
}

/// Gives the line these dues and no others. They rise by train.
pub(crate) fn put_dues(line: &mut Line, dues: &[Due]) {
    line.due_count = dues.len() as u16;
    line.dues = Line::default().dues;
    line.dues[..dues.len()].copy_from_slice(dues);
}

/// Holds that the line is within the limits and reads back.
#[cfg(test)]
pub(crate) fn reads_back(line: &Line) {
    let text = crate::Fields::of(line).text();
    assert_eq!(independent::read(&text), Ok(*line));
    assert_eq!(independent::write(line), Ok(text));
}
