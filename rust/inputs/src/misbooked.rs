//! Bookings that are out of order, at the wrong station or past a limit.

use independent::{Booking, Line, Train};

use crate::Random;

/// What is wrong with the bookings of a line.
#[derive(Clone, Copy, Debug, PartialEq, Eq)]
pub enum Misbooking {
    /// Two of them are exchanged.
    Exchanged,
    /// One stands twice, with the same minute or another.
    Doubled,
    /// One is at the origin of its train.
    Origin,
    /// One is at the destination of its train.
    Destination,
    /// One is at a station past the path of its train.
    OffThePath,
    /// A train is at its limit or past it.
    Train,
    /// A station is at its limit or past it.
    Station,
    /// A minute is at its limit or past it.
    Minute,
    /// Two of these one after another.
    Two,
}

impl Misbooking {
    /// All of them.
    pub const ALL: [Misbooking; 9] = [
        Misbooking::Exchanged,
        Misbooking::Doubled,
        Misbooking::Origin,
        Misbooking::Destination,
        Misbooking::OffThePath,
        Misbooking::Train,
        Misbooking::Station,
        Misbooking::Minute,
        Misbooking::Two,
    ];
}

/// The line, which has bookings, with something wrong in them, or as it is where that cannot be: a single
/// booking is exchanged with nothing. At a limit nothing need be wrong. Every number has four digits at
/// most, so that the fields say what the record does.
pub fn misbooked(random: &mut Random, line: &Line, misbooking: Misbooking) -> Line {
    let mut wrong = *line;
    let count = usize::from(line.booking_count);
    let (at, other) = (random.below(count), random.below(count));
    let booking = line.bookings[at];
    let train = usize::from(booking.train).checked_sub(1);
    let train = train.and_then(|number| line.used_trains().get(number));
    match (misbooking, train) {
        (Misbooking::Exchanged, _) => wrong.bookings.swap(at, other),
        (Misbooking::Doubled, _) => double(random, &mut wrong, at),
        (Misbooking::Origin, Some(train)) => wrong.bookings[at].station = train.origin,
        (Misbooking::Destination, Some(train)) => wrong.bookings[at].station = train.destination,
        (Misbooking::OffThePath, Some(train)) => {
            let station = off_the_path(random, line, train);
            wrong.bookings[at].station = station.unwrap_or(booking.station);
        }
        (Misbooking::Train, _) => {
            wrong.bookings[at].train = near_limits(random, 1, line.train_count);
        }
        (Misbooking::Station, _) => {
            wrong.bookings[at].station = near_limits(random, 1, line.station_count);
        }
        (Misbooking::Minute, _) => wrong.bookings[at].minute = near_limits(random, 0, 2879),
        (Misbooking::Two, _) => {
            let single = &Misbooking::ALL[..8];
            let (first, second) = (random.one_of(single), random.one_of(single));
            let once = misbooked(random, line, first);
            return misbooked(random, &once, second);
        }
        (_, None) => {}
    }
    wrong
}

/// Puts a booking in again behind itself or further on; the last one falls out where there is no room.
fn double(random: &mut Random, line: &mut Line, at: usize) {
    let count = usize::from(line.booking_count);
    let again = Booking {
        minute: random.one_of(&[line.bookings[at].minute, 0, 2879]),
        ..line.bookings[at]
    };
    let place = at + 1 + random.below(count - at);
    match line.bookings.len() {
        most if count < most => {
            line.bookings.copy_within(place..count, place + 1);
            line.bookings[place] = again;
            line.booking_count += 1;
        }
        most => line.bookings[place.min(most - 1)] = again,
    }
}

/// A station of the line that is not on the train's path.
fn off_the_path(random: &mut Random, line: &Line, train: &Train) -> Option<u16> {
    let (low, high) = (
        train.origin.min(train.destination),
        train.origin.max(train.destination),
    );
    let stations = (1..low).chain(high + 1..=line.station_count);
    let stations: Vec<u16> = stations.collect();
    (!stations.is_empty()).then(|| random.one_of(&stations))
}

/// A number at a limit, next to it, or far past it.
pub(crate) fn near_limits(random: &mut Random, least: u16, most: u16) -> u16 {
    let below = least.saturating_sub(1);
    random.one_of(&[below, least, most, most + 1, most + 2, 255, 256, 257, 9999])
}
