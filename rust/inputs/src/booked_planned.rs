//! Lawful timetables of lines with bookings.

use independent::rules::last_arrival;
use independent::{exhaustive, Booking, Limits};

use crate::bookings::station;
use crate::parts::{put_bookings, used_parts, used_runs_and_stops};
use crate::{booked_small_line, full_size_planned, planned, Planned, Random, Traffic};

/// A line of [`planned`] with bookings that its timetable keeps, most of them just so.
pub fn booked_planned(
    random: &mut Random,
    stations: u16,
    trains: u16,
    traffic: Traffic,
) -> Planned {
    let mut planned = planned(random, stations, trains, traffic);
    book(&mut planned, |departure| {
        let before = random.within(0, departure);
        let minute = random.one_of(&[departure, departure, before]);
        (random.below(4) > 0).then_some(minute)
    });
    planned
}

/// A line of [`full_size_planned`] with 120 bookings: each train at every stop, when it leaves or a little
/// before.
pub fn fully_booked_planned(random: &mut Random) -> Planned {
    let mut planned = full_size_planned(random);
    let most = random.one_of(&[0, 2, 9]);
    book(&mut planned, |departure| {
        Some(departure - random.within(0, most))
    });
    planned
}

/// A small line with bookings and the best of its timetables, found by trying every order.
pub fn booked_small_planned(random: &mut Random) -> Planned {
    loop {
        let (stations, trains) = (random.within(3, 4), random.within(1, 3));
        let line = booked_small_line(random, stations, trains);
        if let (Ok(Some(minutes)), 1..) = (exhaustive::best(&line, 100_000), line.booking_count) {
            return Planned { line, minutes };
        }
    }
}

/// The same timetable with several demands of its line a minute harder at once: earliest, stops, bookings
/// and latest arrivals, so that several rules are often broken, by several trains.
pub fn with_harder_demands(random: &mut Random, planned: &Planned) -> Planned {
    let mut harder = *planned;
    let raise = |number: &mut u16, limits: Limits| *number = limits.most.min(*number + 1);
    let count = usize::from(planned.line.booking_count);
    for booking in &mut harder.line.bookings[..count] {
        if random.below(16) == 0 {
            raise(&mut booking.minute, Limits::MINUTE);
        }
    }
    for (i, train) in used_parts(&mut harder.line).2.iter_mut().enumerate() {
        match random.below(32) {
            0 => raise(&mut train.earliest, Limits::MINUTE),
            1 => {
                let stops = used_runs_and_stops(train).1;
                stops.iter_mut().for_each(|stop| raise(stop, Limits::STOP));
            }
            2..8 => train.latest = last_arrival(&planned.minutes, i, train) - 1,
            _ => {}
        }
    }
    harder
}

/// Books each train at each stop at what `minute` makes of its departure, if it makes anything of it.
fn book(planned: &mut Planned, mut minute: impl FnMut(u16) -> Option<u16>) {
    let mut bookings = Vec::new();
    for (i, train) in planned.line.used_trains().iter().enumerate() {
        for leg in 1..train.legs() {
            let departure = planned.minutes.departures[train.segment(leg)][i];
            bookings.extend(minute(departure).map(|minute| Booking {
                train: i as u16 + 1,
                station: station(train, leg),
                minute,
            }));
        }
    }
    put_bookings(&mut planned.line, bookings);
}

#[cfg(test)]
mod tests {
    use super::*;
    use crate::planned::passes_the_check;

    #[test]
    fn planned_lines_with_bookings_pass_the_check() {
        let mut random = Random::new(24);
        let mut bookings = 0;
        for (stations, trains) in crate::sizes() {
            for traffic in [Traffic::Mixed, Traffic::Full] {
                let planned = booked_planned(&mut random, stations, trains, traffic);
                passes_the_check(&planned);
                bookings += planned.line.used_bookings().len();
            }
        }
        assert!(bookings > 4000);
    }

    #[test]
    fn small_planned_lines_with_bookings_pass_the_check() {
        let mut random = Random::new(19);
        for _ in 0..2000 {
            let planned = booked_small_planned(&mut random);
            assert!(planned.line.booking_count > 0);
            passes_the_check(&planned);
        }
    }

    #[test]
    fn fully_booked_lines_have_120_bookings() {
        let mut random = Random::new(23);
        for _ in 0..50 {
            let planned = fully_booked_planned(&mut random);
            assert_eq!(planned.line.booking_count, 120);
            passes_the_check(&planned);
        }
    }
}
