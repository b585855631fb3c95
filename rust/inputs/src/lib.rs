//! Line files and timetables for tests and benchmarks: random lines within the limits, lines for the
//! planners, Saturdays, all of these with and without bookings and dues, lawful timetables, stop times,
//! questions about starting minutes, texts with fields altered, texts with bytes damaged; and the count of
//! what they have and of what came of them.
//! Everything comes from a seed, so a failure can be seen again.

#![forbid(unsafe_code)]

mod beside;
mod booked_planned;
mod booking_corners;
mod bookings;
mod corners;
mod damage;
mod due_corners;
mod due_faults;
mod due_planned;
mod dues;
mod edges;
mod fields;
mod misbooked;
mod parts;
mod planned;
mod random;
mod saturdays;
mod seen;
mod shown;
mod starts;
mod starts_corners;
mod stop_times;
mod tally;
mod timetable_damage;
mod walks;

pub use beside::{beside_another, beside_walks, Answer, Outcomes};
pub use booked_planned::{booked_planned, booked_small_planned};
pub use booked_planned::{fully_booked_planned, with_harder_demands};
pub use booking_corners::{BookingCorner, BookingCorners};
pub use bookings::{booked_full_size, booked_saturday, booked_small_line};
pub use bookings::{with_bookings, with_one_booking, Booked};
pub use corners::{Corner, Corners};
pub use damage::{damage_bytes, damage_lines, with_one_byte_damaged};
pub use due_corners::{DueCorner, DueCorners};
pub use due_faults::{with_due_fault, DueFault};
pub use due_planned::{due_planned, due_small_planned, fully_due_planned};
pub use dues::{due_full_size, due_saturday, due_small_line, greatest_delay};
pub use dues::{with_all_due, with_dues, with_some_dues, DueAt};
pub use fields::Fields;
pub use misbooked::{misbooked, Misbooking};
pub use planned::{full_size_planned, planned, small_line, small_planned, Pair, Planned, Traffic};
pub use random::Random;
pub use saturdays::{saturday, some_saturday, Style};
pub use seen::{Least, Seen};
pub use shown::shown;
pub use starts::{question, questions, with_starts_fault, Question, StartsAt, StartsFault};
pub use starts_corners::{StartsCorner, StartsCorners};
pub use stop_times::{any_minutes, with_every_field_altered};
pub use stop_times::{with_stop_times_fault, StopTimesFault};
pub use timetable_damage::{damaged, Damage};
pub use walks::{booked_short_walks, booked_small_walks, small_lines};
pub use walks::{dense_line, dense_walk, short_walk, short_walks, small_walks, walk_line};
pub use walks::{due_dense_walk, due_short_walks, due_small_walks};
pub use walks::{LineWalk, Shape};

use independent::{Kind, Limits, Line, Segment, Train, STATIONS, TRAINS};

use parts::{of_size, used_parts, used_runs_and_stops};

/// How much a random line holds.
#[derive(Clone, Copy, Debug, PartialEq, Eq)]
pub enum Density {
    /// Trains over a few segments, short numbers.
    Sparse,
    /// Trains over the whole line, numbers over the whole of their range and often at its ends.
    Dense,
}

/// Every station count with every train count.
pub fn sizes() -> impl Iterator<Item = (u16, u16)> {
    (2..=STATIONS as u16)
        .flat_map(|stations| (0..=TRAINS as u16).map(move |trains| (stations, trains)))
}

/// A random line within the limits.
pub fn line(random: &mut Random, stations: u16, trains: u16, density: Density) -> Line {
    let mut line = of_size(stations, trains);
    let (tracks, segments, trains) = used_parts(&mut line);
    tracks.fill_with(|| number(random, Limits::TRACKS, density));
    segments.fill_with(|| Segment {
        kind: random.one_of(&[Kind::S, Kind::F, Kind::D]),
        following: number(random, Limits::GAP, density),
        opposing: number(random, Limits::GAP, density),
    });
    trains.fill_with(|| train(random, stations, density));
    line
}

fn train(random: &mut Random, stations: u16, density: Density) -> Train {
    let (origin, destination) = path(random, stations, density);
    let mut train = Train {
        origin,
        destination,
        earliest: number(random, Limits::MINUTE, density),
        latest: number(random, Limits::MINUTE, density),
        weight: number(random, Limits::WEIGHT, density),
        ..Train::default()
    };
    let (runs, stops) = used_runs_and_stops(&mut train);
    runs.fill_with(|| number(random, Limits::RUN, density));
    stops.fill_with(|| number(random, Limits::STOP, density));
    train
}

/// Origin and destination: far apart on a dense line, near each other on a sparse one.
fn path(random: &mut Random, stations: u16, density: Density) -> (u16, u16) {
    let legs = match density {
        Density::Dense if random.below(4) > 0 => stations - 1,
        Density::Dense => random.within(1, stations - 1),
        Density::Sparse => random.within(1, 3.min(stations - 1)),
    };
    let low = random.within(1, stations - legs);
    if random.below(2) == 0 {
        (low, low + legs)
    } else {
        (low + legs, low)
    }
}

fn number(random: &mut Random, limits: Limits, density: Density) -> u16 {
    match (density, random.below(4)) {
        (Density::Sparse, _) => random.within(limits.least, limits.most.min(limits.least + 12)),
        (Density::Dense, 0) => limits.least,
        (Density::Dense, 1) => limits.most,
        (Density::Dense, _) => random.within(limits.least, limits.most),
    }
}

/// The line with the longest text: 12 stations, 12 trains over the whole line, every number as long
/// as its range allows. The numbers vary, and so do the kinds and directions.
pub fn full_size(random: &mut Random) -> Line {
    let mut line = of_size(STATIONS as u16, TRAINS as u16);
    let (tracks, segments, trains) = used_parts(&mut line);
    tracks.fill_with(|| random.within(10, 12));
    segments.fill_with(|| Segment {
        kind: random.one_of(&[Kind::S, Kind::F, Kind::D]),
        following: random.within(10, 60),
        opposing: random.within(10, 60),
    });
    trains.fill_with(|| full_size_train(random));
    line
}

fn full_size_train(random: &mut Random) -> Train {
    let ends = [(1, STATIONS as u16), (STATIONS as u16, 1)];
    let (origin, destination) = ends[random.below(2)];
    let mut train = Train {
        origin,
        destination,
        earliest: random.within(1000, 2879),
        latest: random.within(1000, 2879),
        weight: random.within(10, 99),
        ..Train::default()
    };
    let (runs, stops) = used_runs_and_stops(&mut train);
    runs.fill_with(|| random.within(100, 240));
    stops.fill_with(|| random.within(100, 240));
    train
}

#[cfg(test)]
mod tests {
    use super::*;
    use crate::parts::reads_back;

    #[test]
    fn every_random_line_is_within_the_limits_and_reads_back() {
        let mut random = Random::new(1);
        for (stations, trains) in sizes() {
            for density in [Density::Sparse, Density::Dense] {
                reads_back(&line(&mut random, stations, trains, density));
            }
        }
    }

    #[test]
    fn the_full_size_line_has_the_longest_text() {
        let line = full_size(&mut Random::new(2));
        let text = Fields::of(&line).text();
        assert_eq!(text.len(), 1357);
        assert_eq!(independent::read(&text), Ok(line));
    }
}
