//! Bookings for lines that were drawn without any, and lines that have them from the start.

use std::ops::Range;

use independent::rules::free_arrival;
use independent::{Booking, Limits, Line, Train, STATIONS};

use crate::parts::{put_bookings, used_parts};
use crate::{full_size, small_line, some_saturday, Random, Style};

/// The last minute of a timetable.
const LAST: u16 = Limits::MINUTE.most;

/// When a train is booked, beside the minute when it could leave were it alone.
#[derive(Clone, Copy, Debug, PartialEq, Eq)]
pub enum Booked {
    /// Then or before: that costs nothing.
    InAnyCase,
    /// Up to so many minutes later: that binds.
    Later(u16),
    /// So that the train can just be in with the last minute of the day, or up to two minutes before or
    /// after that.
    EndOfDay,
    /// At 2,879, with which there is no timetable.
    LastMinute,
    /// At any minute.
    AnyTime,
}

impl Booked {
    /// One of each.
    pub const ALL: [Booked; 5] = [
        Booked::InAnyCase,
        Booked::Later(30),
        Booked::EndOfDay,
        Booked::LastMinute,
        Booked::AnyTime,
    ];

    /// The minute, for a train that could leave at `ready` and has `left` minutes to go from there.
    fn minute(self, random: &mut Random, ready: u16, left: u16) -> u16 {
        let minute = match self {
            Booked::InAnyCase => {
                let before = random.within(0, ready);
                random.one_of(&[ready, ready, ready.saturating_sub(1), before, 0])
            }
            Booked::Later(most) => {
                let some = random.within(1, most);
                ready + random.one_of(&[1, some, some])
            }
            Booked::EndOfDay => (LAST + random.within(0, 4)).saturating_sub(left + 2),
            Booked::LastMinute => LAST,
            Booked::AnyTime => random.within(0, LAST),
        };
        minute.min(LAST)
    }
}

/// Which trains are booked.
#[derive(Clone, Copy)]
enum Which {
    All,
    Most,
    Inbound,
}

/// The line with bookings at some or all middle stations of some or all trains, each at one of `times`. A
/// line on which no train has a middle station stays as it is; any other has a booking. Most latest
/// arrivals are moved on with the free ones, so that not every file becomes unsolvable.
pub fn with_bookings(random: &mut Random, line: &Line, times: &[Booked]) -> Line {
    let has_a_stop = line.used_trains().iter().any(|train| train.legs() > 1);
    loop {
        let which = random.one_of(&[Which::All, Which::Most, Which::Most, Which::Inbound]);
        let one_in = random.one_of(&[1, 2, 2, 4]);
        let booked = drawn(random, line, times, which, one_in);
        if booked.booking_count > 0 || !has_a_stop {
            return booked;
        }
    }
}

/// The line with bookings of these trains at one in so many of their middle stations.
fn drawn(random: &mut Random, line: &Line, times: &[Booked], which: Which, one_in: usize) -> Line {
    let mut bookings = Vec::new();
    for (i, train) in line.used_trains().iter().enumerate() {
        let is_booked = match which {
            Which::All => true,
            Which::Most => random.below(4) > 0,
            Which::Inbound => !train.outbound(),
        };
        if is_booked {
            let of_train = train_bookings(random, train, times, one_in);
            let numbered = |booking| Booking {
                train: i as u16 + 1,
                ..booking
            };
            bookings.extend(of_train.into_iter().map(numbered));
        }
    }
    let mut booked = *line;
    put_bookings(&mut booked, bookings);
    move_latest_on(random, line, &mut booked);
    booked
}

/// The bookings of a train in travel order, the train's number still to be put in.
fn train_bookings(
    random: &mut Random,
    train: &Train,
    times: &[Booked],
    one_in: usize,
) -> Vec<Booking> {
    let mut bookings = Vec::new();
    let mut ready = train.earliest;
    for leg in 1..train.legs() {
        ready += minutes(train, leg - 1..leg);
        if random.below(one_in) == 0 {
            let left = minutes(train, leg..train.legs());
            let minute = random.one_of(times).minute(random, ready, left);
            bookings.push(Booking {
                train: 0,
                station: station(train, leg),
                minute,
            });
            ready = ready.max(minute);
        }
    }
    bookings
}

/// The runs and stops of these legs. No stop follows the last run.
fn minutes(train: &Train, legs: Range<usize>) -> u16 {
    legs.map(|leg| train.runs[leg] + train.stops[leg]).sum()
}

/// The station that the train leaves with a leg.
pub(crate) fn station(train: &Train, leg: usize) -> u16 {
    match train.outbound() {
        true => train.origin + leg as u16,
        false => train.origin - leg as u16,
    }
}

/// Moves three of four latest arrivals on by as much as the bookings move the free ones, within the day.
fn move_latest_on(random: &mut Random, before: &Line, booked: &mut Line) {
    let rise = |i| (free_arrival(booked, i) - free_arrival(before, i)) as u16;
    let rises: Vec<u16> = (0..before.used_trains().len()).map(rise).collect();
    for (train, rise) in used_parts(booked).2.iter_mut().zip(rises) {
        if random.below(4) > 0 {
            train.latest = LAST.min(train.latest + rise);
        }
    }
}

/// A line of [`small_line`] with bookings, if a train has a middle station: at times near those when the
/// trains could leave, so that every minute can be tried.
pub fn booked_small_line(random: &mut Random, stations: u16, trains: u16) -> Line {
    let line = small_line(random, stations, trains);
    with_bookings(random, &line, &[Booked::InAnyCase, Booked::Later(4)])
}

/// A line of [`full_size`] with 120 bookings, each number as long as its range allows: the longest text.
pub fn booked_full_size(random: &mut Random) -> Line {
    let mut line = full_size(random);
    let stops =
        (1..=line.train_count).flat_map(|train| (2..STATIONS as u16).map(move |s| (train, s)));
    let bookings = stops.map(|(train, station)| Booking {
        train,
        station,
        minute: random.within(1000, LAST),
    });
    let bookings = bookings.collect();
    put_bookings(&mut line, bookings);
    line
}

/// A Saturday of [`some_saturday`]. One in six has no bookings; most of the others have them when the
/// trains could leave in any case, some minutes later, or both. One in twelve has a booking near the end
/// of the day, and one in twelve any minute or the last one.
pub fn booked_saturday(random: &mut Random, style: Style) -> Line {
    let line = some_saturday(random, style);
    let times = match random.below(12) {
        0 | 1 => return line,
        2..=4 => &[Booked::InAnyCase][..],
        5..=6 => &[Booked::Later(20)],
        7..=9 => &[Booked::InAnyCase, Booked::InAnyCase, Booked::Later(10)],
        10 => return with_one_booking(random, &line, Booked::EndOfDay),
        _ => {
            let booked = random.one_of(&[Booked::AnyTime, Booked::AnyTime, Booked::LastMinute]);
            return with_one_booking(random, &line, booked);
        }
    };
    with_bookings(random, &line, times)
}

/// The line, on which some train has a middle station, with one booking. Its train may be in up to the
/// last minute.
pub fn with_one_booking(random: &mut Random, line: &Line, booked: Booked) -> Line {
    let trains = line.used_trains().iter().enumerate();
    let stops = trains.flat_map(|(i, train)| (1..train.legs()).map(move |leg| (i, leg)));
    let (i, leg) = random.one_of(&stops.collect::<Vec<_>>());
    let train = &line.trains[i];
    let ready = train.earliest + minutes(train, 0..leg);
    let left = minutes(train, leg..train.legs());
    let booking = Booking {
        train: i as u16 + 1,
        station: station(train, leg),
        minute: booked.minute(random, ready, left),
    };
    let mut one = *line;
    put_bookings(&mut one, vec![booking]);
    one.trains[i].latest = LAST;
    one
}

#[cfg(test)]
mod tests {
    use super::*;
    use crate::parts::reads_back;
    use crate::Fields;

    #[test]
    fn every_line_with_bookings_is_within_the_limits_and_reads_back() {
        let mut random = Random::new(26);
        for (stations, trains) in crate::sizes() {
            for density in [crate::Density::Sparse, crate::Density::Dense] {
                let line = crate::line(&mut random, stations, trains, density);
                let has_a_stop = line.used_trains().iter().any(|train| train.legs() > 1);
                for times in Booked::ALL.chunks(1).chain([&Booked::ALL[..]]) {
                    let booked = with_bookings(&mut random, &line, times);
                    assert_eq!(booked.booking_count > 0, has_a_stop);
                    reads_back(&booked);
                }
                if has_a_stop {
                    let time = random.one_of(&Booked::ALL);
                    let one = with_one_booking(&mut random, &line, time);
                    assert_eq!(one.booking_count, 1);
                    reads_back(&one);
                }
            }
        }
    }

    #[test]
    fn the_full_size_line_with_bookings_has_the_longest_text() {
        let line = booked_full_size(&mut Random::new(27));
        assert_eq!(line.booking_count, 120);
        assert_eq!(Fields::of(&line).text().len(), 2495);
        reads_back(&line);
    }

    #[test]
    fn bookings_in_any_case_leave_the_free_arrival() {
        let mut random = Random::new(28);
        for style in Style::ALL {
            let line = some_saturday(&mut random, style);
            for (times, moves) in [([Booked::InAnyCase], false), ([Booked::Later(9)], true)] {
                let booked = with_bookings(&mut random, &line, &times);
                let moved = |i: &usize| free_arrival(&booked, *i) > free_arrival(&line, *i);
                let trains = 0..line.used_trains().len();
                assert_eq!(trains.filter(moved).count() > 0, moves);
                reads_back(&booked);
            }
        }
    }

    #[test]
    fn saturdays_have_every_kind_of_booking() {
        let mut random = Random::new(29);
        let (mut without, mut inbound, mut last, mut most) = (0, 0, 0, 0);
        for style in Style::ALL.into_iter().cycle().take(2000) {
            let line = booked_saturday(&mut random, style);
            reads_back(&line);
            let bookings = line.used_bookings();
            let is_inbound = |it: &&Booking| !line.trains[usize::from(it.train) - 1].outbound();
            without += usize::from(bookings.is_empty());
            inbound += bookings.iter().filter(is_inbound).count();
            last += bookings.iter().filter(|it| it.minute == LAST).count();
            most = most.max(bookings.len());
        }
        assert!((200..500).contains(&without));
        assert!(inbound > 5000 && last > 30 && most > 80);
    }
}
