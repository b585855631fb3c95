//! Line files and timetables in plain Rust, from the scope document and the change requests alone:
//! reading and writing, the rules, the check, stop times for journey planners, a planner that tries every
//! order, one that walks through plans, the same walk with each plan worked out afresh, one that searches
//! through plans, and the totals for many starting minutes of a train.
//!
//! Nothing here comes from the proved crates or calls them: the tests compare the two, so a mistake
//! has to be made twice to pass. The readers, the writers and the check allocate nothing (only [`write()`],
//! [`timetable::write`] and two of [`stop_times`] hand out a vector), so the benchmark can compare times as well.
//! The planners of [`exhaustive`] and [`afresh`] are made to be believed, not to be fast. Those of [`walk`] and
//! [`search`] are made to be fast. Both walks take up the same plans as the proved one.

#![forbid(unsafe_code)]

use std::fmt;
use std::ops::Range;

pub mod afresh;
pub mod exhaustive;
pub mod plans;
pub mod rules;
pub mod search;
pub mod starts;
pub mod stop_times;
pub mod timetable;
pub mod walk;

mod bookings;
mod checker;
mod dues;
mod position;
mod reader;
mod tables;
mod text;
mod writer;

#[cfg(test)]
mod booking_examples;
#[cfg(test)]
mod booking_readings;
#[cfg(test)]
mod carried_examples;
#[cfg(test)]
mod due_examples;
#[cfg(test)]
mod due_readings;
#[cfg(test)]
mod examples;
#[cfg(test)]
mod readings;
#[cfg(test)]
mod starts_readings;
#[cfg(test)]
mod stop_times_readings;
#[cfg(test)]
mod test_texts;
#[cfg(test)]
mod timetable_readings;

pub use bookings::Booking;
pub use checker::check;
pub use dues::Due;
pub use reader::read;
pub use writer::{rewrite, write, write_into};

/// The most bytes a line file or a timetable may have.
pub const FILE_BYTES: usize = 4096;
/// The most stations of a line.
pub const STATIONS: usize = 12;
/// The most segments of a line.
pub const SEGMENTS: usize = STATIONS - 1;
/// The most trains of a line.
pub const TRAINS: usize = 12;
/// The most bookings of a line.
pub const BOOKINGS: usize = 120;
/// The most dues of a line: one for each train.
pub const DUES: usize = TRAINS;

/// A range of a field, both ends included.
#[derive(Clone, Copy, Debug, PartialEq, Eq)]
pub struct Limits {
    /// The lowest number allowed.
    pub least: u16,
    /// The highest number allowed.
    pub most: u16,
}

impl Limits {
    /// How many stations.
    pub const STATION_COUNT: Limits = Limits::new(2, STATIONS as u16);
    /// How many tracks at a station.
    pub const TRACKS: Limits = Limits::new(1, 12);
    /// A following or an opposing gap.
    pub const GAP: Limits = Limits::new(1, 60);
    /// How many trains.
    pub const TRAIN_COUNT: Limits = Limits::new(0, TRAINS as u16);
    /// How many bookings. None of them stand in a section of their own only where dues follow.
    pub const BOOKING_COUNT: Limits = Limits::new(0, BOOKINGS as u16);
    /// A minute of the timetable.
    pub const MINUTE: Limits = Limits::new(0, 2879);
    /// A train's weight.
    pub const WEIGHT: Limits = Limits::new(0, 99);
    /// Minutes of running on a segment.
    pub const RUN: Limits = Limits::new(1, 240);
    /// Minutes of stop at a middle station.
    pub const STOP: Limits = Limits::new(0, 240);

    /// The range from `least` to `most`.
    pub const fn new(least: u16, most: u16) -> Limits {
        Limits { least, most }
    }

    /// Whether `number` lies within the range.
    #[inline]
    pub const fn hold(self, number: u16) -> bool {
        self.least <= number && number <= self.most
    }
}

/// Why a line file, a record or a timetable was turned down: the number of the scope document and
/// its place.
#[derive(Clone, Copy, Debug, PartialEq, Eq, PartialOrd, Ord)]
pub struct Refusal {
    /// Of a line file: 1 too long, 2 form, 3 range, 4 destination equals origin, 19 a booking or a due out
    /// of order, or a booking not at a middle station. 5 no timetable, 6 lent bytes too few. Of a
    /// timetable: 7 too long, 8 form, 9 range, 10 to 15 and 18 the rule broken, 16 order lists, 17 total. Of
    /// stop times: 20 form, 21 a trip, stop or sequence that is not next. Of starting minutes: 22 list, entries
    /// or train.
    pub number: u32,
    /// The line of the fault for 2, 3, 4, 8, 9 and 19 to 21; the lowest train for 10 to 13 and 18, segment for
    /// 14, station for 15 and list for 16. All of them count from 1; any other number has 0.
    pub place: u32,
}

impl fmt::Display for Refusal {
    fn fmt(&self, out: &mut fmt::Formatter<'_>) -> fmt::Result {
        write!(out, "refused {} {}", self.number, self.place)
    }
}

impl Refusal {
    pub(crate) const TOO_LONG: Refusal = Refusal {
        number: 1,
        place: 0,
    };
    pub(crate) const NO_TIMETABLE: Refusal = Refusal {
        number: 5,
        place: 0,
    };
    pub(crate) const LENT_TOO_FEW: Refusal = Refusal {
        number: 6,
        place: 0,
    };

    pub(crate) const fn form(line: u32) -> Refusal {
        Refusal {
            number: 2,
            place: line,
        }
    }

    pub(crate) const fn range(line: u32) -> Refusal {
        Refusal {
            number: 3,
            place: line,
        }
    }

    pub(crate) const fn same_station(line: u32) -> Refusal {
        Refusal {
            number: 4,
            place: line,
        }
    }

    pub(crate) const fn misplaced(line: u32) -> Refusal {
        Refusal {
            number: 19,
            place: line,
        }
    }
}

/// What kind of track a segment has.
#[derive(Clone, Copy, Debug, Default, PartialEq, Eq)]
pub enum Kind {
    /// Single track with one train at a time.
    #[default]
    S,
    /// Single track on which trains of one direction may follow each other.
    F,
    /// Double track.
    D,
}

impl Kind {
    /// The kind's letter in the file.
    #[inline]
    pub const fn letter(self) -> u8 {
        match self {
            Kind::S => b'S',
            Kind::F => b'F',
            Kind::D => b'D',
        }
    }
}

/// The track between two neighbouring stations.
#[derive(Clone, Copy, Debug, Default, PartialEq, Eq)]
pub struct Segment {
    /// The kind of track.
    pub kind: Kind,
    /// Minutes between trains of one direction.
    pub following: u16,
    /// Minutes between trains of opposite directions; kept, and unused, on kind D.
    pub opposing: u16,
}

/// A train with its path and times.
#[derive(Clone, Copy, Debug, Default, PartialEq, Eq)]
pub struct Train {
    /// The station it starts from, from 1.
    pub origin: u16,
    /// The station it goes to, from 1.
    pub destination: u16,
    /// The earliest minute of its first departure.
    pub earliest: u16,
    /// The latest minute of its last arrival.
    pub latest: u16,
    /// What a minute of its delay costs.
    pub weight: u16,
    /// Minutes of running on each of its segments, in travel order.
    pub runs: [u16; SEGMENTS],
    /// Minutes of stop after each of its segments but the last, in travel order.
    pub stops: [u16; SEGMENTS],
}

impl Train {
    /// The number of segments on its path.
    #[inline]
    pub fn legs(&self) -> usize {
        usize::from(self.origin.abs_diff(self.destination))
    }

    /// Whether it runs towards the higher stations.
    #[inline]
    pub fn outbound(&self) -> bool {
        self.origin < self.destination
    }

    /// The segment of a leg of its path, both from 0. An inbound train's first segment is the one
    /// below its origin.
    #[inline]
    pub fn segment(&self, leg: usize) -> usize {
        let origin = usize::from(self.origin) - 1;
        if self.outbound() {
            origin + leg
        } else {
            origin - 1 - leg
        }
    }

    /// The segments of its path, from 0.
    #[inline]
    pub fn segments(&self) -> Range<usize> {
        let low = usize::from(self.origin.min(self.destination)) - 1;
        low..low + self.legs()
    }
}

/// A line: what a line file says. Entries beyond a count are 0 (a kind is S) after reading and are
/// ignored in writing.
#[derive(Clone, Copy, Debug, PartialEq, Eq)]
pub struct Line {
    /// How many stations there are.
    pub station_count: u16,
    /// The tracks of each station.
    pub tracks: [u16; STATIONS],
    /// The segments; segment p joins stations p and p + 1, counted from 1.
    pub segments: [Segment; SEGMENTS],
    /// How many trains there are.
    pub train_count: u16,
    /// The trains.
    pub trains: [Train; TRAINS],
    /// How many bookings there are.
    pub booking_count: u16,
    /// The bookings, rising by train and then by station.
    pub bookings: [Booking; BOOKINGS],
    /// How many dues there are. The sections of a file past the third go up to the last that is not empty.
    pub due_count: u16,
    /// The dues, rising by train. A train that has none is due at its free arrival.
    pub dues: [Due; DUES],
}

impl Default for Line {
    fn default() -> Line {
        Line {
            station_count: 0,
            tracks: [0; STATIONS],
            segments: [Segment::default(); SEGMENTS],
            train_count: 0,
            trains: [Train::default(); TRAINS],
            booking_count: 0,
            bookings: [Booking::default(); BOOKINGS],
            due_count: 0,
            dues: [Due::default(); DUES],
        }
    }
}

impl Line {
    /// The segments that there are.
    #[inline]
    pub fn used_segments(&self) -> &[Segment] {
        &self.segments[..usize::from(self.station_count) - 1]
    }

    /// The trains that there are.
    #[inline]
    pub fn used_trains(&self) -> &[Train] {
        &self.trains[..usize::from(self.train_count)]
    }
}
