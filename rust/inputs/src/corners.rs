//! What a line has that a planner's mistakes could hide behind, and the count of it.

use independent::rules::{free_arrival, last_arrival, weighted_delay, Minutes};
use independent::walk::solve_within;
use independent::{Booking, Due, Kind, Limits, Line, Train};

use crate::parts::{put_bookings, put_dues, used_parts};
use crate::tally::Tally;

/// The most plans of a walk that shows what a line has.
pub(crate) const PLANS: u64 = 100_000;

/// Something that a line has.
#[derive(Clone, Copy, Debug, PartialEq, Eq)]
pub enum Corner {
    /// It has no timetable.
    NoTimetable,
    /// Its best timetable has a weighted delay.
    Delay,
    /// Its best timetable would be another, of the same weighted delay, were the trains numbered the
    /// other way round.
    Tie,
    /// Most of its trains have weight 0.
    ZeroWeights,
    /// Two trains share a segment of kind S.
    SegmentS,
    /// Two trains share a segment of kind F.
    SegmentF,
    /// Two trains of one direction share a segment of kind D.
    SegmentD,
    /// Two trains go through a station with one track.
    OneTrack,
    /// Two trains start from one station in the same minute.
    SameStart,
    /// Two trains share a segment, not of kind D, on which the following gap is more than three times
    /// the opposing one.
    WideFollowing,
    /// A train that is in after its free arrival in the best timetable arrives at its latest.
    JustInTime,
    /// It would have another best timetable if every train might arrive a minute later.
    MinuteTooLate,
    /// Its best timetable ends in the last ten minutes of the day.
    EndOfDay,
}

impl Corner {
    /// All of them.
    pub const ALL: [Corner; 13] = [
        Corner::NoTimetable,
        Corner::Delay,
        Corner::Tie,
        Corner::ZeroWeights,
        Corner::SegmentS,
        Corner::SegmentF,
        Corner::SegmentD,
        Corner::OneTrack,
        Corner::SameStart,
        Corner::WideFollowing,
        Corner::JustInTime,
        Corner::MinuteTooLate,
        Corner::EndOfDay,
    ];

    /// Whether the line, of which `best` is the best timetable, has it.
    fn is_of(self, line: &Line, best: Option<&Minutes>) -> bool {
        let of_kind = |kind| move |p: usize| line.segments[p].kind == kind;
        match self {
            Corner::NoTimetable => best.is_none(),
            Corner::Delay => best.is_some_and(|best| weighted_delay(line, best) > 0),
            Corner::Tie => best.is_some_and(|best| has_a_tie(line, best)),
            Corner::ZeroWeights => is_mostly_of_weight_0(line),
            Corner::SegmentS => share_a_segment(line, of_kind(Kind::S), |_, _| true),
            Corner::SegmentF => share_a_segment(line, of_kind(Kind::F), |_, _| true),
            Corner::SegmentD => share_a_segment(line, of_kind(Kind::D), |one, other| {
                one.outbound() == other.outbound()
            }),
            Corner::OneTrack => share_a_track(line),
            Corner::SameStart => any_two(line, |one, other| {
                (one.origin, one.earliest) == (other.origin, other.earliest)
            }),
            Corner::WideFollowing => share_a_segment(line, wide_following(line), |_, _| true),
            Corner::JustInTime => best.is_some_and(|best| is_just_in_time(line, best)),
            Corner::MinuteTooLate => is_a_minute_too_late(line, best),
            Corner::EndOfDay => best.is_some_and(|best| ends_with_the_day(line, best)),
        }
    }
}

/// Whether the best timetable would be another, of the same weighted delay, were the trains numbered the
/// other way round: then two timetables at least have the least weighted delay.
pub(crate) fn has_a_tie(line: &Line, best: &Minutes) -> bool {
    let Ok(found) = solve_within(&numbered_backwards(line), PLANS) else {
        return false;
    };
    let mut rows = found
        .best
        .expect("it has a timetable")
        .rows(&numbered_backwards(line));
    rows.reverse();
    let other = Minutes::of_rows(line, &rows);
    assert_eq!(weighted_delay(line, &other), weighted_delay(line, best));
    other != *best
}

fn numbered_backwards(line: &Line) -> Line {
    let mut backwards = *line;
    used_parts(&mut backwards).2.reverse();
    let other = |train| line.train_count + 1 - train;
    let bookings = line.used_bookings().iter().map(|&booking| Booking {
        train: other(booking.train),
        ..booking
    });
    put_bookings(&mut backwards, bookings.collect());
    let dues = line.used_dues().iter().rev().map(|&due| Due {
        train: other(due.train),
        ..due
    });
    put_dues(&mut backwards, &dues.collect::<Vec<_>>());
    backwards
}

fn is_mostly_of_weight_0(line: &Line) -> bool {
    let trains = line.used_trains();
    let of_weight_0 = trains.iter().filter(|train| train.weight == 0);
    of_weight_0.count() * 2 > trains.len()
}

/// Whether `hold` holds of any two trains.
fn any_two(line: &Line, hold: impl Fn(&Train, &Train) -> bool) -> bool {
    let trains = line.used_trains().iter().enumerate();
    trains.clone().any(|(i, one)| {
        trains
            .clone()
            .skip(i + 1)
            .any(|(_, other)| hold(one, other))
    })
}

/// Whether two trains of which `hold` holds share a segment of which `suits` holds.
fn share_a_segment(
    line: &Line,
    suits: impl Fn(usize) -> bool,
    hold: impl Fn(&Train, &Train) -> bool,
) -> bool {
    any_two(line, |one, other| {
        let mut shared = one.segments().filter(|p| other.segments().contains(p));
        hold(one, other) && shared.any(&suits)
    })
}

fn wide_following(line: &Line) -> impl Fn(usize) -> bool + '_ {
    |p| {
        let segment = &line.segments[p];
        segment.kind != Kind::D && segment.following > 3 * segment.opposing
    }
}

/// Whether two trains go through a station with one track.
fn share_a_track(line: &Line) -> bool {
    // The stations of a path but its ends: each between two of its segments.
    let through = |train: &Train| train.segments().start + 1..train.segments().end;
    any_two(line, |one, other| {
        through(one).any(|station| through(other).contains(&station) && line.tracks[station] == 1)
    })
}

fn is_just_in_time(line: &Line, best: &Minutes) -> bool {
    let mut trains = line.used_trains().iter().enumerate();
    trains.any(|(i, train)| {
        let arrival = last_arrival(best, i, train);
        arrival == train.latest && u32::from(arrival) > free_arrival(line, i)
    })
}

fn is_a_minute_too_late(line: &Line, best: Option<&Minutes>) -> bool {
    let mut later = *line;
    for train in used_parts(&mut later).2 {
        train.latest = Limits::MINUTE.most.min(train.latest + 1);
    }
    solve_within(&later, PLANS).is_ok_and(|found| found.best.as_ref() != best)
}

fn ends_with_the_day(line: &Line, best: &Minutes) -> bool {
    let mut trains = line.used_trains().iter().enumerate();
    trains.any(|(i, train)| last_arrival(best, i, train) > Limits::MINUTE.most - 10)
}

/// How many lines there were, and how many of them have each corner.
#[derive(Default)]
pub struct Corners {
    tally: Tally<{ Corner::ALL.len() }>,
}

impl Corners {
    /// Counts a line, of which `best` is the best timetable.
    pub fn count(&mut self, line: &Line, best: Option<&Minutes>) {
        self.tally
            .count(Corner::ALL.map(|corner| corner.is_of(line, best)));
    }

    /// Prints the counts, and holds that each corner was seen at least so often.
    pub fn ends(&self, name: &str, least: usize) {
        self.tally.ends(name, Corner::ALL, least);
    }
}
