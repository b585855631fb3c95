//! Dues for lines that were drawn without any, and lines that have them from the start.

use independent::rules::free_arrival;
use independent::{Due, Kind, Limits, Line, Segment, Train, TRAINS};

use crate::parts::{of_size, put_dues, used_parts};
use crate::{booked_full_size, booked_saturday, booked_small_line, small_line};
use crate::{Random, Style};

/// The last minute of a timetable.
const LAST: u16 = Limits::MINUTE.most;

/// When a train is due, beside its free arrival.
#[derive(Clone, Copy, Debug, PartialEq, Eq)]
pub enum DueAt {
    /// Then, as if it were not listed.
    Free,
    /// Up to so many minutes before: it is late in any case.
    Before(u16),
    /// Up to so many minutes after: it may wait as long.
    After(u16),
    /// At minute 0.
    FirstMinute,
    /// At 2,879, with which it is never late.
    LastMinute,
    /// At any minute.
    AnyTime,
}

impl DueAt {
    /// One of each.
    pub const ALL: [DueAt; 6] = [
        DueAt::Free,
        DueAt::Before(30),
        DueAt::After(30),
        DueAt::FirstMinute,
        DueAt::LastMinute,
        DueAt::AnyTime,
    ];

    /// The minute, for a train with this free arrival.
    fn minute(self, random: &mut Random, free: u16) -> u16 {
        let minute = match self {
            DueAt::Free => free,
            DueAt::Before(most) => free.saturating_sub(random.within(1, most)),
            DueAt::After(most) => free + random.within(1, most),
            DueAt::FirstMinute => 0,
            DueAt::LastMinute => LAST,
            DueAt::AnyTime => random.within(0, LAST),
        };
        minute.min(LAST)
    }
}

/// The line with dues of all of its trains or of some, each at one of `times`. A line without trains stays
/// as it is; any other has a due.
pub fn with_dues(random: &mut Random, line: &Line, times: &[DueAt]) -> Line {
    let one_in = random.one_of(&[1, 1, 1, 2, 3]);
    loop {
        let with_dues = drawn(random, line, times, one_in);
        if with_dues.due_count > 0 || line.train_count == 0 {
            return with_dues;
        }
    }
}

/// The line with every train due at one of `times`.
pub fn with_all_due(random: &mut Random, line: &Line, times: &[DueAt]) -> Line {
    drawn(random, line, times, 1)
}

/// The line with dues of one in so many of its trains.
fn drawn(random: &mut Random, line: &Line, times: &[DueAt], one_in: usize) -> Line {
    let mut dues = Vec::new();
    for i in 0..line.used_trains().len() {
        if random.below(one_in) == 0 {
            let time = random.one_of(times);
            dues.push(Due {
                train: i as u16 + 1,
                minute: time.minute(random, free_arrival(line, i) as u16),
            });
        }
    }
    let mut drawn = *line;
    put_dues(&mut drawn, &dues);
    drawn
}

/// The line with dues so that the planners have more to choose from than without: mostly after the free
/// arrivals, often so late that nothing need be delayed and the tie rule decides; or before them, at 0 or
/// anywhere. `near` is how near the free arrival most of them are.
pub fn with_some_dues(random: &mut Random, line: &Line, near: u16) -> Line {
    let (before, after) = (DueAt::Before(near), DueAt::After(near));
    let times: &[DueAt] = match random.below(16) {
        0..3 => &[DueAt::LastMinute],
        3..5 => &[DueAt::After(8 * near)],
        5..7 => &[after, after, DueAt::LastMinute],
        7..9 => &[after],
        9..11 => &[before, DueAt::Free, after],
        11 => &[before, DueAt::LastMinute],
        12..14 => &[DueAt::FirstMinute],
        14 => &[before, after, DueAt::FirstMinute, DueAt::LastMinute],
        _ => &[DueAt::AnyTime, DueAt::Free],
    };
    with_dues(random, line, times)
}

/// A line of [`small_line`], or one with bookings, with dues near the free arrivals.
pub fn due_small_line(random: &mut Random, stations: u16, trains: u16) -> Line {
    let draw = random.one_of(&[small_line, booked_small_line]);
    let line = draw(random, stations, trains);
    with_some_dues(random, &line, 4)
}

/// A line of [`booked_full_size`] with 12 dues, each minute as long as its range allows: the longest text.
pub fn due_full_size(random: &mut Random) -> Line {
    let mut line = booked_full_size(random);
    let dues = (1..=line.train_count).map(|train| Due {
        train,
        minute: random.within(1000, LAST),
    });
    put_dues(&mut line, &dues.collect::<Vec<_>>());
    line
}

/// A Saturday of [`booked_saturday`] with dues near the free arrivals or far from them.
pub fn due_saturday(random: &mut Random, style: Style) -> Line {
    let line = booked_saturday(random, style);
    let near = random.one_of(&[5, 15, 40]);
    with_some_dues(random, &line, near)
}

/// Twelve trains of weight 99, each alone in its lane of a double track, due at 0, with the last minute of the
/// day for their latest: no timetable has a greater weighted delay than that with all of them in then.
pub fn greatest_delay(earliest: u16) -> Line {
    let mut line = of_size(7, TRAINS as u16);
    let (tracks, segments, trains) = used_parts(&mut line);
    tracks.fill(1);
    segments.fill(Segment {
        kind: Kind::D,
        following: 1,
        opposing: 1,
    });
    let lanes = (1..=6).flat_map(|p| [(p, p + 1), (p + 1, p)]);
    for (train, (origin, destination)) in trains.iter_mut().zip(lanes) {
        *train = Train {
            origin,
            destination,
            earliest,
            latest: LAST,
            weight: Limits::WEIGHT.most,
            ..Train::default()
        };
        train.runs[0] = 1;
    }
    let dues = (1..=TRAINS as u16).map(|train| Due { train, minute: 0 });
    put_dues(&mut line, &dues.collect::<Vec<_>>());
    line
}

#[cfg(test)]
mod tests {
    use independent::rules::weighted_delay;
    use independent::walk::solve;

    use super::*;
    use crate::parts::reads_back;
    use crate::{sizes, with_bookings, Booked, Density, Fields};

    #[test]
    fn every_line_with_dues_is_within_the_limits_and_reads_back() {
        let mut random = Random::new(240);
        for (stations, trains) in sizes() {
            for density in [Density::Sparse, Density::Dense] {
                let line = crate::line(&mut random, stations, trains, density);
                let booked = with_bookings(&mut random, &line, &Booked::ALL);
                for times in DueAt::ALL.chunks(1).chain([&DueAt::ALL[..]]) {
                    for line in [&line, &booked] {
                        let due = with_dues(&mut random, line, times);
                        assert_eq!(due.due_count > 0, trains > 0);
                        reads_back(&due);
                    }
                }
            }
        }
    }

    #[test]
    fn the_full_size_line_with_dues_has_the_longest_text() {
        let line = due_full_size(&mut Random::new(241));
        assert_eq!((line.booking_count, line.due_count), (120, 12));
        assert_eq!(Fields::of(&line).text().len(), 2585);
        reads_back(&line);
    }

    #[test]
    fn the_greatest_delay_is_met() {
        let line = greatest_delay(LAST - 1);
        reads_back(&line);
        let best = solve(&line).best.expect("a timetable");
        assert_eq!(weighted_delay(&line, &best), 12 * 99 * 2879);
    }

    #[test]
    fn saturdays_have_every_kind_of_due() {
        let mut random = Random::new(242);
        let (mut before, mut after, mut free, mut first, mut last) = (0, 0, 0, 0, 0);
        for style in Style::ALL.into_iter().cycle().take(1000) {
            let line = due_saturday(&mut random, style);
            reads_back(&line);
            for due in line.used_dues() {
                let arrival = free_arrival(&line, usize::from(due.train) - 1);
                before += usize::from(u32::from(due.minute) < arrival);
                free += usize::from(u32::from(due.minute) == arrival);
                after += usize::from(u32::from(due.minute) > arrival);
                first += usize::from(due.minute == 0);
                last += usize::from(due.minute == LAST);
            }
        }
        let all = [before, after, free, first, last];
        println!("before, after, free, first, last: {all:?}");
        assert!(all.iter().all(|&times| times >= 200));
    }
}
