//! Random lines with lawful timetables.

use independent::rules::{first_breach, Minutes};
use independent::{exhaustive, Kind, Limits, Line, Segment, Train, STATIONS, TRAINS};

use crate::parts::{of_size, unbooked_arrival, used_parts, used_runs_and_stops};
use crate::Random;

/// The last minute of a timetable.
const LAST: u16 = Limits::MINUTE.most;

/// A line with a lawful timetable of it.
#[derive(Clone, Copy, Debug)]
pub struct Planned {
    /// The line, within the limits.
    pub line: Line,
    /// Minutes that keep every rule, unless a test puts in others.
    pub minutes: Minutes,
}

/// A line file and a timetable, both perhaps damaged.
#[derive(Clone, Debug, PartialEq, Eq)]
pub struct Pair {
    /// The line file.
    pub file: Vec<u8>,
    /// The timetable.
    pub timetable: Vec<u8>,
}

impl Planned {
    /// The two texts.
    pub fn pair(&self) -> Pair {
        Pair {
            file: independent::write(&self.line).expect("a line within the limits"),
            timetable: independent::timetable::write(&self.line, &self.minutes),
        }
    }
}

/// How the trains of a planned line run.
#[derive(Clone, Copy, Debug, PartialEq, Eq)]
pub enum Traffic {
    /// Over some of the line each, at any time.
    Mixed,
    /// Over the whole line each, all of them soon after each other, all minutes of four digits.
    Full,
}

/// A random line of this size with a lawful timetable. Trains are sent one after another in their
/// numbers' order, each leg at the first minute that suits those sent before, some with waits. Gaps,
/// latest arrivals and tracks are then often just kept.
pub fn planned(random: &mut Random, stations: u16, trains: u16, traffic: Traffic) -> Planned {
    loop {
        let mut planned = Planned {
            line: roomy_line(random, stations, trains, traffic),
            minutes: Minutes::default(),
        };
        if (0..usize::from(trains)).all(|number| send(random, &mut planned, number)) {
            make_tight(random, &mut planned);
            return planned;
        }
    }
}

/// A planned line of the greatest size, with a timetable near the longest: for benchmarks.
pub fn full_size_planned(random: &mut Random) -> Planned {
    planned(random, STATIONS as u16, TRAINS as u16, Traffic::Full)
}

/// A line whose trains fit into the day even if each waits for the one before to be through.
fn roomy_line(random: &mut Random, stations: u16, train_count: u16, traffic: Traffic) -> Line {
    let mut line = of_size(stations, train_count);
    let (tracks, segments, trains) = used_parts(&mut line);
    let widest_gap = random.one_of(&[2, 6, 20, 60]);
    let kinds = random.one_of(&[
        &[Kind::S, Kind::F, Kind::D][..],
        &[Kind::S],
        &[Kind::F],
        &[Kind::D],
        &[Kind::D, Kind::D, Kind::F],
    ]);
    tracks.fill_with(|| random.within(1, 4));
    segments.fill_with(|| Segment {
        kind: random.one_of(kinds),
        following: random.within(1, widest_gap),
        opposing: random.within(1, widest_gap),
    });
    trains.fill_with(|| roomy_train(random, stations, train_count, traffic));
    line
}

fn roomy_train(random: &mut Random, stations: u16, trains: u16, traffic: Traffic) -> Train {
    let (origin, destination) = match traffic {
        Traffic::Mixed => crate::path(random, stations, crate::Density::Dense),
        Traffic::Full => random.one_of(&[(1, stations), (stations, 1)]),
    };
    let earliest = match traffic {
        Traffic::Mixed => random.within(0, 300),
        Traffic::Full => random.within(1000, 1200),
    };
    let mut train = Train {
        origin,
        destination,
        earliest,
        latest: LAST,
        weight: random.one_of(&[0, 1, 2, 9, 10, 99]),
        ..Train::default()
    };
    let (runs, stops) = used_runs_and_stops(&mut train);
    // What each leg may take, with a gap of 60 minutes before the next train.
    let each = (2000 / trains - 60) / runs.len() as u16;
    runs.fill_with(|| random.within(1, (each * 2 / 3).min(Limits::RUN.most)));
    stops.fill_with(|| {
        let some = random.within(0, (each / 3).min(Limits::STOP.most));
        random.one_of(&[0, some])
    });
    train
}

/// Sends the train through, at first soon after its earliest, then later and later.
fn send(random: &mut Random, planned: &mut Planned, number: usize) -> bool {
    let earliest = planned.line.trains[number].earliest;
    let soon = (0..6).map(|attempt| 30 * attempt * attempt);
    let starts: Vec<u16> = soon
        .map(|wait| earliest + random.within(0, wait))
        .chain([after_all(planned, number).max(earliest)])
        .collect();
    starts.iter().any(|&start| {
        let sent = send_from(random, planned, number, start);
        if let Some(minutes) = sent {
            planned.minutes = minutes;
        }
        sent.is_some()
    })
}

/// A minute when every train sent before has been through for longer than any gap.
fn after_all(planned: &Planned, number: usize) -> u16 {
    let arrivals = planned.minutes.arrivals.iter();
    let last = arrivals.flat_map(|row| &row[..number]).max();
    last.map_or(0, |last| last + Limits::GAP.most + 1)
}

/// Sends the train leg by leg, each one at the first lawful minute after a wait, if there is one.
fn send_from(random: &mut Random, planned: &Planned, number: usize, start: u16) -> Option<Minutes> {
    let train = planned.line.trains[number];
    let mut minutes = planned.minutes;
    let mut ready = start;
    for leg in 0..train.legs() {
        // Only the trains up to this one, and it only as far as this leg, are judged.
        let mut so_far = planned.line;
        so_far.train_count = number as u16 + 1;
        so_far.trains[number].destination = match train.outbound() {
            true => train.origin + leg as u16 + 1,
            false => train.origin - leg as u16 - 1,
        };
        let (segment, run) = (train.segment(leg), train.runs[leg]);
        let some = random.within(0, 9);
        let wait = random.one_of(&[0, 0, 0, some]);
        let departure = (ready + wait..=ready + wait + 200).find(|&departure| {
            minutes.departures[segment][number] = departure;
            minutes.arrivals[segment][number] = departure + run;
            departure + run <= LAST && first_breach(&so_far, &minutes).is_ok()
        })?;
        ready = departure + run + train.stops[leg];
    }
    Some(minutes)
}

/// Draws latest arrivals to the last ones and tracks to those needed, here and there.
fn make_tight(random: &mut Random, planned: &mut Planned) {
    let Planned { line, minutes } = planned;
    let rows = minutes.rows(line);
    for (train, row) in line.trains.iter_mut().zip(&rows) {
        let last = row[row.len() - 1];
        let soon = (last + random.within(0, 9)).min(LAST);
        train.latest = random.one_of(&[last, soon, LAST]);
    }
    for station in 0..usize::from(line.station_count) {
        if random.below(4) > 0 {
            let lawful_with = |&tracks: &u16| {
                let mut line = *line;
                line.tracks[station] = tracks;
                first_breach(&line, minutes).is_ok()
            };
            line.tracks[station] = (1..=12).find(lawful_with).expect("it was lawful before");
        }
    }
}

/// A random small line: few stations and trains, short times, latest arrivals near what is possible.
/// It may have no timetable, several of the least delay, or trains of weight 0.
pub fn small_line(random: &mut Random, stations: u16, trains: u16) -> Line {
    let mut line = of_size(stations, trains);
    let (tracks, segments, trains) = used_parts(&mut line);
    tracks.fill_with(|| random.within(1, 2));
    segments.fill_with(|| Segment {
        kind: random.one_of(&[Kind::S, Kind::F, Kind::D]),
        following: random.within(1, 3),
        opposing: random.within(1, 3),
    });
    trains.fill_with(|| small_train(random, stations));
    line
}

fn small_train(random: &mut Random, stations: u16) -> Train {
    let (origin, destination) = crate::path(random, stations, crate::Density::Dense);
    let mut train = Train {
        origin,
        destination,
        earliest: random.within(0, 3),
        weight: random.within(0, 3),
        ..Train::default()
    };
    let (runs, stops) = used_runs_and_stops(&mut train);
    runs.fill_with(|| random.within(1, 3));
    stops.fill_with(|| random.one_of(&[0, 0, 1, 2]));
    let spare = random.one_of(&[0, 1, 2, 3, 4, 5, 6, 7]);
    train.latest = unbooked_arrival(&train) + spare;
    train
}

/// A small line with the best of its timetables, found by trying every order.
pub fn small_planned(random: &mut Random) -> Planned {
    loop {
        let (stations, trains) = (random.within(2, 4), random.within(1, 3));
        let line = small_line(random, stations, trains);
        if let Ok(Some(minutes)) = exhaustive::best(&line, 100_000) {
            return Planned { line, minutes };
        }
    }
}

/// Holds that the file reads as the line, and that the check passes the timetable.
#[cfg(test)]
pub(crate) fn passes_the_check(planned: &Planned) {
    let pair = planned.pair();
    assert_eq!(independent::read(&pair.file), Ok(planned.line));
    assert_eq!(independent::check(&pair.file, &pair.timetable), Ok(()));
}

#[cfg(test)]
mod tests {
    use super::*;

    #[test]
    fn planned_lines_of_every_size_pass_the_check() {
        let mut random = Random::new(20);
        for (stations, trains) in crate::sizes() {
            for traffic in [Traffic::Mixed, Traffic::Full] {
                passes_the_check(&planned(&mut random, stations, trains, traffic));
            }
        }
    }

    #[test]
    fn small_planned_lines_pass_the_check() {
        let mut random = Random::new(21);
        for _ in 0..2000 {
            passes_the_check(&small_planned(&mut random));
        }
    }

    #[test]
    fn the_full_size_timetable_has_minutes_of_four_digits() {
        let planned = full_size_planned(&mut Random::new(22));
        let rows = planned.minutes.rows(&planned.line);
        assert_eq!(rows.iter().map(Vec::len).sum::<usize>(), 12 * 22);
        assert!(rows.iter().flatten().all(|&minute| minute >= 1000));
        // 1,686 is the most; only all kinds D and the highest totals come to it.
        assert!(planned.pair().timetable.len() >= 1650);
    }
}
