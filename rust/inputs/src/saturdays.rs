//! Saturdays of a small railway, as its planner would type them: ordinary trains each way, and race
//! specials in bunches.

use independent::{Kind, Limits, Line, Segment, Train};

use crate::parts::{of_size, unbooked_arrival, used_parts, used_runs_and_stops};
use crate::Random;

/// What kind of a Saturday it is.
#[derive(Clone, Copy, Debug, PartialEq, Eq)]
pub enum Style {
    /// The half-day around the arrival for the races: ordinary trains start within five hours, all
    /// specials in one bunch among them.
    Peak,
    /// The same, and every train has to be in 20 to 90 minutes after its free arrival.
    PeakTight,
    /// The whole day: ordinary trains from six to nine at night, specials in a bunch before the races and
    /// in a bunch after them.
    Day,
    /// The same with latest arrivals as in [`Style::PeakTight`].
    DayTight,
}

impl Style {
    /// All of them.
    pub const ALL: [Style; 4] = [Style::Peak, Style::PeakTight, Style::Day, Style::DayTight];

    fn is_peak(self) -> bool {
        matches!(self, Style::Peak | Style::PeakTight)
    }

    fn is_tight(self) -> bool {
        matches!(self, Style::PeakTight | Style::DayTight)
    }
}

/// A Saturday of this style with 8 to 12 stations and trains.
pub fn some_saturday(random: &mut Random, style: Style) -> Line {
    let (stations, trains) = (random.within(8, 12), random.within(8, 12));
    saturday(random, stations, trains, style)
}

/// A Saturday of this size and style. There are at least 4 stations and 6 trains.
pub fn saturday(random: &mut Random, stations: u16, trains: u16, style: Style) -> Line {
    let mut line = of_size(stations, trains);
    let (tracks, segments, rows) = used_parts(&mut line);
    tracks.fill(3);
    let last = tracks.len() - 1;
    tracks[1..last].fill_with(|| random.one_of(&[1, 2, 2, 2, 3, 3]));
    let kinds = random.one_of(&[
        &[Kind::S][..],
        &[Kind::S],
        &[Kind::S, Kind::F],
        &[Kind::S, Kind::S, Kind::S, Kind::D],
        &[Kind::S, Kind::S, Kind::F],
    ]);
    segments.fill_with(|| Segment {
        kind: random.one_of(kinds),
        following: random.within(2, 5),
        opposing: random.within(2, 5),
    });
    let usual_runs = segments.iter().map(|_| random.within(5, 18)).collect();
    let mut drawn = Saturday {
        random,
        stations,
        style,
        usual_runs,
        trains: Vec::new(),
    };
    let specials = drawn.random.within(3, 6.min(trains - 3));
    drawn.add_ordinary_trains(trains - specials);
    drawn.add_specials(specials);
    if drawn.random.below(2) == 0 {
        drawn.random.shuffle(&mut drawn.trains);
    }
    rows.copy_from_slice(&drawn.trains);
    line
}

/// The trains of a Saturday, as far as they are drawn.
struct Saturday<'a> {
    random: &'a mut Random,
    stations: u16,
    style: Style,
    /// What a train usually takes on each segment.
    usual_runs: Vec<u16>,
    trains: Vec<Train>,
}

impl Saturday<'_> {
    /// Trains over the whole line, by turns one way and the other, in pairs over the hours; some of them
    /// over a part only.
    fn add_ordinary_trains(&mut self, count: u16) {
        let (first, last) = match self.style.is_peak() {
            true => (480, 780),
            false => (360, 1260),
        };
        for number in 0..count {
            let pair_start = first + (last - first) * (number / 2 * 2) / count;
            let earliest = pair_start + self.random.within(0, 40);
            let far = match self.random.below(4) {
                0 => self
                    .random
                    .within(3.max(self.stations / 2), self.stations - 1),
                _ => self.stations,
            };
            let ends = match number % 2 {
                0 => (1, far),
                _ => (far, 1),
            };
            let weight = self.random.within(1, 5);
            let extra_run = |random: &mut Random, run| run + random.within(0, 4);
            self.add(ends, earliest, weight, extra_run, &[1, 1, 2, 3]);
        }
    }

    /// Trains to the station of the races, most of them from the first station, and back to that.
    fn add_specials(&mut self, count: u16) {
        let races = self.random.within(self.stations / 2, self.stations);
        let coming = match self.style.is_peak() {
            true => count,
            false => count.div_ceil(2),
        };
        let mut earliest = 600 + self.random.within(0, 30);
        for _ in 0..coming {
            let origin = match races < self.stations && self.random.below(20) < 7 {
                true => self.stations,
                false => 1,
            };
            let weight = self.random.within(4, 10);
            self.add_special((origin, races), &mut earliest, weight);
        }
        let mut earliest = 1020 + self.random.within(0, 30);
        for _ in coming..count {
            let weight = self.random.within(3, 9);
            self.add_special((races, 1), &mut earliest, weight);
        }
    }

    /// A fast train with few stops; the next one follows some minutes later.
    fn add_special(&mut self, ends: (u16, u16), earliest: &mut u16, weight: u16) {
        let fast_run = |random: &mut Random, run| run + random.within(0, 4) - 2;
        self.add(ends, *earliest, weight, fast_run, &[0, 0, 1]);
        *earliest += self.random.one_of(&[5, 10, 10, 15, 20]);
    }

    fn add(
        &mut self,
        (origin, destination): (u16, u16),
        earliest: u16,
        weight: u16,
        own_run: impl Fn(&mut Random, u16) -> u16,
        stop_choices: &[u16],
    ) {
        let mut train = Train {
            origin,
            destination,
            earliest,
            weight,
            ..Train::default()
        };
        let segments: Vec<usize> = (0..train.legs()).map(|leg| train.segment(leg)).collect();
        let (runs, stops) = used_runs_and_stops(&mut train);
        for (run, segment) in runs.iter_mut().zip(segments) {
            *run = own_run(self.random, self.usual_runs[segment]).clamp(5, 20);
        }
        stops.fill_with(|| self.random.one_of(stop_choices));
        train.latest = self.latest(unbooked_arrival(&train));
        self.trains.push(train);
    }

    /// Where it is not tight, most trains may arrive up to the last minute.
    fn latest(&mut self, free: u16) -> u16 {
        let latest = match (self.style.is_tight(), self.random.below(10)) {
            (true, _) => free + self.random.within(20, 90),
            (false, 0..=5) => Limits::MINUTE.most,
            (false, _) => free + self.random.within(60, 240),
        };
        latest.min(Limits::MINUTE.most)
    }
}

#[cfg(test)]
mod tests {
    use super::*;
    use crate::Fields;

    /// Some Saturdays of each size from 4 stations and 6 trains up.
    fn some(style: Style, mut look: impl FnMut(&Line)) {
        let mut random = Random::new(25);
        let enough = |&(stations, trains): &(u16, u16)| stations >= 4 && trains >= 6;
        for (stations, trains) in crate::sizes().filter(enough) {
            for _ in 0..20 {
                look(&saturday(&mut random, stations, trains, style));
            }
        }
    }

    #[test]
    fn every_saturday_is_within_the_limits_and_reads_back() {
        for style in Style::ALL {
            some(style, |line| {
                assert_eq!(independent::read(&Fields::of(line).text()), Ok(*line));
            });
        }
    }

    /// The minutes from the first start to the last one.
    fn minutes_of_starts(line: &Line) -> u16 {
        let starts = || line.used_trains().iter().map(|train| train.earliest);
        let (first, last) = (starts().min(), starts().max());
        last.expect("there are trains") - first.expect("there are trains")
    }

    #[test]
    fn a_peak_is_within_five_hours_and_a_day_is_not() {
        for style in Style::ALL {
            some(style, |line| {
                assert_eq!(minutes_of_starts(line) <= 300, style.is_peak());
            });
        }
    }

    #[test]
    fn tight_ones_have_no_train_that_may_be_late_for_long() {
        for style in Style::ALL {
            let mut loose = 0;
            some(style, |line| {
                let spare = |train: &Train| train.latest - unbooked_arrival(train);
                let trains = line.used_trains().iter();
                loose += trains.filter(|train| spare(train) > 90).count();
            });
            assert_eq!(loose == 0, style.is_tight());
        }
    }
}
