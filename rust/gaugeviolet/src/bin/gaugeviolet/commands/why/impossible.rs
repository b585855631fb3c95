//! Trains that have no timetable: those that cannot be in time even alone, and of the others a set that
//! has none by itself, such that without any one of them there is one.
//!
//! The set is found by leaving out one train after another: where the rest still has no timetable, the
//! train stays out. Every answer comes from the library's planning of a line file with fewer trains.

use std::time::{Duration, Instant};

use gaugeviolet::{counted, time_of_day, Line};

use crate::planning;

/// What was found, all trains by number.
pub struct Impossible<'a> {
    line: &'a Line,
    /// Trains that cannot be in time even alone.
    alone: Vec<u32>,
    others: Others,
    within: Duration,
}

/// What is known of the other trains.
enum Others {
    /// They have a timetable together.
    Possible,
    /// Whether they have one was not known in time.
    Unknown,
    /// A set that has no timetable, and those of its trains of which it was not known in time whether
    /// the rest has one.
    Set { trains: Vec<u32>, untried: Vec<u32> },
}

/// The trains of a line that cannot be in time even alone. One train is planned at once.
pub fn alone(line: &Line) -> Vec<u32> {
    let all = 1..=line.trains().len() as u32;
    all.filter(|&train| planning::best(line.with_trains(&[train]).file()).is_err())
        .collect()
}

impl Impossible<'_> {
    /// Looks at the other trains of a line that has no timetable, for so long.
    pub fn find(line: &Line, alone: Vec<u32>, within: Duration) -> Impossible<'_> {
        let search = Search {
            line,
            end: Instant::now() + within,
        };
        let all = 1..=line.trains().len() as u32;
        let others: Vec<u32> = all.filter(|train| !alone.contains(train)).collect();
        let possible = match alone.is_empty() {
            true => Some(false),
            // All else depends on this, so it may take all of the time.
            false => search.possible(&others, 1),
        };
        let others = match possible {
            Some(true) => Others::Possible,
            None => Others::Unknown,
            Some(false) => search.smallest(others),
        };
        Impossible {
            line,
            alone,
            others,
            within,
        }
    }

    /// All of it in words.
    pub fn in_words(&self) -> String {
        let mut words = String::from("no timetable keeps every rule\n");
        for &train in &self.alone {
            words += &format!(
                "\ntrain {train} cannot be in time even alone:\n{}",
                self.row(train)
            );
        }
        words += &match &self.others {
            Others::Possible => "\nwithout such trains there is a timetable\n".to_string(),
            Others::Unknown => format!(
                "\nwhether there is a timetable without such trains was not known within {}\n",
                self.limit()
            ),
            Others::Set { trains, untried } => self.set_in_words(trains, untried),
        };
        words
    }

    fn set_in_words(&self, trains: &[u32], untried: &[u32]) -> String {
        let others = if self.alone.is_empty() {
            ""
        } else {
            "of the others, "
        };
        let mut words = format!(
            "\n{others}these {} have no timetable together",
            counted(trains.len() as u32, "train")
        );
        words += match untried {
            [] => ", and without any one of them there is one:\n",
            _ => ":\n",
        };
        words.extend(trains.iter().map(|&train| self.row(train)));
        if !untried.is_empty() {
            let numbers: Vec<String> = untried.iter().map(u32::to_string).collect();
            words += &format!(
                "cut short: whether they have one without train {} was not known within {}\n",
                numbers.join(" or without train "),
                self.limit()
            );
        }
        words
    }

    fn limit(&self) -> String {
        counted(self.within.as_secs() as u32, "second")
    }

    fn row(&self, number: u32) -> String {
        let train = self.line.train(number);
        format!(
            "  train {number}: station {} to station {}, departs {} or later, alone it arrives {}{}, \
             latest {}\n",
            train.origin,
            train.destination,
            time_of_day(train.earliest),
            time_of_day(self.line.free_arrival(number)),
            self.bookings(number),
            time_of_day(train.latest)
        )
    }

    /// What is said of a train's bookings, if it has any.
    fn bookings(&self, number: u32) -> String {
        let own = self.line.bookings().iter().filter(|it| it.train == number);
        let own = own.map(|it| format!("station {} at {}", it.station, time_of_day(it.minute)));
        match &own.collect::<Vec<String>>()[..] {
            [] => String::new(),
            own => format!(" (booked to leave {})", own.join(", ")),
        }
    }
}

/// Plans the line with some of its trains, up to an end.
struct Search<'a> {
    line: &'a Line,
    end: Instant,
}

impl Search<'_> {
    /// Whether these trains have a timetable together, if that is known in this trial's share of the
    /// time that is left. What a short trial leaves over, the later ones have.
    fn possible(&self, trains: &[u32], trials_left: usize) -> Option<bool> {
        let left = self.end.saturating_duration_since(Instant::now());
        let share = left / trials_left as u32;
        if share.is_zero() {
            return None;
        }
        let doing = format!("planning {} of the trains", trains.len());
        let file = self.line.with_trains(trains);
        let planned = planning::best_within(file.file(), &doing, share)?;
        Some(planned.is_ok())
    }

    /// Leaves out one train after another of a set that has no timetable. Where a trial was cut short and
    /// time is left after the others, it is tried again: among fewer trains it is shorter.
    fn smallest(&self, mut trains: Vec<u32>) -> Others {
        let mut untried = trains.clone();
        while !untried.is_empty() && Instant::now() < self.end {
            untried = self.round(&mut trains, &untried);
        }
        Others::Set { trains, untried }
    }

    /// Leaves out each of some trains of the set, and gives those of which it was not known in time whether
    /// the rest has a timetable.
    fn round(&self, trains: &mut Vec<u32>, tried: &[u32]) -> Vec<u32> {
        let mut untried = Vec::new();
        for (at, &train) in tried.iter().enumerate() {
            let mut rest = trains.clone();
            rest.retain(|&other| other != train);
            match self.possible(&rest, tried.len() - at) {
                Some(true) => {}
                Some(false) => *trains = rest,
                None => untried.push(train),
            }
        }
        untried
    }
}
