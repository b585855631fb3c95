//! What the dues of a line do to it that a planner's mistakes could hide behind, and the count of it.

use independent::rules::{free_arrival, last_arrival, weighted_delay, Minutes};
use independent::walk::solve_within;
use independent::{Limits, Line, SEGMENTS};

use crate::corners::{has_a_tie, PLANS};
use crate::parts::put_dues;
use crate::tally::Tally;
use crate::LineWalk;

/// Something that the dues of a line do.
#[derive(Clone, Copy, Debug, PartialEq, Eq)]
pub enum DueCorner {
    /// A train is due before its free arrival.
    Before,
    /// A train is listed as due at its free arrival.
    Free,
    /// A train is due after its free arrival.
    After,
    /// Every train is due at minute 0.
    AllFirstMinute,
    /// A train is due at 2,879.
    LastMinute,
    /// A train of weight 0 is listed.
    ZeroWeight,
    /// Some trains are listed and some are not.
    Some,
    /// A train that is listed has a booking after minute 0.
    Booked,
    /// There would be a weighted delay with every train at its free arrival.
    FirstPlanCosts,
    /// In the best timetable a train is early and another is late, both with a weight.
    EarlyAndLate,
    /// In the best timetable a train is in after its free arrival and not late.
    LaterInTime,
    /// Without the dues the best timetable is another.
    Move,
    /// The best timetable would be another, of the same weighted delay, were the trains numbered the other
    /// way round.
    Tie,
    /// The same, and that weighted delay is 0.
    TieWithoutDelay,
    /// The same, and it is above 0.
    TieWithDelay,
    /// There is no timetable.
    NoTimetable,
}

impl DueCorner {
    /// All of them.
    pub const ALL: [DueCorner; 16] = [
        DueCorner::Before,
        DueCorner::Free,
        DueCorner::After,
        DueCorner::AllFirstMinute,
        DueCorner::LastMinute,
        DueCorner::ZeroWeight,
        DueCorner::Some,
        DueCorner::Booked,
        DueCorner::FirstPlanCosts,
        DueCorner::EarlyAndLate,
        DueCorner::LaterInTime,
        DueCorner::Move,
        DueCorner::Tie,
        DueCorner::TieWithoutDelay,
        DueCorner::TieWithDelay,
        DueCorner::NoTimetable,
    ];

    /// Whether that is so of a line with dues.
    fn is_of(self, known: &Known) -> bool {
        let Known { line, best, .. } = known;
        let last = u32::from(Limits::MINUTE.most);
        match self {
            DueCorner::Before => known.any_due(|minute, free| minute < free),
            DueCorner::Free => known.any_due(|minute, free| minute == free),
            DueCorner::After => known.any_due(|minute, free| minute > free),
            DueCorner::AllFirstMinute => {
                (0..line.used_trains().len()).all(|i| line.listed_due(i) == Some(0))
            }
            DueCorner::LastMinute => known.any_due(|minute, _| minute == last),
            DueCorner::ZeroWeight => known.any_listed(|i| line.trains[i].weight == 0),
            DueCorner::Some => line.due_count < line.train_count,
            DueCorner::Booked => known.any_listed(|i| line.floors(i) != [0; SEGMENTS]),
            DueCorner::FirstPlanCosts => known.any_listed(|i| {
                line.trains[i].weight > 0 && line.due_minute(i) < free_arrival(line, i)
            }),
            DueCorner::EarlyAndLate => {
                known.any_in(|arrival, due, _| arrival < due)
                    && known.any_in(|arrival, due, _| arrival > due)
            }
            DueCorner::LaterInTime => {
                known.any_in(|arrival, due, free| free < arrival && arrival <= due)
            }
            DueCorner::Move => known.moves,
            DueCorner::Tie => known.tie,
            DueCorner::TieWithoutDelay => known.tie && known.delay() == 0,
            DueCorner::TieWithDelay => known.tie && known.delay() > 0,
            DueCorner::NoTimetable => best.is_none(),
        }
    }
}

/// A line with dues, its best timetable, and what was found out about that.
struct Known<'a> {
    line: &'a Line,
    best: Option<&'a Minutes>,
    /// Whether there is a tie.
    tie: bool,
    /// Whether it is another without the dues.
    moves: bool,
}

impl Known<'_> {
    /// The weighted delay of the best timetable; 0 where there is none.
    fn delay(&self) -> u32 {
        self.best.map_or(0, |best| weighted_delay(self.line, best))
    }

    /// Whether `hold` holds of the number, from 0, of a train that is listed.
    fn any_listed(&self, hold: impl Fn(usize) -> bool) -> bool {
        let mut dues = self.line.used_dues().iter();
        dues.any(|due| hold(usize::from(due.train) - 1))
    }

    /// Whether `hold` holds of a listed minute and the free arrival of its train.
    fn any_due(&self, hold: impl Fn(u32, u32) -> bool) -> bool {
        self.any_listed(|i| hold(self.line.due_minute(i), free_arrival(self.line, i)))
    }

    /// Whether `hold` holds of the last arrival, the due minute and the free arrival of a train with a weight
    /// in the best timetable.
    fn any_in(&self, hold: impl Fn(u32, u32, u32) -> bool) -> bool {
        let line = self.line;
        let mut trains = line.used_trains().iter().enumerate();
        self.best.is_some_and(|best| {
            trains.any(|(i, train)| {
                let arrival = u32::from(last_arrival(best, i, train));
                train.weight > 0 && hold(arrival, line.due_minute(i), free_arrival(line, i))
            })
        })
    }
}

/// How many lines with dues there were, and of how many each corner is.
#[derive(Default)]
pub struct DueCorners {
    tally: Tally<{ DueCorner::ALL.len() }>,
    lines: usize,
    ties: usize,
}

impl DueCorners {
    /// Counts a line, of which `best` is the best timetable, if it has dues.
    pub fn count(&mut self, line: &Line, best: Option<&Minutes>) {
        if line.due_count == 0 {
            return;
        }
        let mut without = *line;
        put_dues(&mut without, &[]);
        let moves = solve_within(&without, PLANS).is_ok_and(|found| found.best.as_ref() != best);
        let known = Known {
            line,
            best,
            tie: best.is_some_and(|best| has_a_tie(line, best)),
            moves,
        };
        self.lines += 1;
        self.ties += usize::from(known.tie);
        self.tally
            .count(DueCorner::ALL.map(|corner| corner.is_of(&known)));
    }

    /// Counts the lines of walks as they are used.
    pub fn counting<'a>(
        &'a mut self,
        walks: impl Iterator<Item = LineWalk> + 'a,
    ) -> impl Iterator<Item = LineWalk> + 'a {
        walks.inspect(|walk| self.count(&walk.line, walk.walked.best.as_ref()))
    }

    /// Prints the counts, and holds that each corner was seen at least so often.
    pub fn ends(&self, name: &str, least: usize) {
        self.tally.ends(name, DueCorner::ALL, least);
    }

    /// Holds that at least half of the lines have a tie.
    pub fn half_are_ties(&self) {
        let DueCorners { lines, ties, .. } = self;
        println!("{ties} ties on {lines} lines");
        assert!(2 * ties >= *lines, "too few ties");
    }
}
