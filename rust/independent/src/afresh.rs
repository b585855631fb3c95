//! The walk through plans with each plan worked out afresh. It is made to be believed, not to be fast.
//!
//! A plan is the list of its choices. Its least minutes are raised from 0 on, its weighted delay is added up
//! from them by the rules, and its lowest conflict is sought among all pairs of trains on all segments and at
//! all minutes of all stations. The walk goes from plan to plan as that of [`crate::walk`] does, and keeps
//! nothing from one plan to the next but the best so far.
//!
//! Beside it a sum is carried from plan to plan, as request K3 asks, and held to the weighted delay at each
//! plan with least minutes, also where the plan ends. What the plans have is counted, so that a test can see
//! that it met what mistakes in such a sum could hide behind.

use crate::rules::{last_arrival, weighted_delay, Minutes};
use crate::Line;

mod carried;
mod conflicts;
mod kinds;
mod least;

use carried::{Carried, Rise};
use conflicts::ways_out;
use least::least_minutes;

pub use kinds::{PlanKind, PlanKinds};

/// Where a choice is made; both count from 0.
#[derive(Clone, Copy, Debug, PartialEq, Eq)]
enum Place {
    Segment(usize),
    Station(usize),
}

/// A choice "this one first": on a segment the first train goes before the second, at a station it has left
/// before the second arrives. Trains count from 0.
#[derive(Clone, Copy, Debug, PartialEq, Eq)]
struct Choice {
    place: Place,
    first: usize,
    second: usize,
}

/// What the walk of a line found.
#[derive(Clone, Debug, PartialEq, Eq)]
pub struct Walked {
    /// The best timetable, if one keeps the rules.
    pub best: Option<Minutes>,
    /// The weighted delay of each plan that was taken up, in that order; none where it has no least minutes.
    pub delays: Vec<Option<u32>>,
    /// How many of the plans are of each kind.
    pub kinds: PlanKinds,
}

impl Walked {
    /// How many plans were taken up.
    pub fn plans(&self) -> u64 {
        self.delays.len() as u64
    }
}

/// The whole walk of a line within the limits, if it takes up no more than `limit` plans.
pub fn walk_within(line: &Line, limit: u64) -> Option<Walked> {
    let mut walk = Walk {
        line,
        limit,
        choices: Vec::new(),
        best: None,
        delays: Vec::new(),
        kinds: PlanKinds::default(),
    };
    walk.take_up(None).ok()?;
    Some(Walked {
        best: walk.best.map(|(_, minutes)| minutes),
        delays: walk.delays,
        kinds: walk.kinds,
    })
}

/// More plans would have been taken up than were allowed.
struct TooLong;

/// Weighted delay, and then the departures from train 1 up: the lesser is the better.
type Rank = (u32, Vec<u16>);

/// The choices of the present plan, and the best timetable so far with its rank.
struct Walk<'a> {
    line: &'a Line,
    limit: u64,
    choices: Vec<Choice>,
    best: Option<(Rank, Minutes)>,
    delays: Vec<Option<u32>>,
    kinds: PlanKinds,
}

impl Walk<'_> {
    /// Takes up the plan of the present choices, which has one more than the plan that `before` was carried
    /// to. What the choice did to the sum, where the plan has least minutes.
    fn take_up(&mut self, before: Option<&Carried>) -> Result<Option<Rise>, TooLong> {
        if self.delays.len() as u64 == self.limit {
            return Err(TooLong);
        }
        let least = least_minutes(self.line, &self.choices);
        let delay = least.map(|minutes| weighted_delay(self.line, &minutes));
        self.delays.push(delay);
        let (Some(minutes), Some(delay)) = (least, delay) else {
            self.kinds.count(PlanKind::WithoutMinutes);
            return Ok(None);
        };
        let carried = Carried::to(self.line, before, &minutes);
        assert_eq!(carried.sum(), delay, "after {:?}", self.choices);
        let rise = before.map(|before| carried.rise_from(self.line, before));
        let rank = (delay, minutes.departures_by_train(self.line));
        let end = self.end(&minutes, &rank);
        self.count(rise.as_ref(), end, delay);
        if end.is_none() {
            self.go_on(rank, minutes, &carried)?;
        }
        Ok(rise)
    }

    /// Why a plan with these least minutes ends, if it does.
    fn end(&self, minutes: &Minutes, rank: &Rank) -> Option<PlanKind> {
        let mut trains = self.line.used_trains().iter().enumerate();
        if trains.any(|(i, train)| last_arrival(minutes, i, train) > train.latest) {
            return Some(PlanKind::AfterLatest);
        }
        let (best, _) = self.best.as_ref()?;
        if rank < best {
            return None;
        }
        match rank.0 == best.0 {
            true => Some(PlanKind::NotEarlier),
            false => Some(PlanKind::Dearer),
        }
    }

    /// Goes on with a plan that is better than the best so far: without a conflict it becomes the best,
    /// otherwise its ways out are taken up in their order.
    fn go_on(&mut self, rank: Rank, minutes: Minutes, carried: &Carried) -> Result<(), TooLong> {
        let ways = ways_out(self.line, &minutes);
        if ways.is_empty() {
            self.best = Some((rank, minutes));
        }
        let mut taken_up = Vec::new();
        for way in ways {
            self.choices.push(way);
            let rise = self.take_up(Some(carried))?;
            self.choices.pop();
            if let Some(rise) = rise {
                self.kinds.count_beside(&rise, &taken_up);
                taken_up.push(rise);
            }
        }
        Ok(())
    }

    /// Counts a plan with least minutes.
    fn count(&mut self, rise: Option<&Rise>, end: Option<PlanKind>, delay: u32) {
        if let Some(end) = end {
            self.kinds.count(end);
        }
        match rise {
            Some(rise) => self.kinds.count_rise(rise, end.is_some()),
            None if delay > 0 => self.kinds.count(PlanKind::FirstCosts),
            None => {}
        }
    }
}
