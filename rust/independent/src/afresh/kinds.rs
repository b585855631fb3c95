//! What plans of a walk are or do that mistakes in a carried sum could hide behind, and the count of it.

use super::carried::Rise;

/// Something that a plan is, or that its last choice did to the sum.
#[derive(Clone, Copy, Debug, PartialEq, Eq)]
pub enum PlanKind {
    /// It has no least minutes up to 2,879.
    WithoutMinutes,
    /// It breaks rule 13.
    AfterLatest,
    /// It costs more than the best so far.
    Dearer,
    /// It costs as much as the best so far, and its departures are not earlier.
    NotEarlier,
    /// It is the plan without choices, and it costs something.
    FirstCosts,
    /// A train with a weight that was early has become late.
    Overdue,
    /// The same, and the plan ends there.
    OverdueAtTheEnd,
    /// The same train has become late in another way out of the same conflict before.
    OverdueAgain,
    /// A train with a weight arrives later and is not late all the same.
    LaterInTime,
    /// A train leaves a station later and arrives at its last one when it did.
    OnTheWay,
    /// Two trains or more cost more than before.
    SeveralCost,
    /// It costs as much as before, though a departure is later.
    CostsNoMore,
    /// Another way out of the same conflict, taken up before, costs more than the plan with that conflict: the
    /// sum had to be put back.
    PutBack,
}

impl PlanKind {
    /// All of them.
    pub const ALL: [PlanKind; 13] = [
        PlanKind::WithoutMinutes,
        PlanKind::AfterLatest,
        PlanKind::Dearer,
        PlanKind::NotEarlier,
        PlanKind::FirstCosts,
        PlanKind::Overdue,
        PlanKind::OverdueAtTheEnd,
        PlanKind::OverdueAgain,
        PlanKind::LaterInTime,
        PlanKind::OnTheWay,
        PlanKind::SeveralCost,
        PlanKind::CostsNoMore,
        PlanKind::PutBack,
    ];
}

/// How many plans were of each kind.
#[derive(Clone, Copy, Debug, Default, PartialEq, Eq)]
pub struct PlanKinds {
    /// By the place of the kind in [`PlanKind::ALL`].
    times: [u64; PlanKind::ALL.len()],
}

impl PlanKinds {
    /// How many were of this kind.
    pub fn of(&self, kind: PlanKind) -> u64 {
        self.times[kind as usize]
    }

    /// Adds those of another walk.
    pub fn add(&mut self, other: &PlanKinds) {
        for (times, others) in self.times.iter_mut().zip(other.times) {
            *times += others;
        }
    }

    pub(super) fn count(&mut self, kind: PlanKind) {
        self.times[kind as usize] += 1;
    }

    fn count_if(&mut self, kind: PlanKind, so: bool) {
        self.times[kind as usize] += u64::from(so);
    }

    /// Counts what the last choice of a plan did, and whether the plan ends there.
    pub(super) fn count_rise(&mut self, rise: &Rise, ends: bool) {
        let overdue = !rise.overdue.is_empty();
        self.count_if(PlanKind::Overdue, overdue);
        self.count_if(PlanKind::OverdueAtTheEnd, overdue && ends);
        self.count_if(PlanKind::LaterInTime, rise.in_time);
        self.count_if(PlanKind::OnTheWay, rise.on_the_way);
        self.count_if(PlanKind::SeveralCost, rise.costs > 1);
        self.count_if(PlanKind::CostsNoMore, rise.costs == 0);
    }

    /// Counts what it did beside what the ways out of the same conflict did that were taken up before.
    pub(super) fn count_beside(&mut self, rise: &Rise, before: &[Rise]) {
        let again = |train| before.iter().any(|other| other.overdue.contains(train));
        self.count_if(PlanKind::OverdueAgain, rise.overdue.iter().any(again));
        let put_back = before.iter().any(|other| other.costs > 0);
        self.count_if(PlanKind::PutBack, put_back);
    }
}
