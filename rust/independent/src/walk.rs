//! The best timetable of a line by walking through plans, and how many plans that takes.
//!
//! The walk is depth first from the plan without choices. A plan ends where it has no least minutes,
//! breaks rule 13, or is not better than the best so far by weighted delay and then by departures. One
//! without a conflict becomes the best so far. Any other is split at its lowest conflict, and each way
//! out of that is the next plan. Those without least minutes are counted too.

use crate::plans::{plan_by, Found, Mark, PlanLimit, Plans, Way};
use crate::tables::{each, Trains};
use crate::{Line, Refusal};

/// The text of the best timetable of a line file, or the number of its refusal.
pub fn plan_by_walk(file: &[u8]) -> Result<Vec<u8>, Refusal> {
    plan_by(file, solve)
}

/// The whole walk of a line within the limits.
pub fn solve(line: &Line) -> Found {
    solve_within(line, u64::MAX).expect("no walk is that long")
}

/// The whole walk, if it takes up no more than `limit` plans.
pub fn solve_within(line: &Line, limit: u64) -> Result<Found, PlanLimit> {
    let mut plans = Plans::new(line, limit);
    plans.count()?;
    if plans.in_time() {
        let start = plans.mark();
        go_on(&mut plans, 0, start)?;
    }
    Ok(plans.found(line))
}

/// The lowest conflict of a plan.
enum Conflict {
    /// On a segment between two trains, the lower one first.
    Segment(usize, usize, usize),
    /// At a station, by its place in the tables, among these trains.
    Station(usize, Trains),
}

/// Goes on with a plan that has least minutes in time: keeps it as the best, or splits it, or ends it.
/// The segments below `clear` had no conflict at `mark`, before the latest choice.
fn go_on(plans: &mut Plans, clear: usize, mark: Mark) -> Result<(), PlanLimit> {
    if !plans.better() {
        return Ok(());
    }
    match lowest_conflict(plans, clear, mark) {
        None => {
            plans.keep();
            Ok(())
        }
        Some(Conflict::Segment(p, low, high)) => {
            take_up(plans, plans.order(p, low, high), p)?;
            take_up(plans, plans.order(p, high, low), p)
        }
        Some(Conflict::Station(station, trains)) => {
            let clear = plans.tables.segment_count;
            for first in each(trains) {
                for second in each(trains & !(1 << first)) {
                    take_up(plans, plans.turn(station, first, second), clear)?;
                }
            }
            Ok(())
        }
    }
}

/// Takes up the present plan with one more choice; afterwards it is the present plan again.
fn take_up(plans: &mut Plans, way: Way, clear: usize) -> Result<(), PlanLimit> {
    plans.count()?;
    let mark = plans.mark();
    let mut ended = Ok(());
    if plans.raise_by(way) {
        plans.choose(way);
        ended = go_on(plans, clear, mark);
        plans.give_up(way);
    }
    plans.put_back(mark);
    ended
}

fn lowest_conflict(plans: &Plans, clear: usize, mark: Mark) -> Option<Conflict> {
    let changed = plans.changed(mark);
    for p in 0..plans.tables.segment_count {
        if p < clear && changed >> p & 1 == 0 {
            continue;
        }
        if let Some(low) = each(plans.in_conflict(p)).next() {
            let high = each(plans.in_conflict_above(p, low)).next();
            return Some(Conflict::Segment(p, low, high.expect("another train")));
        }
    }
    let crowd = |at| Some(Conflict::Station(at, plans.crowd(at)?));
    (0..plans.tables.stations.len()).find_map(crowd)
}
