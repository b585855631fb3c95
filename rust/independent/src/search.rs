//! The best timetable of a line by a search through plans that looks at every conflict of a plan.
//!
//! It goes from plan to plan as the walk does, and chooses what it goes on with. A way out of a conflict
//! is alive where it can be raised in time and within the delay of the best so far. Any other leads to
//! nothing better, now or later, so a conflict without a way alive ends the plan, and one with a single
//! way alive forces that choice. Where every conflict has two or more, the plan is split at the first
//! conflict of the highest score, and the cheaper way is taken up first. The score is (1 + least rise) ·
//! (1 + second least rise) / (ways alive − 1), where a rise is that of the weighted delay.
//!
//! The conflicts of a plan are every two trains in conflict on every segment, then at every station its
//! earliest crowd. Plans that are taken up are counted, and ways that were only raised to see are not.

use std::ops::ControlFlow;

use crate::plans::{plan_by, Found, PlanLimit, Plans, Way};
use crate::tables::{each, Trains};
use crate::{Line, Refusal};

/// The text of the best timetable of a line file, or the number of its refusal.
pub fn plan_by_search(file: &[u8]) -> Result<Vec<u8>, Refusal> {
    plan_by(file, search)
}

/// The whole search of a line within the limits.
pub fn search(line: &Line) -> Found {
    search_within(line, u64::MAX).expect("no search is that long")
}

/// The whole search, if it takes up no more than `limit` plans.
pub fn search_within(line: &Line, limit: u64) -> Result<Found, PlanLimit> {
    let mut search = Search {
        plans: Plans::new(line, limit),
        ways: Vec::new(),
    };
    search.plans.count()?;
    if search.plans.in_time() {
        search.go_on(Suspects::ALL)?;
    }
    Ok(search.plans.found(line))
}

/// Where a plan may have a conflict: bit p for segment p, bit s for the station behind segment s - 1. It
/// has none anywhere else.
#[derive(Clone, Copy)]
struct Suspects {
    segments: u16,
    stations: u16,
}

impl Suspects {
    const ALL: Suspects = Suspects {
        segments: u16::MAX,
        stations: u16::MAX,
    };

    /// And those of segments where departures have changed, with the stations at their ends.
    fn and(self, changed: u16) -> Suspects {
        Suspects {
            segments: self.segments | changed,
            stations: self.stations | changed | changed << 1,
        }
    }
}

/// A way out that is alive.
#[derive(Clone, Copy)]
struct Alive {
    way: Way,
    /// By how much it raises the weighted delay.
    rise: u32,
}

/// How much it costs to go on from a conflict: the product of the two least rises, each with 1 added, to
/// be divided by the number of ways less 1.
#[derive(Clone, Copy)]
struct Score {
    product: u64,
    divisor: u64,
}

impl Score {
    /// Below every conflict's.
    const LOWEST: Score = Score {
        product: 0,
        divisor: 1,
    };

    fn of(ways: &[Alive]) -> Score {
        let (mut least, mut second) = (u32::MAX, u32::MAX);
        for &Alive { rise, .. } in ways {
            if rise < least {
                (least, second) = (rise, least);
            } else if rise < second {
                second = rise;
            }
        }
        Score {
            product: (1 + u64::from(least)) * (1 + u64::from(second)),
            divisor: ways.len() as u64 - 1,
        }
    }

    fn is_above(self, other: Score) -> bool {
        self.product * other.divisor > other.product * self.divisor
    }
}

struct Search {
    plans: Plans,
    /// The ways out that are to be taken up, those of the present plan at the end.
    ways: Vec<Alive>,
}

/// Whether to look at more conflicts. Not where one has a single way alive, which it comes with, or
/// none.
type Looking<T> = ControlFlow<Option<Way>, T>;

impl Search {
    /// Goes on with a plan that has least minutes in time: ends it, or keeps it as the best, or takes up
    /// the next ones.
    fn go_on(&mut self, mut suspects: Suspects) -> Result<(), PlanLimit> {
        if !self.plans.better() {
            return Ok(());
        }
        let start = self.ways.len();
        let ended = match self.look(start, &mut suspects) {
            Looking::Break(None) => Ok(()),
            Looking::Break(Some(way)) => self.take_up(way, suspects),
            Looking::Continue(()) => self.take_up_all(start, suspects),
        };
        self.ways.truncate(start);
        ended
    }

    /// Takes up the ways from `start` on, the cheaper first. Without any there is no conflict, and the
    /// plan becomes the best so far.
    fn take_up_all(&mut self, start: usize, suspects: Suspects) -> Result<(), PlanLimit> {
        let end = self.ways.len();
        if start == end {
            self.plans.keep();
        }
        self.ways[start..].sort_by_key(|alive| alive.rise);
        for at in start..end {
            self.take_up(self.ways[at].way, suspects)?;
        }
        Ok(())
    }

    /// Takes up the present plan with one more choice, if that is still alive: the best may be another
    /// by now. Afterwards the plan is the present one again.
    fn take_up(&mut self, way: Way, suspects: Suspects) -> Result<(), PlanLimit> {
        let mark = self.plans.mark();
        let mut ended = Ok(());
        if self.plans.raise_by(way) {
            self.plans.count()?;
            self.plans.choose(way);
            ended = self.go_on(suspects.and(self.plans.changed(mark)));
            self.plans.give_up(way);
        }
        self.plans.put_back(mark);
        ended
    }

    /// Looks at every conflict, until one leaves no choice. The ways out of that with the highest score
    /// are then those from `start` on. What has no conflict is no longer suspected.
    fn look(&mut self, start: usize, suspects: &mut Suspects) -> Looking<()> {
        let mut highest = Score::LOWEST;
        for p in 0..self.plans.tables.segment_count {
            if suspects.segments >> p & 1 == 0 {
                continue;
            }
            match self.plans.in_conflict(p) {
                0 => suspects.segments &= !(1 << p),
                trains => highest = self.look_at_segment(p, trains, highest, start)?,
            }
        }
        for at in 0..self.plans.tables.stations.len() {
            let number = self.plans.tables.stations[at].number();
            if suspects.stations >> number & 1 == 0 {
                continue;
            }
            match self.plans.crowd(at) {
                None => suspects.stations &= !(1 << number),
                Some(trains) => highest = self.look_at_station(at, trains, highest, start)?,
            }
        }
        Looking::Continue(())
    }

    /// Looks at every two of these trains that are in conflict on a segment.
    fn look_at_segment(
        &mut self,
        p: usize,
        trains: Trains,
        mut highest: Score,
        start: usize,
    ) -> Looking<Score> {
        for low in each(trains) {
            for high in each(self.plans.in_conflict_above(p, low)) {
                let ways = self.ways.len();
                self.try_way(self.plans.order(p, low, high));
                self.try_way(self.plans.order(p, high, low));
                highest = self.weigh(highest, start, ways)?;
            }
        }
        Looking::Continue(highest)
    }

    /// Looks at the crowd of these trains at a station.
    fn look_at_station(
        &mut self,
        at: usize,
        trains: Trains,
        highest: Score,
        start: usize,
    ) -> Looking<Score> {
        let ways = self.ways.len();
        for first in each(trains) {
            for second in each(trains & !(1 << first)) {
                self.try_way(self.plans.turn(at, first, second));
            }
        }
        self.weigh(highest, start, ways)
    }

    /// Raises what follows from a way, puts it back, and keeps the way if it is alive.
    fn try_way(&mut self, way: Way) {
        let mark = self.plans.mark();
        let alive = self.plans.raise_by(way);
        let rise = self.plans.rise_since(mark);
        self.plans.put_back(mark);
        if alive {
            self.ways.push(Alive { way, rise });
        }
    }

    /// Keeps the ways from `ways` on if their conflict has a score above the highest so far, of which
    /// the ways are those from `start` on; otherwise those. The highest score now.
    fn weigh(&mut self, highest: Score, start: usize, ways: usize) -> Looking<Score> {
        match self.ways[ways..] {
            [] => return Looking::Break(None),
            [only] => return Looking::Break(Some(only.way)),
            _ => {}
        }
        let score = Score::of(&self.ways[ways..]);
        if score.is_above(highest) {
            self.ways.drain(start..ways);
            Looking::Continue(score)
        } else {
            self.ways.truncate(ways);
            Looking::Continue(highest)
        }
    }
}
