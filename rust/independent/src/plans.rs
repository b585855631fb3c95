//! Plans, for the planners that go from plan to plan: choosing, raising and taking back, conflicts and
//! their ways out, and the best so far.
//!
//! A plan is a set of choices "this one first" with the least minutes that meet them and rules 10 to
//! 12 and 18. It is held as its departures alone. Only what follows from the latest choice is raised, and it
//! is put back when the choice is.

use crate::rules::{weighted_delay, Minutes};
use crate::tables::{each, event, free_departures, PerEvent, Row, Tables, Trains};
use crate::tables::{EVENTS, NONE, ROOM};
use crate::{timetable, Line, Refusal};

/// What a planner found.
#[derive(Clone, Copy, Debug, PartialEq, Eq)]
pub struct Found {
    /// The best timetable, if one keeps the rules.
    pub best: Option<Minutes>,
    /// How many plans were taken up.
    pub plans: u64,
}

/// More plans would have been taken up than were allowed.
#[derive(Clone, Copy, Debug, PartialEq, Eq)]
pub struct PlanLimit;

/// The text of the best timetable of a line file as `find` finds it, or the number of its refusal.
pub(crate) fn plan_by(file: &[u8], find: fn(&Line) -> Found) -> Result<Vec<u8>, Refusal> {
    let line = crate::read(file)?;
    match find(&line).best {
        Some(minutes) => Ok(timetable::write(&line, &minutes)),
        None => Err(Refusal::NO_TIMETABLE),
    }
}

/// A way out of a conflict: a choice that leads from one event to another and asks a minute for that.
#[derive(Clone, Copy)]
pub(crate) struct Way {
    from: u8,
    to: u8,
    /// Whether it is at a station.
    turn: bool,
    minute: i16,
}

impl Way {
    /// The train that comes second, alone in a set.
    #[inline]
    fn second(self) -> Trains {
        1 << (usize::from(self.to) % ROOM)
    }
}

/// How far raising had come.
#[derive(Clone, Copy)]
pub(crate) struct Mark {
    raised: usize,
    delay: u32,
}

/// The present plan, and the best timetable so far.
pub(crate) struct Plans {
    pub(crate) tables: Tables,
    /// The departures of the present plan.
    departures: PerEvent<i16>,
    /// Its weighted delay.
    delay: u32,
    /// By event: the trains chosen to go behind this one on its segment.
    behind: PerEvent<Trains>,
    /// By event: the trains chosen to come to the station only when this one has left it.
    after: PerEvent<Trains>,
    /// The departures that were raised, with what they were, the latest at the end.
    raised: Vec<(u8, i16)>,
    /// The departure that the latest choice starts from. Where raising comes back to it, the choices
    /// contradict each other.
    source: u8,
    /// The best departures so far, and their weighted delay; without any the greatest number.
    best: Option<PerEvent<i16>>,
    best_delay: u32,
    taken_up: u64,
    limit: u64,
}

impl Plans {
    /// The plan without choices. Each train is in at its free arrival, which may be after its due minute.
    /// No more than `limit` plans may be taken up.
    pub(crate) fn new(line: &Line, limit: u64) -> Plans {
        let departures = free_departures(line);
        Plans {
            tables: Tables::new(line),
            departures,
            delay: weighted_delay(line, &minutes(line, &departures)),
            behind: [0; EVENTS],
            after: [0; EVENTS],
            raised: Vec::new(),
            source: NONE,
            best: None,
            best_delay: u32::MAX,
            taken_up: 0,
            limit,
        }
    }

    /// What was found by now. The delay that was carried to the best is held to that of its minutes.
    pub(crate) fn found(&self, line: &Line) -> Found {
        let best = self.best.as_ref().map(|best| minutes(line, best));
        if let Some(best) = &best {
            assert_eq!(self.best_delay, weighted_delay(line, best));
        }
        Found {
            best,
            plans: self.taken_up,
        }
    }

    /// Counts a plan that is taken up.
    #[inline]
    pub(crate) fn count(&mut self) -> Result<(), PlanLimit> {
        if self.taken_up == self.limit {
            return Err(PlanLimit);
        }
        self.taken_up += 1;
        Ok(())
    }

    /// Whether every train can be in by its latest. Raising keeps it so.
    pub(crate) fn in_time(&self) -> bool {
        let in_time = |&at: &u8| {
            let e = usize::from(at);
            self.departures[e] <= self.tables.limit[e]
        };
        self.tables.by_train.iter().all(in_time)
    }

    /// The way out of a conflict on segment `p` that has `first` go before `second`.
    #[inline]
    pub(crate) fn order(&self, p: usize, first: usize, second: usize) -> Way {
        let (from, to) = (event(p, first), event(p, second));
        let source = usize::from(from);
        Way {
            from,
            to,
            turn: false,
            minute: self.departures[source] + self.tables.gap[source][second],
        }
    }

    /// The way out of a conflict at a station that has `first` leave before `second` arrives.
    #[inline]
    pub(crate) fn turn(&self, station: usize, first: usize, second: usize) -> Way {
        let station = &self.tables.stations[station];
        let (from, to) = (station.leaving(first), station.coming(second));
        let run = self.tables.run[usize::from(to)];
        Way {
            from,
            to,
            turn: true,
            minute: self.departures[usize::from(from)] + 1 - run,
        }
    }

    /// Puts the way's choice among those of the present plan, where it is not yet.
    #[inline]
    pub(crate) fn choose(&mut self, way: Way) {
        *self.seconds(way) |= way.second();
    }

    /// Takes the way's choice out again.
    #[inline]
    pub(crate) fn give_up(&mut self, way: Way) {
        *self.seconds(way) &= !way.second();
    }

    /// The trains chosen to come after the way's first one where the way is.
    #[inline]
    fn seconds(&mut self, way: Way) -> &mut Trains {
        let choices = match way.turn {
            false => &mut self.behind,
            true => &mut self.after,
        };
        &mut choices[usize::from(way.from)]
    }

    /// How far raising has come.
    #[inline]
    pub(crate) fn mark(&self) -> Mark {
        Mark {
            raised: self.raised.len(),
            delay: self.delay,
        }
    }

    /// Raises what follows from the way's choice, as [`Plans::raise`] does.
    #[inline]
    pub(crate) fn raise_by(&mut self, way: Way) -> bool {
        self.source = way.from;
        self.raise(way.to, way.minute)
    }

    /// By how much the weighted delay has risen since `mark`.
    #[inline]
    pub(crate) fn rise_since(&self, mark: Mark) -> u32 {
        self.delay - mark.delay
    }

    /// Puts back what was raised since `mark`.
    #[inline]
    pub(crate) fn put_back(&mut self, mark: Mark) {
        while self.raised.len() > mark.raised {
            let (at, minute) = self.raised.pop().expect("it is longer than the mark");
            self.departures[usize::from(at)] = minute;
        }
        self.delay = mark.delay;
    }

    /// Raises a departure to a later minute, and then what follows from it. False where the plan
    /// ends: a train would be late, the delay would pass the best, or the choices contradict each
    /// other.
    fn raise(&mut self, at: u8, minute: i16) -> bool {
        let e = usize::from(at);
        self.delay += self.tables.cost_between(e, self.departures[e], minute);
        if minute > self.tables.limit[e] || at == self.source || self.delay > self.best_delay {
            return false;
        }
        self.raised.push((at, self.departures[e]));
        self.departures[e] = minute;

        let next = self.tables.next[e];
        if next != NONE && !self.raise_to(next, minute + self.tables.to_next[e]) {
            return false;
        }
        for second in each(self.behind[e]) {
            let to = at & !(ROOM as u8 - 1) | second as u8;
            if !self.raise_to(to, minute + self.tables.gap[e][second]) {
                return false;
            }
        }
        for second in each(self.after[e]) {
            let to = self.tables.coming[e][second];
            if !self.raise_to(to, minute + 1 - self.tables.run[usize::from(to)]) {
                return false;
            }
        }
        true
    }

    /// Raises a departure that is before `minute`.
    #[inline]
    fn raise_to(&mut self, at: u8, minute: i16) -> bool {
        self.departures[usize::from(at)] >= minute || self.raise(at, minute)
    }

    /// Whether the present plan is better than the best so far. Its delay is not above the best's.
    pub(crate) fn better(&self) -> bool {
        let Some(best) = &self.best else {
            return true;
        };
        if self.delay < self.best_delay {
            return true;
        }
        let minute = |departures: &PerEvent<i16>, at: &u8| departures[usize::from(*at)];
        let by_train = self.tables.by_train.iter();
        let differing = by_train
            .map(|at| (minute(&self.departures, at), minute(best, at)))
            .find(|(own, best)| own != best);
        differing.is_some_and(|(own, best)| own < best)
    }

    /// Makes the present plan, which is better and has no conflict, the best so far.
    pub(crate) fn keep(&mut self) {
        self.best = Some(self.departures);
        self.best_delay = self.delay;
    }

    /// The segments where a departure was raised since `mark`: bit p for segment p.
    #[inline]
    pub(crate) fn changed(&self, mark: Mark) -> u16 {
        let mut changed = 0;
        for &(at, _) in &self.raised[mark.raised..] {
            changed |= 1 << (usize::from(at) / ROOM);
        }
        changed
    }

    /// The departures on a segment.
    #[inline]
    fn row(&self, p: usize) -> &Row {
        self.departures[p * ROOM..][..ROOM]
            .try_into()
            .expect("a whole row")
    }

    /// With which trains of a segment this one is in conflict there, that is, neither goes first: -1 for
    /// these and 0 for others. All trains of the row are judged at once; those that are not there have
    /// nothing to do with any other.
    #[inline]
    fn conflicts(&self, p: usize, one: usize) -> Row {
        let row = self.row(p);
        let e = p * ROOM + one;
        let (gap, gap_back) = (&self.tables.gap[e], &self.tables.gap_back[e]);
        std::array::from_fn(|other| {
            let later = row[other] - row[one];
            -i16::from((later < gap[other]) & (-later < gap_back[other]))
        })
    }

    /// The trains that are in any conflict on a segment.
    pub(crate) fn in_conflict(&self, p: usize) -> Trains {
        let mut any = [0; ROOM];
        for one in each(self.tables.on_segment[p]) {
            let conflicts = self.conflicts(p, one);
            for other in 0..ROOM {
                any[other] |= conflicts[other];
            }
        }
        set(&any)
    }

    /// The trains above this one that are in conflict with it on a segment.
    #[inline]
    pub(crate) fn in_conflict_above(&self, p: usize, low: usize) -> Trains {
        set(&self.conflicts(p, low)) >> low >> 1 << 1 << low
    }

    /// The lowest trains, one more than there are tracks, that stand at a station at its earliest
    /// crowded minute. That is a minute when one arrives, as otherwise the one before is crowded too.
    pub(crate) fn crowd(&self, at: usize) -> Option<Trains> {
        let station = &self.tables.stations[at];
        let (mut from, mut to) = ([i16::MAX; ROOM], [i16::MIN; ROOM]);
        let both = station.trains();
        for train in each(both) {
            let coming = usize::from(station.coming(train));
            from[train] = self.departures[coming] + self.tables.run[coming];
            to[train] = self.departures[usize::from(station.leaving(train))];
        }
        let standing = |minute: i16| {
            let mut count = 0_i16;
            for train in 0..ROOM {
                count += i16::from((from[train] <= minute) & (minute <= to[train]));
            }
            count as u32
        };
        let crowded = each(both).map(|train| from[train]);
        let minute = crowded
            .filter(|&minute| standing(minute) > station.tracks)
            .min()?;
        let here = each(both).filter(|&train| from[train] <= minute && minute <= to[train]);
        let lowest = here.take(station.tracks as usize + 1);
        Some(lowest.fold(0, |set, train| set | 1 << train))
    }
}

/// The trains for which a row has -1 and not 0.
#[inline]
fn set(row: &Row) -> Trains {
    let bits = row.iter().enumerate();
    bits.fold(0, |set, (train, &one)| set | one as Trains & 1 << train)
}

/// The minutes with these departures.
fn minutes(line: &Line, departures: &PerEvent<i16>) -> Minutes {
    let mut minutes = Minutes::default();
    for (number, train) in line.used_trains().iter().enumerate() {
        for leg in 0..train.legs() {
            let segment = train.segment(leg);
            let departure = departures[usize::from(event(segment, number))] as u16;
            minutes.departures[segment][number] = departure;
            minutes.arrivals[segment][number] = departure + train.runs[leg];
        }
    }
    minutes
}
