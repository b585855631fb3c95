//! The best timetable of a small line, by trying every order.
//!
//! In a lawful timetable the trains of an S or F segment, and those of each lane of a D segment,
//! depart one after another, and every pair keeps its gap in that order. At a middle station each
//! train that stands there can be given one of the tracks so that those on one track stand there one
//! after another: intervals of which no more than so many share a minute can be shared out to so many
//! tracks. So each lawful timetable keeps some choice of an order for each segment, and of tracks
//! with an order on each track for each station. Among the timetables that keep one choice the
//! least minutes are the best, as each of them is at or below that of any other, and a train that is in
//! earlier has no more delay. Bookings, like earliest, are floors under departures and change nothing of
//! this.
//!
//! The planner therefore goes through every choice, works out its least minutes, and keeps the best.
//! It puts the trains in one after another, each at every position of every order that it has a part
//! in. A choice is given up early for one reason only: the orders made so far already contradict
//! each other, or already bring a train in after its latest. More orders cannot mend that, as they
//! only raise minutes. Nothing is ever given up for its delay.

use crate::rules::{weighted_delay, Minutes};
use crate::{timetable, Booking, Kind, Line, Refusal};

/// The work that was allowed ran out before every choice was tried.
#[derive(Clone, Copy, Debug, PartialEq, Eq)]
pub struct WorkLimit;

/// Why there is no timetable to print.
#[derive(Clone, Copy, Debug, PartialEq, Eq)]
pub enum Unplanned {
    /// The file is refused, or it has no timetable (number 5).
    Refused(Refusal),
    /// The work that was allowed ran out.
    WorkLimit,
}

/// The text of the best timetable of a line file. `work` is the most positions that may be tried.
pub fn plan(file: &[u8], work: u64) -> Result<Vec<u8>, Unplanned> {
    let line = crate::read(file).map_err(Unplanned::Refused)?;
    match best(&line, work) {
        Ok(Some(minutes)) => Ok(timetable::write(&line, &minutes)),
        Ok(None) => Err(Unplanned::Refused(Refusal::NO_TIMETABLE)),
        Err(WorkLimit) => Err(Unplanned::WorkLimit),
    }
}

/// The best timetable of a line within the limits: least weighted delay, then earliest departures
/// from train 1 up, each train's in travel order. None where no timetable keeps the rules.
pub fn best(line: &Line, work: u64) -> Result<Option<Minutes>, WorkLimit> {
    let mut search = Search::new(line, work);
    if let Some(least) = search.raise(&search.alone()) {
        search.put_in(0, &least)?;
    }
    Ok(search.best.map(|(_, minutes)| minutes))
}

/// One leg's departure: the train, and the leg along its path.
#[derive(Clone, Copy)]
struct Leg {
    train: usize,
    leg: usize,
}

/// Departure `to` is at least so many minutes after departure `from`; below 0 it may be before it.
/// Both count into [`Search::legs`].
struct Wait {
    from: usize,
    to: usize,
    minutes: i32,
}

/// Where trains come one after another.
#[derive(Clone, Copy)]
enum Site {
    /// A segment, from 0. On D the two lanes are two places.
    Segment(usize),
    /// A middle station, from 0.
    Station(usize),
}

/// A place with the orders made so far: one on a segment, up to one for each track at a station.
struct Place {
    site: Site,
    orders: Vec<Vec<usize>>,
    most_orders: usize,
}

impl Place {
    /// Every order and position where one more train can be put: between any two trains, at either
    /// end, or alone on a track that none has yet. Tracks are alike, so one such track is enough.
    fn openings(&self) -> Vec<(usize, usize)> {
        let within = |(order, trains): (usize, &Vec<usize>)| {
            (0..=trains.len()).map(move |position| (order, position))
        };
        let mut openings: Vec<_> = self.orders.iter().enumerate().flat_map(within).collect();
        if self.orders.len() < self.most_orders {
            openings.push((self.orders.len(), 0));
        }
        openings
    }

    fn insert(&mut self, (order, position): (usize, usize), train: usize) {
        if order == self.orders.len() {
            self.orders.push(Vec::new());
        }
        self.orders[order].insert(position, train);
    }

    /// Undoes the latest insertion.
    fn remove(&mut self, (order, position): (usize, usize)) {
        self.orders[order].remove(position);
        if self.orders[order].is_empty() {
            self.orders.pop();
        }
    }
}

struct Search<'a> {
    line: &'a Line,
    /// All departures, from train 1 up, each train's in travel order.
    legs: Vec<Leg>,
    places: Vec<Place>,
    /// Which train is put in at which place, in the order of doing so.
    steps: Vec<(usize, usize)>,
    /// What must be kept: rule 12, and the orders made so far.
    waits: Vec<Wait>,
    work_left: u64,
    /// The best so far: weighted delay and departures, and the minutes.
    best: Option<((u32, Vec<i32>), Minutes)>,
}

impl<'a> Search<'a> {
    fn new(line: &'a Line, work: u64) -> Search<'a> {
        let mut search = Search {
            line,
            legs: Vec::new(),
            places: Vec::new(),
            steps: Vec::new(),
            waits: Vec::new(),
            work_left: work,
            best: None,
        };
        search.add_paths();
        search.add_segments();
        search.add_stations();
        // Train by train: orders that contradict each other then meet early.
        search.steps.sort_by_key(|&(_, train)| train);
        search
    }

    /// The departures of each train with rule 12 between them.
    fn add_paths(&mut self) {
        for (number, train) in self.line.used_trains().iter().enumerate() {
            for leg in 0..train.legs() {
                if leg > 0 {
                    self.waits.push(Wait {
                        from: self.legs.len() - 1,
                        to: self.legs.len(),
                        minutes: i32::from(train.runs[leg - 1] + train.stops[leg - 1]),
                    });
                }
                self.legs.push(Leg { train: number, leg });
            }
        }
    }

    /// One place for an S or F segment, one for each lane of a D segment.
    fn add_segments(&mut self) {
        for (p, segment) in self.line.used_segments().iter().enumerate() {
            let trains = self.trains(|train| train.segments().contains(&p));
            let outbound = |&train: &usize| self.line.trains[train].outbound();
            let (out, back): (Vec<usize>, Vec<usize>) = trains.iter().copied().partition(outbound);
            match segment.kind {
                Kind::S | Kind::F => self.add_place(Site::Segment(p), &trains, 1),
                Kind::D => {
                    self.add_place(Site::Segment(p), &out, 1);
                    self.add_place(Site::Segment(p), &back, 1);
                }
            }
        }
    }

    /// One place for each station where more trains may stand than it has tracks.
    fn add_stations(&mut self) {
        for station in 1..usize::from(self.line.station_count) - 1 {
            let both = [station - 1, station];
            let through = self.trains(|train| both.iter().all(|p| train.segments().contains(p)));
            let tracks = usize::from(self.line.tracks[station]);
            if through.len() > tracks {
                self.add_place(Site::Station(station), &through, tracks);
            }
        }
    }

    /// The numbers, from 0, of the trains of which `choose` holds.
    fn trains(&self, choose: impl Fn(&crate::Train) -> bool) -> Vec<usize> {
        let trains = self.line.used_trains();
        (0..trains.len())
            .filter(|&number| choose(&trains[number]))
            .collect()
    }

    fn add_place(&mut self, site: Site, trains: &[usize], most_orders: usize) {
        let place = self.places.len();
        self.steps
            .extend(trains.iter().map(|&train| (place, train)));
        self.places.push(Place {
            site,
            orders: Vec::new(),
            most_orders,
        });
    }

    /// Each departure no later than any timetable can have it: earliest, or what is booked there.
    fn alone(&self) -> Vec<i32> {
        let floor = |leg: &Leg| {
            let earliest = self.line.trains[leg.train].earliest;
            i32::from(earliest.max(self.booked(leg).unwrap_or(0)))
        };
        self.legs.iter().map(floor).collect()
    }

    /// The minute booked at the station that this leg leaves, if there is one.
    fn booked(&self, leg: &Leg) -> Option<u16> {
        let train = &self.line.trains[leg.train];
        let station = match train.outbound() {
            true => usize::from(train.origin) + leg.leg,
            false => usize::from(train.origin) - leg.leg,
        };
        let here = |booking: &&Booking| {
            (usize::from(booking.train), usize::from(booking.station)) == (leg.train + 1, station)
        };
        let booking = self.line.used_bookings().iter().find(here)?;
        Some(booking.minute)
    }

    /// Goes on from `step` with every position for its train. `least` are the least departures that
    /// keep the orders made so far.
    fn put_in(&mut self, step: usize, least: &[i32]) -> Result<(), WorkLimit> {
        let Some(&(place, train)) = self.steps.get(step) else {
            self.weigh(least);
            return Ok(());
        };
        for opening in self.places[place].openings() {
            self.work_left = self.work_left.checked_sub(1).ok_or(WorkLimit)?;
            let kept = self.waits.len();
            self.places[place].insert(opening, train);
            self.add_waits(place, opening);
            if let Some(raised) = self.raise(least) {
                self.put_in(step + 1, &raised)?;
            }
            self.waits.truncate(kept);
            self.places[place].remove(opening);
        }
        Ok(())
    }

    /// What the train at this position waits for, and what waits for it.
    fn add_waits(&mut self, place: usize, (order, position): (usize, usize)) {
        let Place { site, orders, .. } = &self.places[place];
        let (site, trains) = (*site, orders[order].clone());
        for &first in &trains[..position] {
            self.add_wait(site, first, trains[position]);
        }
        for &second in &trains[position + 1..] {
            self.add_wait(site, trains[position], second);
        }
    }

    fn add_wait(&mut self, site: Site, first: usize, second: usize) {
        match site {
            Site::Segment(p) => self.add_gap(p, first, second),
            Site::Station(station) => self.add_turn(station, first, second),
        }
    }

    /// Rule 14, with `first` going first on segment `p`.
    fn add_gap(&mut self, p: usize, first: usize, second: usize) {
        let segment = &self.line.segments[p];
        let (following, opposing) = (i32::from(segment.following), i32::from(segment.opposing));
        let same = self.line.trains[first].outbound() == self.line.trains[second].outbound();
        let (from, first_run) = self.run_on(p, first);
        let (to, second_run) = self.run_on(p, second);
        let mut add = |minutes| self.waits.push(Wait { from, to, minutes });
        match (segment.kind, same) {
            (Kind::S, true) => add(first_run + following),
            (Kind::F | Kind::D, true) => {
                add(following);
                // The arrivals: second departure + second run >= first departure + first run + gap.
                add(first_run + following - second_run);
            }
            (Kind::S | Kind::F, false) => add(first_run + opposing),
            (Kind::D, false) => {}
        }
    }

    /// On one track of a station `first` has left before `second` arrives: second departure before
    /// the station + its run >= first departure from the station + 1.
    fn add_turn(&mut self, station: usize, first: usize, second: usize) {
        let (_, from) = self.sides(station, first);
        let (to, _) = self.sides(station, second);
        let (from, _) = self.run_on(from, first);
        let (to, run) = self.run_on(to, second);
        self.waits.push(Wait {
            from,
            to,
            minutes: 1 - run,
        });
    }

    /// The segments on which a train comes to a station and leaves it.
    fn sides(&self, station: usize, train: usize) -> (usize, usize) {
        if self.line.trains[train].outbound() {
            (station - 1, station)
        } else {
            (station, station - 1)
        }
    }

    /// Where the train's departure on segment `p` stands in [`Search::legs`], and its run there.
    fn run_on(&self, p: usize, train: usize) -> (usize, i32) {
        let path = &self.line.trains[train];
        let here = |leg: &Leg| leg.train == train && path.segment(leg.leg) == p;
        let at = self
            .legs
            .iter()
            .position(here)
            .expect("a segment of its path");
        (at, i32::from(path.runs[self.legs[at].leg]))
    }

    /// The least departures at or above `least` that keep every wait, if they exist and bring every
    /// train in by its latest.
    fn raise(&self, least: &[i32]) -> Option<Vec<i32>> {
        let mut raised = least.to_vec();
        // A chain of waits without a circle meets each departure once, so as many rounds settle all
        // chains, and one more shows it. What still rises then waits for itself.
        for _ in 0..=raised.len() {
            let mut settled = true;
            for wait in &self.waits {
                let least = raised[wait.from] + wait.minutes;
                if raised[wait.to] < least {
                    raised[wait.to] = least;
                    settled = false;
                }
            }
            if settled {
                return self.in_time(&raised).then_some(raised);
            }
        }
        None
    }

    /// Rule 13. It also keeps every minute within 2,879, as no latest is above that.
    fn in_time(&self, departures: &[i32]) -> bool {
        self.legs.iter().zip(departures).all(|(leg, departure)| {
            let train = &self.line.trains[leg.train];
            departure + i32::from(train.runs[leg.leg]) <= i32::from(train.latest)
        })
    }

    /// Keeps the timetable with these departures if it is the best so far.
    fn weigh(&mut self, departures: &[i32]) {
        let minutes = self.minutes(departures);
        let key = (weighted_delay(self.line, &minutes), departures.to_vec());
        if self.best.as_ref().is_none_or(|(best, _)| key < *best) {
            self.best = Some((key, minutes));
        }
    }

    fn minutes(&self, departures: &[i32]) -> Minutes {
        let mut minutes = Minutes::default();
        for (leg, &departure) in self.legs.iter().zip(departures) {
            let train = &self.line.trains[leg.train];
            let segment = train.segment(leg.leg);
            minutes.departures[segment][leg.train] = departure as u16;
            minutes.arrivals[segment][leg.train] = departure as u16 + train.runs[leg.leg];
        }
        minutes
    }
}
