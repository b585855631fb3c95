//! What the planners through plans need to know of a line, worked out once.
//!
//! An event is a train's departure on a segment. An arrival is always the departure plus the run, so
//! events are all that a plan has, and each choice says that one is at least so many minutes after
//! another.

use crate::{Kind, Line, Train};

/// Places for trains in a row: a few more than there can be trains, so that a row fills registers.
pub(crate) const ROOM: usize = 16;

/// Events: a train's departure on a segment, at `segment * ROOM + train`. There are at most 11 * 16,
/// and every `u8` is within the arrays.
pub(crate) const EVENTS: usize = 256;

/// In place of an event: there is none. Past the last event.
pub(crate) const NONE: u8 = 255;

/// A least difference that every two minutes have.
const ANY: i16 = -20_000;

/// One number for each event.
pub(crate) type PerEvent<T> = [T; EVENTS];

/// One number for each train.
pub(crate) type Row = [i16; ROOM];

/// A set of trains: bit i for train i.
pub(crate) type Trains = u16;

/// The lowest train of a set that has one.
#[inline]
fn lowest(trains: Trains) -> usize {
    trains.trailing_zeros() as usize % ROOM
}

/// The trains of a set, from the lowest up.
#[inline]
pub(crate) fn each(trains: Trains) -> impl Iterator<Item = usize> {
    let mut left = trains;
    std::iter::from_fn(move || {
        (left != 0).then(|| {
            let train = lowest(left);
            left &= left - 1;
            train
        })
    })
}

#[inline]
pub(crate) fn event(segment: usize, train: usize) -> u8 {
    (segment * ROOM + train) as u8
}

pub(crate) struct Tables {
    pub(crate) segment_count: usize,
    /// The trains of each segment.
    pub(crate) on_segment: Vec<Trains>,
    /// The middle stations where more trains may stand than there are tracks, from the lowest up.
    pub(crate) stations: Vec<Station>,
    /// All events from train 1 up, each train's in travel order.
    pub(crate) by_train: Vec<u8>,
    /// The minutes from departure to arrival.
    pub(crate) run: PerEvent<i16>,
    /// The latest departure with which the train can still be in by its latest, were nothing booked
    /// behind it: a later one is too late in any case.
    pub(crate) limit: PerEvent<i16>,
    /// The train's next departure, or [`NONE`].
    pub(crate) next: PerEvent<u8>,
    /// The least minutes from a departure to the train's next one.
    pub(crate) to_next: PerEvent<i16>,
    /// What a minute of lateness costs: the train's weight for its last departure, 0 for any other.
    pub(crate) cost: PerEvent<u32>,
    /// The last departure with which the train is in when it is due, below 0 where it is due before its
    /// run could end. It stands for the last departure only.
    pub(crate) due: PerEvent<i16>,
    /// By event and other train: the least minutes from this departure to the other train's on the
    /// same segment if this one goes first there. [`ANY`] if the two have nothing to do there.
    pub(crate) gap: PerEvent<Row>,
    /// The least minutes from the other train's departure to this one if the other goes first.
    pub(crate) gap_back: PerEvent<Row>,
    /// By event and other train: the departure with which the other train comes to the station that
    /// this departure leaves.
    pub(crate) coming: PerEvent<[u8; ROOM]>,
}

/// A middle station and those that may stand there.
pub(crate) struct Station {
    pub(crate) tracks: u32,
    /// The segments before and behind it.
    segments: [usize; 2],
    /// The trains that have it in the middle of their path, by direction.
    outbound: Trains,
    inbound: Trains,
}

impl Tables {
    pub(crate) fn new(line: &Line) -> Tables {
        let segment_count = line.used_segments().len();
        let mut tables = Tables {
            segment_count,
            on_segment: vec![0; segment_count],
            stations: Vec::new(),
            by_train: Vec::new(),
            run: [0; EVENTS],
            limit: [0; EVENTS],
            next: [NONE; EVENTS],
            to_next: [0; EVENTS],
            cost: [0; EVENTS],
            due: [0; EVENTS],
            gap: [[ANY; ROOM]; EVENTS],
            gap_back: [[ANY; ROOM]; EVENTS],
            coming: [[NONE; ROOM]; EVENTS],
        };
        for (number, train) in line.used_trains().iter().enumerate() {
            tables.add_path(number, train);
            tables.add_due(number, train, line.due_minute(number) as i16);
        }
        tables.add_gaps(line);
        tables.add_stations(line);
        tables
    }

    fn add_path(&mut self, number: usize, train: &Train) {
        let last = train.legs() - 1;
        let mut limit = train.latest as i16;
        for leg in (0..=last).rev() {
            let at = event(train.segment(leg), number);
            let e = usize::from(at);
            self.on_segment[train.segment(leg)] |= 1 << number;
            self.run[e] = train.runs[leg] as i16;
            if leg < last {
                self.next[e] = event(train.segment(leg + 1), number);
                self.to_next[e] = (train.runs[leg] + train.stops[leg]) as i16;
                limit -= train.stops[leg] as i16;
            }
            limit -= train.runs[leg] as i16;
            self.limit[e] = limit;
        }
        let events = (0..=last).map(|leg| event(train.segment(leg), number));
        self.by_train.extend(events);
    }

    /// What the train's last departure costs from its due minute on.
    fn add_due(&mut self, number: usize, train: &Train, minute: i16) {
        let last = usize::from(event(train.segment(train.legs() - 1), number));
        self.cost[last] = u32::from(train.weight);
        self.due[last] = minute - self.run[last];
    }

    /// What it costs to move a departure from one minute to a later one: nothing for the minutes before it
    /// is due.
    #[inline]
    pub(crate) fn cost_between(&self, e: usize, from: i16, to: i16) -> u32 {
        let due = self.due[e];
        self.cost[e] * (to.max(due) - from.max(due)) as u32
    }

    fn add_gaps(&mut self, line: &Line) {
        for p in 0..self.segment_count {
            for first in each(self.on_segment[p]) {
                for second in each(self.on_segment[p] & !(1 << first)) {
                    let gap = self.least_gap(line, p, first, second);
                    self.gap[usize::from(event(p, first))][second] = gap;
                    self.gap_back[usize::from(event(p, second))][first] = gap;
                }
            }
        }
    }

    /// Rule 14 with `first` going first on segment `p`: the least minutes between the departures.
    fn least_gap(&self, line: &Line, p: usize, first: usize, second: usize) -> i16 {
        let segment = &line.segments[p];
        let (following, opposing) = (segment.following as i16, segment.opposing as i16);
        let run = |train| self.run[usize::from(event(p, train))];
        let same = line.trains[first].outbound() == line.trains[second].outbound();
        match (segment.kind, same) {
            (Kind::S, true) => run(first) + following,
            (Kind::S | Kind::F, false) => run(first) + opposing,
            // The departures, or the arrivals where the second train is the faster one.
            (Kind::F | Kind::D, true) => following + (run(first) - run(second)).max(0),
            (Kind::D, false) => ANY,
        }
    }

    fn add_stations(&mut self, line: &Line) {
        for station in 1..self.segment_count {
            let both = self.on_segment[station - 1] & self.on_segment[station];
            let outward = |&train: &usize| line.trains[train].outbound();
            let outbound = each(both).filter(outward).fold(0, |set, i| set | 1 << i);
            let place = Station {
                tracks: u32::from(line.tracks[station]),
                segments: [station - 1, station],
                outbound,
                inbound: both & !outbound,
            };
            if both.count_ones() <= place.tracks {
                continue;
            }
            for first in each(both) {
                for second in each(both & !(1 << first)) {
                    let leaving = usize::from(place.leaving(first));
                    self.coming[leaving][second] = place.coming(second);
                }
            }
            self.stations.push(place);
        }
    }
}

impl Station {
    /// The trains that have it in the middle of their path.
    pub(crate) fn trains(&self) -> Trains {
        self.outbound | self.inbound
    }

    /// Its number, from 0, which is that of the segment behind it.
    pub(crate) fn number(&self) -> usize {
        self.segments[1]
    }

    /// The event with which a train leaves this station.
    pub(crate) fn leaving(&self, train: usize) -> u8 {
        let out = self.outbound >> train & 1 == 1;
        event(self.segments[usize::from(out)], train)
    }

    /// The event with which a train comes to this station.
    pub(crate) fn coming(&self, train: usize) -> u8 {
        let out = self.outbound >> train & 1 == 1;
        event(self.segments[usize::from(!out)], train)
    }
}

/// Each departure as early as the train alone could have it, its bookings kept; some may be past the
/// day. Raising only makes departures later, so no plan has one before its booking.
pub(crate) fn free_departures(line: &Line) -> PerEvent<i16> {
    let mut departures = [0; EVENTS];
    for (number, train) in line.used_trains().iter().enumerate() {
        let floors = line.floors(number);
        let mut minute = train.earliest;
        for leg in 0..train.legs() {
            if leg > 0 {
                minute += train.runs[leg - 1] + train.stops[leg - 1];
            }
            minute = minute.max(floors[leg]);
            departures[usize::from(event(train.segment(leg), number))] = minute as i16;
        }
    }
    departures
}
