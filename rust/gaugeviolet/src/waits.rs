//! Where a train waits longer than it asked for, and for what: other trains, or its booking.

use std::ops::Range;

use crate::{counted, time_of_day, Leg, Timetable, Train};

/// A train that waits at a station, from the minute when it might have left to its departure.
#[derive(Clone, Debug, PartialEq, Eq)]
pub struct Wait {
    /// The train.
    pub train: u32,
    /// Where it waits.
    pub station: u32,
    /// Whether that is its own origin: there it is in the yard and takes no track.
    pub in_yard: bool,
    /// Its earliest minute at its origin; at a middle station its stop is over then.
    pub from: u32,
    /// Its departure.
    pub until: u32,
    /// What is in its way at these minutes, by when it is gone.
    pub reasons: Vec<Reason>,
    /// How many minutes it waits after all of that is gone. In the best timetable none; a timetable by
    /// another hand may have such waits.
    pub idle: u32,
}

/// What would break a rule if a train left earlier and all others ran as they do.
#[derive(Clone, Copy, Debug, PartialEq, Eq, Hash)]
pub enum Reason {
    /// Another train takes the segment ahead.
    Segment {
        /// The train.
        train: u32,
        /// The segment.
        segment: u32,
    },
    /// The next station is full until another train has left.
    Station {
        /// The train.
        train: u32,
        /// The station.
        station: u32,
    },
    /// Its own booking: it waits for no train.
    Booking {
        /// The minute.
        minute: u32,
    },
}

impl Reason {
    /// The train waited for, unless it is the booking.
    pub fn train(&self) -> Option<u32> {
        match *self {
            Reason::Segment { train, .. } | Reason::Station { train, .. } => Some(train),
            Reason::Booking { .. } => None,
        }
    }

    fn in_words(&self) -> String {
        match self {
            Reason::Segment { train, segment } => format!("train {train} on segment {segment}"),
            Reason::Station { train, station } => {
                format!("train {train} to leave station {station}")
            }
            Reason::Booking { .. } => "its booked minute".to_string(),
        }
    }
}

impl Wait {
    /// Who waits, how long, where, when and for what.
    ///
    /// ```
    /// use gaugeviolet::{Line, Timetable};
    ///
    /// let file = b"3\n2\n2\n2\n2\nS 5 4\nS 5 4\n2\n1 3 0 200 1 20 0 20\n3 1 0 200 2 15 0 15\n";
    /// let timetable = Timetable::read(&Line::read(file)?, &gaugeviolet::plan(file)?)?;
    /// let told: Vec<String> = timetable.waits().iter().map(|wait| wait.sentence()).collect();
    /// assert_eq!(
    ///     told,
    ///     ["train 2 waits 9 minutes at station 2, from 00:15 to 00:24, for train 1 on segment 1"]
    /// );
    ///
    /// // A train that stands for its booking waits for no train.
    /// let file = b"3\n2\n2\n2\n2\nS 5 4\nS 5 4\n1\n1 3 0 200 1 20 0 20\n1\n1 2 30\n";
    /// let timetable = Timetable::read(&Line::read(file)?, &gaugeviolet::plan(file)?)?;
    /// assert_eq!(
    ///     timetable.waits()[0].sentence(),
    ///     "train 1 waits 10 minutes at station 2, from 00:20 to 00:30, for its booked minute"
    /// );
    /// # Ok::<(), gaugeviolet::Refusal>(())
    /// ```
    pub fn sentence(&self) -> String {
        let minutes = counted(self.until - self.from, "minute");
        let (from, until) = (time_of_day(self.from), time_of_day(self.until));
        let place = if self.in_yard { "in the yard of" } else { "at" };
        format!(
            "train {} waits {minutes} {place} station {}, from {from} to {until}, for {}",
            self.train,
            self.station,
            self.for_what()
        )
    }

    /// The trains waited for, each once.
    pub fn trains(&self) -> Vec<u32> {
        let mut trains = Vec::new();
        // The last reason of a train says when it is gone.
        for train in self.reasons.iter().rev().filter_map(Reason::train) {
            if !trains.contains(&train) {
                trains.insert(0, train);
            }
        }
        trains
    }

    fn for_what(&self) -> String {
        let mut reasons = self.reasons.iter();
        let booking = reasons.find(|reason| reason.train().is_none());
        let booking = booking.map(Reason::in_words);
        let words = match (booking, self.for_whom()) {
            (None, None) => return "no train".to_string(),
            (Some(words), None) | (None, Some(words)) => words,
            (Some(booking), Some(trains)) if self.booking_is_last() => {
                format!("{trains} and then {booking}")
            }
            (Some(booking), Some(trains)) => format!("{booking} and {trains}"),
        };
        match self.idle {
            0 => words,
            idle => format!("{words}, then {} for no train", counted(idle, "minute")),
        }
    }

    fn booking_is_last(&self) -> bool {
        matches!(self.reasons.last(), Some(Reason::Booking { .. }))
    }

    /// The trains waited for in words, if there are any.
    fn for_whom(&self) -> Option<String> {
        let mut latest_first = self.reasons.iter().rev();
        let last = latest_first.find(|reason| reason.train().is_some())?;
        let trains = self.trains();
        let trains: Vec<String> = trains.iter().map(u32::to_string).collect();
        Some(match &trains[..] {
            [others @ .., train] if !others.is_empty() => format!(
                "trains {} and {train}, last {}",
                others.join(", "),
                last.in_words()
            ),
            _ => last.in_words(),
        })
    }
}

impl Timetable {
    /// All waits, train by train in travel order. A train's delay is the sum of its waits where it has no
    /// booking and no due minute is listed for it. Standing for a booking is in itself no delay, and may
    /// make up for one. A train that would be early alone on the line waits so long without a delay.
    pub fn waits(&self) -> Vec<Wait> {
        let trains = self.numbers().zip(self.line().trains());
        trains
            .flat_map(|(number, train)| {
                let legs = 0..train.legs();
                legs.filter_map(move |leg| self.wait_before(number, train, leg))
            })
            .collect()
    }

    fn wait_before(&self, number: u32, train: &Train, leg: usize) -> Option<Wait> {
        let legs = self.legs(number);
        let from = match leg {
            0 => train.earliest,
            _ => legs[leg - 1].arrival + train.stop(leg),
        };
        let until = legs[leg].departure;
        (from < until).then(|| self.wait(number, leg, from..until))
    }

    /// The wait of a train before a leg, over these minutes.
    fn wait(&self, train: u32, leg: usize, minutes: Range<u32>) -> Wait {
        let (from, until) = (minutes.start, minutes.end);
        let mut reasons = Vec::new();
        let mut idle = 0;
        for minute in minutes {
            // The booking first: where a train is in the way as long, that is told as the last.
            let mut there = Vec::from_iter(self.before_booking(train, leg, minute));
            there.extend(self.at_station(train, leg, minute));
            there.extend(self.on_segment(train, leg, minute));
            idle = if there.is_empty() { idle + 1 } else { 0 };
            reasons.retain(|reason| !there.contains(reason));
            reasons.extend(there);
        }
        Wait {
            train,
            station: self.line().train(train).station(leg),
            in_yard: leg == 0,
            from,
            until,
            reasons,
            idle,
        }
    }

    /// The booking, were the leg begun before it at this minute.
    fn before_booking(&self, number: u32, leg: usize, departure: u32) -> Option<Reason> {
        let station = self.line().train(number).station(leg);
        let booked = self.line().booked(number, station);
        let minute = booked.filter(|&minute| departure < minute)?;
        Some(Reason::Booking { minute })
    }

    /// The trains that are too near on the segment, were the leg begun at this minute.
    fn on_segment(&self, number: u32, leg: usize, minute: u32) -> Vec<Reason> {
        let train = self.line().train(number);
        let segment = train.segment(leg);
        let track = self.line().segment(segment);
        let own = Leg {
            departure: minute,
            arrival: minute + train.run(leg),
        };
        let in_the_way = |&other: &u32| {
            let same = self.line().train(other).outbound() == train.outbound();
            let leg = self.leg_on(other, segment);
            leg.is_some_and(|leg| {
                !track.keeps_gap(leg, own, same) && !track.keeps_gap(own, leg, same)
            })
        };
        let others = self.numbers().filter(|&other| other != number);
        others
            .filter(in_the_way)
            .map(|train| Reason::Segment { train, segment })
            .collect()
    }

    /// The trains that have to leave the next station, were the leg begun at this minute: they stand
    /// there at a minute when it is full, and are gone when the train comes.
    fn at_station(&self, number: u32, leg: usize, minute: u32) -> Vec<Reason> {
        let train = self.line().train(number);
        if leg + 1 == train.legs() {
            return Vec::new();
        }
        let station = train.station(leg + 1);
        let tracks = self.line().tracks_at(station) as usize;
        let arrival = self.legs(number)[leg].arrival;
        let earlier = minute + train.run(leg)..arrival;
        let full = earlier
            .map(|minute| self.standing(station, minute))
            .find(|standing| standing.len() >= tracks);
        let gone = |&other: &u32| {
            let stand = self.stand(other, station);
            stand.is_some_and(|(_, departure)| departure < arrival)
        };
        let there = full.unwrap_or_default().into_iter();
        there
            .filter(gone)
            .map(|train| Reason::Station { train, station })
            .collect()
    }
}
