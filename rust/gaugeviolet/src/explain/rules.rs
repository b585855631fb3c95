//! What a broken rule, a wrong order list or a wrong total says of the timetable's fields: the library
//! names the train, segment, station or list, and here it is looked at.

use super::field::Field;
use crate::{counted, time_of_day, Cause, Kind, Leg, Line, Segment, Timetable, Train};

/// Where to look and what is wrong there. Nothing where the place is not as the library says.
pub(super) struct Breach {
    pub field: Field,
    /// The line of the timetable's text, from 1, and the field on it, from 0.
    pub line: usize,
    pub at: usize,
    pub found: String,
    pub allowed: String,
}

pub(super) fn breach(timetable: &Timetable, cause: Cause, place: u32) -> Option<Breach> {
    // Places count from 1; the total alone has none.
    if place == 0 && cause != Cause::Total {
        return None;
    }
    match cause {
        Cause::Earliest | Cause::Run | Cause::Stop | Cause::Latest | Cause::Booking => {
            let line = timetable.line();
            let train = line.trains().get(place as usize - 1)?;
            let looked_at = OfTrain {
                number: place,
                line,
                train,
                legs: timetable.legs(place),
            };
            looked_at.breach(cause)
        }
        Cause::Gap => gap(timetable, place),
        Cause::Tracks => tracks(timetable, place),
        Cause::OrderList => list(timetable, place),
        Cause::Total => total(timetable),
        _ => None,
    }
}

/// A minute as number and time of day.
pub(super) fn minute(minute: u32) -> String {
    format!("minute {minute} ({})", time_of_day(minute))
}

/// Rules 10 to 13 and 18, which are about one train.
struct OfTrain<'a> {
    number: u32,
    line: &'a Line,
    train: &'a Train,
    legs: &'a [Leg],
}

impl OfTrain<'_> {
    fn breach(&self, cause: Cause) -> Option<Breach> {
        let mut legs = 0..self.train.legs();
        let leg = legs.find(|&leg| self.breaks(cause, leg))?;
        let Leg { departure, arrival } = self.legs[leg];
        let run = self.train.run(leg);
        let (arrives, found, allowed) = match cause {
            Cause::Earliest => (false, departure, at_or_after(self.train.earliest)),
            Cause::Run => {
                let takes = format!("departure plus the run of {run} minutes");
                let allowed = format!("{}: {takes}", minute(departure + run));
                (true, arrival, allowed)
            }
            Cause::Stop => {
                let over = self.legs[leg - 1].arrival + self.train.stop(leg);
                let stop = self.train.stop(leg);
                let allowed = format!("{}: arrival plus the stop of {stop}", at_or_after(over));
                (false, departure, allowed)
            }
            Cause::Booking => {
                let (booked, station) = (self.booked(leg)?, self.train.station(leg));
                let allowed = format!("{}: booked at station {station}", at_or_after(booked));
                (false, departure, allowed)
            }
            _ => (
                true,
                arrival,
                format!("at or before {}", minute(self.train.latest)),
            ),
        };
        Some(Breach {
            field: self.field(leg, arrives),
            line: self.number as usize + 1,
            at: 2 * leg + usize::from(arrives),
            found: minute(found),
            allowed,
        })
    }

    fn breaks(&self, cause: Cause, leg: usize) -> bool {
        let Leg { departure, arrival } = self.legs[leg];
        match cause {
            Cause::Earliest => leg == 0 && departure < self.train.earliest,
            Cause::Run => departure + self.train.run(leg) != arrival,
            Cause::Stop => leg > 0 && departure < self.legs[leg - 1].arrival + self.train.stop(leg),
            Cause::Booking => self.booked(leg).is_some_and(|booked| departure < booked),
            _ => leg + 1 == self.legs.len() && arrival > self.train.latest,
        }
    }

    /// The minute that is booked for its departure with a leg.
    fn booked(&self, leg: usize) -> Option<u32> {
        self.line.booked(self.number, self.train.station(leg))
    }

    fn field(&self, leg: usize, arrives: bool) -> Field {
        let (train, segment) = (self.number, self.train.segment(leg));
        match arrives {
            true => Field::Arrival { train, segment },
            false => Field::Departure { train, segment },
        }
    }
}

fn at_or_after(least: u32) -> String {
    format!("at or after {}", minute(least))
}

/// A train on a segment.
#[derive(Clone, Copy)]
struct On<'a> {
    number: u32,
    train: &'a Train,
    leg: Leg,
}

impl On<'_> {
    fn same_direction(&self, other: &On) -> bool {
        self.train.outbound() == other.train.outbound()
    }

    fn in_words(&self) -> String {
        let Leg { departure, arrival } = self.leg;
        let (from, to) = (time_of_day(departure), time_of_day(arrival));
        format!("train {} from {from} to {to}", self.number)
    }
}

/// The lowest pair of trains on the segment of which neither keeps its gap behind the other.
fn gap(timetable: &Timetable, segment: u32) -> Option<Breach> {
    let line = timetable.line();
    let track = line.segments().get(segment as usize - 1)?;
    let on = |number: u32| {
        Some(On {
            number,
            train: line.train(number),
            leg: timetable.leg_on(number, segment)?,
        })
    };
    let there: Vec<On> = timetable.numbers().filter_map(on).collect();
    let mut pairs = there.iter().enumerate().flat_map(|(at, one)| {
        let others = there[at + 1..].iter();
        others.map(move |other| (one, other))
    });
    let (one, other) = pairs.find(|(one, other)| {
        let same = one.same_direction(other);
        !track.keeps_gap(one.leg, other.leg, same) && !track.keeps_gap(other.leg, one.leg, same)
    })?;
    // The one that sets out later is marked: it is usually the one to move.
    let later = other.leg.departure >= one.leg.departure;
    let marked = if later { other } else { one };
    let mut legs = 0..marked.train.legs();
    let leg = legs.find(|&leg| marked.train.segment(leg) == segment)?;
    Some(Breach {
        field: Field::Departure {
            train: marked.number,
            segment,
        },
        line: marked.number as usize + 1,
        at: 2 * leg,
        found: format!(
            "on segment {segment} {} and {}",
            one.in_words(),
            other.in_words()
        ),
        allowed: gap_in_words(track, one.same_direction(other)),
    })
}

fn gap_in_words(track: &Segment, same_direction: bool) -> String {
    let Segment {
        kind,
        following,
        opposing,
    } = track;
    match (kind, same_direction) {
        (Kind::S, true) => {
            format!("one departs {following} minutes or more after the other's arrival")
        }
        (_, true) => format!("one departs and arrives {following} minutes or more after the other"),
        (_, false) => format!("one departs {opposing} minutes or more after the other's arrival"),
    }
}

/// The earliest minute at which more trains stand at the station than it has tracks.
fn tracks(timetable: &Timetable, station: u32) -> Option<Breach> {
    let &tracks = timetable.line().tracks().get(station as usize - 1)?;
    let arrives = |train: u32| Some((timetable.stand(train, station)?.0, train));
    let mut arrivals: Vec<(u32, u32)> = timetable.numbers().filter_map(arrives).collect();
    arrivals.sort();
    let crowded = |minute: u32| timetable.standing(station, minute).len() > tracks as usize;
    let &(first, _) = arrivals.iter().find(|&&(minute, _)| crowded(minute))?;
    let &(_, last) = arrivals.iter().rfind(|&&(minute, _)| minute == first)?;
    let path = timetable.line().train(last);
    let leg = (1..path.legs()).find(|&leg| path.station(leg) == station)?;
    let (room, has) = (counted(tracks, "train"), counted(tracks, "track"));
    Some(Breach {
        field: Field::Arrival {
            train: last,
            segment: path.segment(leg - 1),
        },
        line: last as usize + 1,
        at: 2 * leg - 1,
        found: format!(
            "at {} {} stand at station {station}",
            minute(first),
            trains(&timetable.standing(station, first))
        ),
        allowed: format!("{room}, as the station has {has}"),
    })
}

fn list(timetable: &Timetable, list: u32) -> Option<Breach> {
    let index = list as usize - 1;
    let given = timetable.order_lists().get(index)?;
    let expected = &timetable.lists_of_minutes()[index];
    if given.trains == *expected {
        return None;
    }
    let place = first_wrong(&given.trains, expected);
    let field = match place {
        0 => Field::ListLength { list },
        _ => Field::Listed {
            list,
            place: place as u32,
        },
    };
    let (segment, lane) = (given.segment, given.lane.after_segment());
    Some(Breach {
        field,
        line: timetable.numbers().count() + 2 + list as usize,
        at: place,
        found: trains(&given.trains),
        allowed: format!(
            "{}, by departure on segment {segment}{lane}",
            trains(expected)
        ),
    })
}

/// The place of the first wrong train in a list, from 1. Where all that are given are right but too few,
/// it is 0: their count is what is wrong.
fn first_wrong(given: &[u32], expected: &[u32]) -> usize {
    let pairs = given.iter().zip(expected);
    match pairs.take_while(|(one, other)| one == other).count() {
        all if all == given.len() => 0,
        same => same + 1,
    }
}

fn trains(numbers: &[u32]) -> String {
    let words: Vec<String> = numbers.iter().map(u32::to_string).collect();
    match &words[..] {
        [] => "no train".to_string(),
        [one] => format!("train {one}"),
        _ => format!("trains {}", words.join(", ")),
    }
}

fn total(timetable: &Timetable) -> Option<Breach> {
    let worked = timetable.total_of_minutes();
    let late = match timetable.line().dues() {
        [] => "",
        _ => " from the due minute, which is 0 for an early train",
    };
    (worked != timetable.total()).then(|| Breach {
        field: Field::Total,
        line: timetable.numbers().count() + 3 + timetable.order_lists().len(),
        at: 0,
        found: timetable.total().to_string(),
        allowed: format!("{worked}, the sum of weight times delay{late}"),
    })
}
