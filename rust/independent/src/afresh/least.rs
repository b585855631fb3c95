//! The least minutes of a plan, from its choices alone.

use super::{Choice, Place};
use crate::rules::Minutes;
use crate::{Kind, Limits, Line};

/// A minute would have to be past 2,879.
struct PastTheDay;

/// The least minutes that keep rules 10 to 12 and 18 and these choices, raised from 0 until nothing changes.
/// None where one of them would pass 2,879. Latest is not looked at.
pub(super) fn least_minutes(line: &Line, choices: &[Choice]) -> Option<Minutes> {
    let mut minutes = Minutes::default();
    loop {
        let before = minutes;
        keep_all(line, choices, &mut minutes).ok()?;
        if minutes == before {
            return Some(minutes);
        }
    }
}

/// Raises each minute to what the others ask of it, once.
fn keep_all(line: &Line, choices: &[Choice], minutes: &mut Minutes) -> Result<(), PastTheDay> {
    for number in 0..line.used_trains().len() {
        keep_path(line, number, minutes)?;
    }
    for booking in line.used_bookings() {
        let number = usize::from(booking.train) - 1;
        let (_, leaving) = sides(line, usize::from(booking.station) - 1, number);
        raise(&mut minutes.departures[leaving][number], booking.minute)?;
    }
    for &choice in choices {
        match choice.place {
            Place::Segment(p) => keep_order(line, p, choice, minutes)?,
            Place::Station(station) => keep_turn(line, station, choice, minutes)?,
        }
    }
    Ok(())
}

/// Rules 10, 11 and 12. A choice may have raised an arrival, so the departure follows it.
fn keep_path(line: &Line, number: usize, minutes: &mut Minutes) -> Result<(), PastTheDay> {
    let train = &line.trains[number];
    let mut ready = train.earliest;
    for leg in 0..train.legs() {
        let p = train.segment(leg);
        let departure = &mut minutes.departures[p][number];
        let arrival = &mut minutes.arrivals[p][number];
        raise(departure, ready)?;
        raise(arrival, *departure + train.runs[leg])?;
        raise(departure, *arrival - train.runs[leg])?;
        ready = *arrival + train.stops[leg];
    }
    Ok(())
}

/// On segment `p` the second train keeps its gap behind the first.
fn keep_order(
    line: &Line,
    p: usize,
    Choice { first, second, .. }: Choice,
    minutes: &mut Minutes,
) -> Result<(), PastTheDay> {
    let segment = &line.segments[p];
    let same = line.trains[first].outbound() == line.trains[second].outbound();
    let (departed, arrived) = (minutes.departures[p][first], minutes.arrivals[p][first]);
    let departure = &mut minutes.departures[p][second];
    match (segment.kind, same) {
        (Kind::S, true) => raise(departure, arrived + segment.following),
        (Kind::S | Kind::F, false) => raise(departure, arrived + segment.opposing),
        (Kind::F | Kind::D, true) => {
            raise(departure, departed + segment.following)?;
            let arrival = &mut minutes.arrivals[p][second];
            raise(arrival, arrived + segment.following)
        }
        (Kind::D, false) => Ok(()),
    }
}

/// At a station the second train arrives when the first has left.
fn keep_turn(
    line: &Line,
    station: usize,
    Choice { first, second, .. }: Choice,
    minutes: &mut Minutes,
) -> Result<(), PastTheDay> {
    let (_, leaving) = sides(line, station, first);
    let (coming, _) = sides(line, station, second);
    let departed = minutes.departures[leaving][first];
    raise(&mut minutes.arrivals[coming][second], departed + 1)
}

/// The segments on which a train comes to a middle station of its path and leaves it.
pub(super) fn sides(line: &Line, station: usize, number: usize) -> (usize, usize) {
    match line.trains[number].outbound() {
        true => (station - 1, station),
        false => (station, station - 1),
    }
}

/// Raises a minute to at least this one.
fn raise(minute: &mut u16, least: u16) -> Result<(), PastTheDay> {
    if least > Limits::MINUTE.most {
        return Err(PastTheDay);
    }
    *minute = least.max(*minute);
    Ok(())
}
