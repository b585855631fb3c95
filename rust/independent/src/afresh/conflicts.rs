//! The lowest conflict of a plan, and its ways out in the order in which the walk takes them up.

use super::least::sides;
use super::{Choice, Place};
use crate::rules::Minutes;
use crate::{Kind, Limits, Line};

/// The ways out of the lowest conflict; there are none where nothing is in conflict. Segments come before
/// stations.
pub(super) fn ways_out(line: &Line, minutes: &Minutes) -> Vec<Choice> {
    if let Some((p, low, high)) = lowest_pair(line, minutes) {
        let place = Place::Segment(p);
        return vec![choice(place, low, high), choice(place, high, low)];
    }
    let Some((station, trains)) = lowest_crowd(line, minutes) else {
        return Vec::new();
    };
    let place = Place::Station(station);
    let others = |&first: &usize| trains.iter().map(move |&second| (first, second));
    let pairs = trains.iter().flat_map(others);
    pairs
        .filter(|(first, second)| first != second)
        .map(|(first, second)| choice(place, first, second))
        .collect()
}

fn choice(place: Place, first: usize, second: usize) -> Choice {
    Choice {
        place,
        first,
        second,
    }
}

/// The lowest segment with the lowest pair of trains of which neither goes first.
fn lowest_pair(line: &Line, minutes: &Minutes) -> Option<(usize, usize, usize)> {
    for p in 0..line.used_segments().len() {
        let here = |&i: &usize| line.trains[i].segments().contains(&p);
        let trains: Vec<usize> = (0..line.used_trains().len()).filter(here).collect();
        for (at, &low) in trains.iter().enumerate() {
            for &high in &trains[at + 1..] {
                if !goes_first(line, minutes, p, low, high)
                    && !goes_first(line, minutes, p, high, low)
                {
                    return Some((p, low, high));
                }
            }
        }
    }
    None
}

/// Rule 14: whether the second train keeps its gap behind the first on segment `p`.
fn goes_first(line: &Line, minutes: &Minutes, p: usize, first: usize, second: usize) -> bool {
    let segment = &line.segments[p];
    let same = line.trains[first].outbound() == line.trains[second].outbound();
    let Minutes {
        departures,
        arrivals,
    } = minutes;
    match (segment.kind, same) {
        (Kind::S, true) => departures[p][second] >= arrivals[p][first] + segment.following,
        (Kind::S | Kind::F, false) => {
            departures[p][second] >= arrivals[p][first] + segment.opposing
        }
        (Kind::F | Kind::D, true) => {
            departures[p][second] >= departures[p][first] + segment.following
                && arrivals[p][second] >= arrivals[p][first] + segment.following
        }
        (Kind::D, false) => true,
    }
}

/// The lowest station that is crowded at any minute, and the lowest trains, one more than there are tracks,
/// that stand there at the earliest of these minutes.
fn lowest_crowd(line: &Line, minutes: &Minutes) -> Option<(usize, Vec<usize>)> {
    for station in 0..usize::from(line.station_count) {
        let tracks = usize::from(line.tracks[station]);
        let stands = stands(line, minutes, station);
        for minute in Limits::MINUTE.least..=Limits::MINUTE.most {
            let here = stands
                .iter()
                .filter(|stand| stand.from <= minute && minute <= stand.to);
            if here.clone().count() > tracks {
                let lowest = here.take(tracks + 1).map(|stand| stand.train);
                return Some((station, lowest.collect()));
            }
        }
    }
    None
}

/// A train at a middle station of its path, both minutes included.
struct Stand {
    train: usize,
    from: u16,
    to: u16,
}

/// The stands at a station, from the lowest train up.
fn stands(line: &Line, minutes: &Minutes, station: usize) -> Vec<Stand> {
    let mut stands = Vec::new();
    for (number, train) in line.used_trains().iter().enumerate() {
        if train.has_in_the_middle(station as u16 + 1) {
            let (coming, leaving) = sides(line, station, number);
            stands.push(Stand {
                train: number,
                from: minutes.arrivals[coming][number],
                to: minutes.departures[leaving][number],
            });
        }
    }
    stands
}
