//! Lines altered so that their best timetable just holds, or just fails.

use independent::rules::{free_arrival, last_arrival, Minutes};
use independent::{Limits, Line, Train};

use crate::parts::used_parts;
use crate::Random;

/// How a line is altered.
#[derive(Clone, Copy)]
enum Edge {
    /// Some trains may arrive when they do in the best timetable, and not later: that just holds.
    JustInTime,
    /// The same, and for one of them, one that is in after its free arrival if there is any, a minute less.
    MinuteTooLate,
    /// All times are later by as much, so that the best timetable would end with the day, or up to two
    /// minutes before or after that.
    EndOfDay,
}

/// The line, of which `best` is the best timetable, altered in every way. Without a timetable or a train
/// there is no way.
pub(crate) fn at_the_edges(random: &mut Random, line: &Line, best: Option<&Minutes>) -> Vec<Line> {
    let edges = [Edge::JustInTime, Edge::MinuteTooLate, Edge::EndOfDay];
    match best {
        Some(best) if line.train_count > 0 => edges
            .map(|edge| at_the_edge(random, line, best, edge))
            .into(),
        _ => Vec::new(),
    }
}

fn at_the_edge(random: &mut Random, line: &Line, best: &Minutes, edge: Edge) -> Line {
    let arrival = |(i, train): (usize, &Train)| last_arrival(best, i, train);
    let arrivals: Vec<u16> = line.used_trains().iter().enumerate().map(arrival).collect();
    let waits = |&i: &usize| u32::from(arrivals[i]) > free_arrival(line, i);
    let waiting: Vec<usize> = (0..arrivals.len()).filter(waits).collect();
    let mut line = *line;
    let trains = used_parts(&mut line).2;
    match edge {
        Edge::JustInTime => just_in_time(random, trains, &arrivals),
        Edge::MinuteTooLate => {
            just_in_time(random, trains, &arrivals);
            let one = match waiting[..] {
                [] => random.below(trains.len()),
                _ => random.one_of(&waiting),
            };
            trains[one].latest = arrivals[one] - 1;
        }
        Edge::EndOfDay => {
            let last = arrivals.iter().max().expect("there is a train");
            // Up to two minutes earlier where the last one is in with the day: that wraps round.
            let later = (Limits::MINUTE.most + random.within(0, 4) - 2).wrapping_sub(*last);
            move_all_times(&mut line, later);
        }
    }
    line
}

/// Moves the times of all trains, their bookings and dues, within the day.
fn move_all_times(line: &mut Line, later: u16) {
    let moved = |minute: u16| minute.wrapping_add(later).min(Limits::MINUTE.most);
    for train in used_parts(line).2 {
        train.earliest = moved(train.earliest);
        train.latest = moved(train.latest);
    }
    let bookings = line.bookings[..usize::from(line.booking_count)].iter_mut();
    for booking in bookings {
        booking.minute = moved(booking.minute);
    }
    for due in &mut line.dues[..usize::from(line.due_count)] {
        due.minute = moved(due.minute);
    }
}

/// Draws each second latest arrival to the one that there is.
fn just_in_time(random: &mut Random, trains: &mut [Train], arrivals: &[u16]) {
    for (train, &arrival) in trains.iter_mut().zip(arrivals) {
        train.latest = random.one_of(&[train.latest, arrival]);
    }
}
