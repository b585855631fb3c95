//! The three planners beside each other on lines with bookings, and the free arrival of one train beside
//! every choice of minutes.

use independent::rules::{first_breach, free_arrival, Minutes};
use independent::search::plan_by_search;
use independent::walk::{plan_by_walk, solve_within};
use independent::{Line, Train};
use inputs::{beside_another, beside_walks, booked_short_walks, booked_small_walks};
use inputs::{booked_saturday, booked_small_line, fully_booked_planned};
use inputs::{BookingCorners, LineWalk, Random, Style};

/// Counts what the bookings of the lines do as they are used.
fn counted<'a>(
    walks: impl Iterator<Item = LineWalk> + 'a,
    corners: &'a mut BookingCorners,
) -> impl Iterator<Item = LineWalk> + 'a {
    walks.inspect(|walk| corners.count(&walk.line, walk.walked.best.as_ref()))
}

/// Each of these lines has its walk held to trying every order.
#[test]
fn the_search_and_every_order_on_small_lines() {
    let mut bookings = BookingCorners::default();
    let walks = counted(booked_small_walks(90).take(40_000), &mut bookings);
    beside_walks(walks, plan_by_search).ends("small lines", 1000);
    bookings.ends("small lines", 1000);
}

#[test]
fn the_walk_and_every_order_on_small_lines() {
    let corners = beside_walks(booked_small_walks(91).take(6000), plan_by_walk);
    corners.ends("small lines", 200);
}

#[test]
fn the_search_beside_the_walk_on_lines_of_every_shape() {
    let mut bookings = BookingCorners::default();
    let walks = counted(booked_short_walks(92, 5000).take(6000), &mut bookings);
    beside_walks(walks, plan_by_search).ends("lines of every shape", 200);
    bookings.ends("lines of every shape", 100);
}

#[test]
fn the_search_beside_the_walk_on_saturdays() {
    let mut random = Random::new(93);
    for style in Style::ALL {
        let saturdays = (0..90).map(|_| booked_saturday(&mut random, style));
        let walk = |line: &_| solve_within(line, 200_000).ok();
        let outcomes = beside_another(saturdays, walk, plan_by_search);
        println!("{style:?}: {outcomes:?}");
        assert!(outcomes.lines >= 40 && outcomes.delayed >= 25);
    }
}

/// 120 bookings leave the planners little to choose: the lawful timetable that they were made from, or a
/// better one.
#[test]
fn lines_with_120_bookings() {
    let mut random = Random::new(89);
    let lines = (0..200).map(|_| fully_booked_planned(&mut random).line);
    let walk = |line: &_| solve_within(line, 200_000).ok();
    let outcomes = beside_another(lines, walk, plan_by_search);
    println!("120 bookings: {outcomes:?}");
    assert!(outcomes.lines >= 100 && outcomes.without == 0);
}

/// One train of a line alone, with its bookings, and so much time that it can be late.
fn alone(line: &Line, number: usize) -> Line {
    let mut alone = Line {
        train_count: 1,
        booking_count: 0,
        ..*line
    };
    alone.trains[0] = Train {
        latest: 2879,
        ..line.trains[number]
    };
    for booking in line.used_bookings() {
        if usize::from(booking.train) == number + 1 {
            let place = usize::from(alone.booking_count);
            alone.bookings[place] = *booking;
            alone.bookings[place].train = 1;
            alone.booking_count += 1;
        }
    }
    alone
}

/// The least last arrival of the train over all departures before minute `end` that keep rules 10, 11, 12
/// and 18. A train alone breaks no other.
fn least_last_arrival(line: &Line, end: u16) -> Option<u16> {
    let train = &line.trains[0];
    let mut departures = vec![0; train.legs()];
    let mut least = None;
    loop {
        let times = departures.iter().zip(&train.runs);
        let row: Vec<u16> = times.flat_map(|(&from, run)| [from, from + run]).collect();
        let last = row[row.len() - 1];
        let lawful = first_breach(line, &Minutes::of_rows(line, &[row])).is_ok();
        if lawful && least.is_none_or(|least| last < least) {
            least = Some(last);
        }
        // The next departures, as a number of that many digits.
        let Some(leg) = departures.iter().rposition(|&from| from + 1 < end) else {
            return least;
        };
        departures[leg] += 1;
        departures[leg + 1..].fill(0);
    }
}

#[test]
fn free_arrival_is_the_least_last_arrival() {
    let mut random = Random::new(94);
    let (mut trains, mut moved) = (0, 0);
    while trains < 3000 {
        let stations = random.within(2, 4);
        let line = booked_small_line(&mut random, stations, 3);
        for number in 0..3 {
            let alone = alone(&line, number);
            let unbooked = Line {
                booking_count: 0,
                ..alone
            };
            let free = free_arrival(&line, number);
            let least = least_last_arrival(&alone, 32);
            assert_eq!(least.map(u32::from), Some(free), "{line:?}");
            assert_eq!(free_arrival(&alone, 0), free);
            trains += 1;
            moved += usize::from(free > free_arrival(&unbooked, 0));
        }
    }
    println!("{trains} trains, of which bookings move {moved}");
    assert!(moved >= 500);
}
