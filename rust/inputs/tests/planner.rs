//! The planner that tries every order beside one that tries every minute, on tiny lines.

use independent::exhaustive::best;
use independent::rules::{first_breach, free_arrival, weighted_delay, Minutes};
use independent::{Line, Train};
use inputs::{booked_small_line, due_small_line, small_line, Random};

/// Every row of minutes with which the train, were it alone and without bookings, keeps rules 10 to 13.
fn rows_alone(train: &Train) -> Vec<Vec<u16>> {
    let mut rows: Vec<Vec<u16>> = vec![Vec::new()];
    for leg in 0..train.legs() {
        let longer = |row: &Vec<u16>| -> Vec<Vec<u16>> {
            let ready = match row.last() {
                Some(arrival) => arrival + train.stops[leg - 1],
                None => train.earliest,
            };
            let with_leg =
                |departure: u16| [&row[..], &[departure, departure + train.runs[leg]]].concat();
            (ready..=train.latest)
                .map(with_leg)
                .filter(|row| row[row.len() - 1] <= train.latest)
                .collect()
        };
        rows = rows.iter().flat_map(longer).collect();
    }
    rows
}

/// The best timetable by trying every row of every train with every other, judged by the rules
/// alone.
fn best_by_minutes(line: &Line) -> Option<Minutes> {
    let alone: Vec<Vec<Vec<u16>>> = line.used_trains().iter().map(rows_alone).collect();
    let mut best: Option<((u32, Vec<u16>), Minutes)> = None;
    every_choice(&alone, &mut Vec::new(), &mut |rows| {
        let minutes = Minutes::of_rows(line, rows);
        if first_breach(line, &minutes).is_err() {
            return;
        }
        let key = (
            weighted_delay(line, &minutes),
            minutes.departures_by_train(line),
        );
        if best.as_ref().is_none_or(|(least, _)| key < *least) {
            best = Some((key, minutes));
        }
    });
    best.map(|(_, minutes)| minutes)
}

/// Calls `visit` with every choice of one row for each train.
fn every_choice(
    alone: &[Vec<Vec<u16>>],
    chosen: &mut Vec<Vec<u16>>,
    visit: &mut impl FnMut(&[Vec<u16>]),
) {
    let Some(rows) = alone.get(chosen.len()) else {
        visit(chosen);
        return;
    };
    for row in rows {
        chosen.push(row.clone());
        every_choice(alone, chosen, visit);
        chosen.pop();
    }
}

/// What was compared.
#[derive(Default)]
struct Compared {
    lines: usize,
    without: usize,
    delayed: usize,
}

impl Compared {
    fn line(&mut self, line: &Line) {
        let by_orders = best(line, 1_000_000).expect("enough work for a tiny line");
        assert_eq!(
            by_orders,
            best_by_minutes(line),
            "{}",
            String::from_utf8_lossy(&independent::write(line).expect("a line within the limits"))
        );
        self.lines += 1;
        match by_orders {
            Some(minutes) => self.delayed += usize::from(delayed(line, &minutes)),
            None => self.without += 1,
        }
    }
}

/// Whether any train, of whatever weight, comes in after its free arrival.
fn delayed(line: &Line, minutes: &Minutes) -> bool {
    let rows = minutes.rows(line);
    let late = |(i, row): (usize, &Vec<u16>)| u32::from(row[row.len() - 1]) > free_arrival(line, i);
    rows.iter().enumerate().any(late)
}

fn compare(seed: u64, stations: u16, trains: u16, lines: usize) {
    compare_of(small_line, seed, (stations, trains), lines);
}

/// The same with bookings, a few minutes after the trains could leave at most.
fn compare_booked(seed: u64, stations: u16, trains: u16, lines: usize) {
    compare_of(booked_small_line, seed, (stations, trains), lines);
}

/// The same with dues, half of them with bookings.
fn compare_due(seed: u64, stations: u16, trains: u16, lines: usize) {
    compare_of(due_small_line, seed, (stations, trains), lines);
}

fn compare_of(
    draw: fn(&mut Random, u16, u16) -> Line,
    seed: u64,
    (stations, trains): (u16, u16),
    lines: usize,
) {
    let mut random = Random::new(seed);
    let mut compared = Compared::default();
    for _ in 0..lines {
        compared.line(&draw(&mut random, stations, trains));
    }
    let Compared {
        lines,
        without,
        delayed,
    } = compared;
    println!("{stations} stations, {trains} trains: {lines} lines, {without} without a timetable, {delayed} with a delay");
    // Neither kind is rare.
    assert!(without * 20 >= lines && delayed * 20 >= lines);
}

#[test]
fn two_stations_two_trains() {
    compare(40, 2, 2, 3000);
}

#[test]
fn two_stations_three_trains() {
    compare(41, 2, 3, 2000);
}

#[test]
fn three_stations_two_trains() {
    compare(42, 3, 2, 2000);
}

#[test]
fn three_stations_three_trains() {
    compare(43, 3, 3, 300);
}

#[test]
fn four_stations_two_trains() {
    compare(44, 4, 2, 500);
}

#[test]
fn three_stations_two_trains_with_bookings() {
    compare_booked(45, 3, 2, 3000);
}

#[test]
fn three_stations_three_trains_with_bookings() {
    compare_booked(46, 3, 3, 200);
}

#[test]
fn four_stations_two_trains_with_bookings() {
    compare_booked(47, 4, 2, 300);
}

#[test]
fn two_stations_three_trains_with_dues() {
    compare_due(48, 2, 3, 2000);
}

#[test]
fn three_stations_two_trains_with_dues() {
    compare_due(49, 3, 2, 3000);
}

#[test]
fn three_stations_three_trains_with_dues() {
    compare_due(140, 3, 3, 200);
}

#[test]
fn four_stations_two_trains_with_dues() {
    compare_due(141, 4, 2, 300);
}
