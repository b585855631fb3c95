//! The library's check beside the independent one, on line files with bookings: right timetables, damaged
//! ones, bookings a minute too late for them, and several rules broken at once.

mod checked;

use checked::Compared;
use independent::rules::Minutes;
use independent::{Booking, Line};
use inputs::{booked_planned, booked_small_planned, fully_booked_planned, with_harder_demands};
use inputs::{Least, Pair, Planned, Random, Traffic};

// What each test must at least have seen stands before it; here are the inputs of all of them.
const ALL: usize = Least::inputs_of(&[
    &EVERY_DAMAGE,
    &SMALL_LINES,
    &SEVERAL_FAULTS,
    &EACH_BOOKING,
    &EVERY_MINUTE,
    &DAMAGED_FILES,
    &CUT_SHORT,
]);
const _: () = assert!(ALL >= 200_000);

const EVERY_DAMAGE: Least = Least {
    name: "every damage",
    inputs: 140_000,
    accepted: 20_000,
    numbers: &[
        (2, 1000, 60),
        (3, 1000, 60),
        (4, 20, 10),
        (7, 4000, 1),
        (8, 35_000, 38),
        (9, 10_000, 36),
        (10, 1500, 12),
        (11, 15_000, 12),
        (12, 3000, 12),
        (13, 1500, 12),
        (14, 1000, 11),
        (15, 300, 10),
        (16, 6000, 22),
        (17, 6000, 1),
        (18, 2000, 12),
        (19, 1000, 100),
    ],
};

#[test]
fn every_damage_to_lines_of_every_size() {
    let mut random = Random::new(150);
    let mut compared = Compared::default();
    compared.every_damage_to_every_size(&mut random, booked_planned);
    compared.seen.ends(&EVERY_DAMAGE);
}

const SMALL_LINES: Least = Least {
    name: "small lines",
    inputs: 42_000,
    accepted: 8000,
    numbers: &[
        (2, 400, 13),
        (3, 600, 12),
        (4, 10, 3),
        (7, 1200, 1),
        (8, 10_000, 10),
        (9, 4000, 9),
        (10, 1000, 3),
        (11, 3500, 3),
        (12, 500, 3),
        (13, 500, 3),
        (14, 100, 3),
        (15, 10, 1),
        (16, 1000, 4),
        (17, 1500, 1),
        (18, 600, 3),
        (19, 60, 8),
    ],
};

#[test]
fn every_damage_to_small_lines() {
    let mut random = Random::new(151);
    let mut compared = Compared::default();
    for _ in 0..1000 {
        let planned = booked_small_planned(&mut random);
        compared.every_damage(&mut random, &planned, 3);
    }
    compared.seen.ends(&SMALL_LINES);
}

const SEVERAL_FAULTS: Least = Least {
    name: "several faults",
    inputs: 60_000,
    accepted: 5000,
    numbers: &[
        (10, 5000, 12),
        (11, 3000, 12),
        (12, 5000, 12),
        (13, 5000, 12),
        (14, 100, 4),
        (15, 1, 1),
        (18, 10_000, 12),
    ],
};

/// Several demands harder at once, and minutes moved too: the order of the numbers (18 after 12 and before
/// 13) and the lowest train decide.
#[test]
fn several_faults_at_once() {
    let mut random = Random::new(152);
    let mut compared = Compared::default();
    for turn in 0..600 {
        let planned = match turn % 4 {
            0 => booked_small_planned(&mut random),
            1 => fully_booked_planned(&mut random),
            _ => {
                let (stations, trains) = (random.within(3, 12), random.within(1, 12));
                booked_planned(&mut random, stations, trains, Traffic::Full)
            }
        };
        for _ in 0..50 {
            let harder = with_harder_demands(&mut random, &planned);
            compared.planned(&harder);
            compared.planned(&moved(&mut random, &harder));
        }
    }
    compared.seen.ends(&SEVERAL_FAULTS);
}

/// The same line with minutes in which a few trains, from some departure on, run a minute earlier.
fn moved(random: &mut Random, planned: &Planned) -> Planned {
    let mut rows = planned.minutes.rows(&planned.line);
    for row in &mut rows {
        if random.below(6) == 0 {
            // One that begins at an arrival alters the run too.
            let from = random.below(row.len() / 2) * 2 + usize::from(random.below(8) == 0);
            for time in &mut row[from..] {
                *time = time.saturating_sub(1);
            }
        }
    }
    Planned {
        line: planned.line,
        minutes: Minutes::of_rows(&planned.line, &rows),
    }
}

const EACH_BOOKING: Least = Least {
    name: "each booking",
    inputs: 20_000,
    accepted: 7000,
    numbers: &[(18, 12_000, 12)],
};

/// Each of 120 bookings alone at, before and after its departure: one train alone breaks 18.
#[test]
fn each_booking_before_at_and_after_its_departure() {
    let mut random = Random::new(153);
    let mut compared = Compared::default();
    for _ in 0..35 {
        let planned = fully_booked_planned(&mut random);
        for at in 0..usize::from(planned.line.booking_count) {
            let departure = departure_of(&planned, &planned.line.bookings[at]);
            for minute in [0, departure, departure + 1, departure + 256, 2879] {
                let mut other = planned;
                other.line.bookings[at].minute = minute.min(2879);
                compared.planned(&other);
            }
        }
    }
    compared.seen.ends(&EACH_BOOKING);
}

/// When the train of a booking leaves the booked station.
fn departure_of(planned: &Planned, booking: &Booking) -> u16 {
    let train = usize::from(booking.train) - 1;
    let path = &planned.line.trains[train];
    planned.minutes.departures[path.segment(path.leg_from(booking.station))][train]
}

const EVERY_MINUTE: Least = Least {
    name: "every minute",
    inputs: 46_000,
    accepted: 15_000,
    numbers: &[(12, 5000, 1), (13, 6000, 1), (18, 16_000, 1)],
};

/// Every booked minute with departures around it, each way: delay and total by the booking too.
#[test]
fn every_booked_minute() {
    let mut compared = Compared::default();
    for ends in ["1 3", "3 1"] {
        for booked in 0..2880 {
            let line = one_train(ends, booked);
            let near = [booked.saturating_sub(1), booked, booked + 1, booked + 300];
            for departure in near.into_iter().chain([9, 10, 11, 2874]) {
                let departure = departure.min(2874);
                compared.rows(&line, &[vec![0, 8, departure, departure + 5]]);
            }
        }
    }
    compared.seen.ends(&EVERY_MINUTE);
}

/// A train over two segments with a stop of two minutes, booked there.
fn one_train(ends: &str, minute: u16) -> Line {
    let file = format!("3\n1\n1\n1\n2\nS 1 1\nS 1 1\n1\n{ends} 0 2800 1 8 2 5\n1\n1 2 {minute}\n");
    independent::read(file.as_bytes()).expect("a line file")
}

const DAMAGED_FILES: Least = Least {
    name: "damaged files",
    inputs: 30_000,
    accepted: 1000,
    numbers: &[
        (2, 20_000, 150),
        (3, 2500, 140),
        (4, 40, 20),
        (8, 2, 1),
        (9, 1, 1),
        (10, 50, 10),
        (11, 300, 12),
        (12, 50, 10),
        (13, 50, 10),
        (14, 25, 8),
        (15, 8, 4),
        (16, 1, 1),
        (17, 50, 1),
        (18, 200, 12),
        (19, 1500, 140),
    ],
};

#[test]
fn damaged_line_files_with_a_good_timetable() {
    let mut random = Random::new(154);
    let mut compared = Compared::default();
    for turn in 0..300 {
        let planned = match turn % 3 {
            0 => fully_booked_planned(&mut random),
            _ => {
                let (stations, trains) = (random.within(3, 12), random.within(1, 12));
                booked_planned(&mut random, stations, trains, Traffic::Mixed)
            }
        };
        compared.damaged_file(&mut random, &planned.pair());
    }
    compared.seen.ends(&DAMAGED_FILES);
}

const CUT_SHORT: Least = Least {
    name: "cut short",
    inputs: 40_000,
    accepted: 5,
    numbers: &[(2, 10_000, 150), (8, 20_000, 30), (9, 10, 5), (17, 20, 1)],
};

#[test]
fn cut_short_at_every_byte() {
    let mut random = Random::new(155);
    let mut compared = Compared::default();
    let mut pairs: Vec<Pair> = (0..5)
        .map(|_| fully_booked_planned(&mut random).pair())
        .collect();
    pairs.extend((0..15).map(|_| {
        let (stations, trains) = (random.within(3, 12), random.within(1, 12));
        booked_planned(&mut random, stations, trains, Traffic::Full).pair()
    }));
    pairs.iter().for_each(|pair| compared.cut_short(pair));
    compared.seen.ends(&CUT_SHORT);
}
