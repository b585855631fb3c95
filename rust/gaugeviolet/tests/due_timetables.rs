//! The library's check beside the independent one, on line files with dues: right timetables, damaged ones,
//! and totals by other due minutes than the line's.

mod checked;
mod totals;

use checked::Compared;
use independent::rules::{free_arrival, last_arrival, weighted_delay, Minutes};
use independent::{Line, Train};
use inputs::{due_planned, due_small_planned, fully_due_planned, greatest_delay};
use inputs::{Least, Pair, Planned, Random, Traffic};
use totals::{near_and_wrapped, with_totals};

// What each test must at least have seen stands before it; here are the inputs of all of them.
const ALL: usize = Least::inputs_of(&[
    &EVERY_DAMAGE,
    &SMALL_LINES,
    &OTHER_TOTALS,
    &EACH_DUE,
    &EVERY_MINUTE,
    &GREATEST_TOTAL,
    &DAMAGED_FILES,
    &CUT_SHORT,
]);
const _: () = assert!(ALL >= 200_000);

const EVERY_DAMAGE: Least = Least {
    name: "every damage",
    inputs: 140_000,
    accepted: 20_000,
    numbers: &[
        (2, 1000, 60),
        (3, 1000, 60),
        (4, 20, 10),
        (7, 4000, 1),
        (8, 35_000, 38),
        (9, 10_000, 36),
        (10, 1500, 12),
        (11, 15_000, 12),
        (12, 3000, 12),
        (13, 1500, 12),
        (14, 1000, 11),
        (15, 300, 10),
        (16, 6000, 22),
        (17, 6000, 1),
        (18, 1000, 12),
        (19, 500, 80),
    ],
};

#[test]
fn every_damage_to_lines_of_every_size() {
    let mut random = Random::new(350);
    let mut compared = Compared::default();
    compared.every_damage_to_every_size(&mut random, due_planned);
    compared.seen.ends(&EVERY_DAMAGE);
}

const SMALL_LINES: Least = Least {
    name: "small lines",
    inputs: 42_000,
    accepted: 8000,
    numbers: &[
        (2, 400, 13),
        (3, 600, 12),
        (4, 10, 3),
        (7, 1200, 1),
        (8, 10_000, 10),
        (9, 4000, 9),
        (10, 1000, 3),
        (11, 3500, 3),
        (12, 500, 3),
        (13, 500, 3),
        (14, 100, 3),
        (15, 10, 1),
        (16, 1000, 4),
        (17, 1500, 1),
        (18, 150, 3),
        (19, 40, 8),
    ],
};

#[test]
fn every_damage_to_small_lines() {
    let mut random = Random::new(351);
    let mut compared = Compared::default();
    for _ in 0..1000 {
        let planned = due_small_planned(&mut random);
        compared.every_damage(&mut random, &planned, 3);
    }
    compared.seen.ends(&SMALL_LINES);
}

/// The sum of what `worth` makes of each train's weight, last arrival, due minute and free arrival.
fn sum_of(planned: &Planned, worth: impl Fn(i64, i64, i64, i64) -> i64) -> u64 {
    let Planned { line, minutes } = planned;
    let of_train = |(i, train): (usize, &Train)| {
        worth(
            i64::from(train.weight),
            i64::from(last_arrival(minutes, i, train)),
            i64::from(line.due_minute(i)),
            i64::from(free_arrival(line, i)),
        )
    };
    let trains = line.used_trains().iter().enumerate();
    trains.map(of_train).sum::<i64>().max(0) as u64
}

/// Totals by mistaken readings of the delay: from the free arrival, from the later of it and the due minute,
/// from the earlier, with early trains credited against late ones or taken for late, from 0 where nothing is
/// listed, and with a due minute of 0 taken for none.
fn mistaken(planned: &Planned) -> [u64; 7] {
    let listed_at_0 = |due: i64, free| if due == 0 { free } else { due };
    let unlisted_at_0 = {
        let mut all = *planned;
        for train in 1..=all.line.train_count {
            let listed = all.line.listed_due(usize::from(train) - 1);
            all.line.dues[usize::from(train) - 1].train = train;
            all.line.dues[usize::from(train) - 1].minute = listed.unwrap_or(0);
        }
        all.line.due_count = all.line.train_count;
        u64::from(weighted_delay(&all.line, &all.minutes))
    };
    [
        sum_of(planned, |weight, last, _, free| {
            weight * (last - free).max(0)
        }),
        sum_of(planned, |weight, last, due, free| {
            weight * (last - due.max(free)).max(0)
        }),
        sum_of(planned, |weight, last, due, free| {
            weight * (last - due.min(free)).max(0)
        }),
        sum_of(planned, |weight, last, due, _| weight * (last - due)),
        sum_of(planned, |weight, last, due, _| weight * (last - due).abs()),
        sum_of(planned, |weight, last, due, free| {
            weight * (last - listed_at_0(due, free)).max(0)
        }),
        unlisted_at_0,
    ]
}

const OTHER_TOTALS: Least = Least {
    name: "other totals",
    inputs: 40_000,
    accepted: 10_000,
    numbers: &[(17, 10_000, 1)],
};

/// Lawful timetables with their own total and with those by mistaken readings.
#[test]
fn totals_by_mistaken_readings() {
    let mut random = Random::new(352);
    let mut compared = Compared::default();
    let mut differing = [0; 7];
    for turn in 0..5000 {
        let planned = match turn % 4 {
            0 | 1 => due_small_planned(&mut random),
            2 if turn % 100 == 2 => fully_due_planned(&mut random),
            _ => {
                let (stations, trains) = (random.within(2, 6), random.within(1, 6));
                due_planned(&mut random, stations, trains, Traffic::Mixed)
            }
        };
        compared.planned(&planned);
        let own = u64::from(weighted_delay(&planned.line, &planned.minutes));
        let others = mistaken(&planned);
        for (times, other) in differing.iter_mut().zip(others) {
            *times += usize::from(other != own);
        }
        with_totals(&mut compared, &planned, others);
    }
    println!("differing by mistake: {differing:?}");
    assert!(differing.iter().all(|&times| times >= 300));
    compared.seen.ends(&OTHER_TOTALS);
}

const EACH_DUE: Least = Least {
    name: "each due",
    inputs: 10_000,
    accepted: 5000,
    numbers: &[(17, 2500, 1)],
};

/// Each of 12 dues alone before, at and after its train's arrival: with the total that follows, and with that
/// of the former due minute.
#[test]
fn each_due_before_at_and_after_its_arrival() {
    let mut random = Random::new(353);
    let mut compared = Compared::default();
    for _ in 0..70 {
        let planned = fully_due_planned(&mut random);
        let former = u64::from(weighted_delay(&planned.line, &planned.minutes));
        for at in 0..12 {
            let train = &planned.line.trains[at];
            let arrival = last_arrival(&planned.minutes, at, train);
            for minute in [0, arrival - 1, arrival, arrival + 1, 2879, arrival - 256] {
                let mut other = planned;
                other.line.dues[at].minute = minute.min(2879);
                compared.planned(&other);
                with_totals(&mut compared, &other, [former]);
            }
        }
    }
    compared.seen.ends(&EACH_DUE);
}

const EVERY_MINUTE: Least = Least {
    name: "every minute",
    inputs: 60_000,
    accepted: 15_000,
    numbers: &[(17, 30_000, 1)],
};

/// Every due minute with arrivals around it: an early train, one in time and a late one, with the right total
/// and with one more and one less.
#[test]
fn every_due_minute() {
    let mut compared = Compared::default();
    for due in 0..2880 {
        let line = two_trains(due);
        for arrival in [due.saturating_sub(1), due, due + 1, due + 256, 6, 2879] {
            let arrival = arrival.clamp(5, 2879);
            let rows = [vec![arrival - 5, arrival], vec![0, 5]];
            compared.rows(&line, &rows);
            let minutes = Minutes::of_rows(&line, &rows);
            let planned = Planned { line, minutes };
            let own = u64::from(weighted_delay(&line, &minutes));
            with_totals(
                &mut compared,
                &planned,
                [own + 1, own.saturating_sub(1), own + 256],
            );
        }
    }
    compared.seen.ends(&EVERY_MINUTE);
}

/// A train due at that minute, and one that is not listed, on double track.
fn two_trains(due: u16) -> Line {
    let trains = "1 2 0 2879 3 5\n2 1 0 2879 1 5\n";
    let file = format!("2\n1\n1\n1\nD 1 1\n2\n{trains}0\n1\n1 {due}\n");
    independent::read(file.as_bytes()).expect("a line file")
}

const GREATEST_TOTAL: Least = Least {
    name: "greatest total",
    inputs: 200,
    accepted: 1,
    numbers: &[(8, 2, 1), (17, 200, 1)],
};

/// The greatest total of all, and others that fewer bits would not tell from it.
#[test]
fn totals_near_the_greatest() {
    let mut compared = Compared::default();
    let line = greatest_delay(0);
    let minutes = Minutes::of_rows(&line, &vec![vec![2878, 2879]; 12]);
    near_and_wrapped(&mut compared, &Planned { line, minutes }, 3_420_252);
    compared.seen.ends(&GREATEST_TOTAL);
}

/// File A, whose best timetable has the total 18 by the free arrivals 40 and 30.
const FILE_A: &str = include_str!("../../../samples/a.line");
const TIMETABLE_A: &str = include_str!("../../../samples/a.timetable");

/// Right by the due minutes alone, and refused by the free arrivals; and the other way round.
#[test]
fn a_total_is_right_by_the_due_minutes_alone() {
    let mut compared = Compared::default();
    let minutes = TIMETABLE_A.strip_suffix("18\n").expect("its total");
    let dues = [
        ("1\n2 39\n", "0\n"),
        ("1\n1 39\n", "19\n"),
        ("2\n1 0\n2 0\n", "118\n"),
        ("2\n1 2879\n2 2879\n", "0\n"),
        // Train 1 is 60 minutes early, which takes nothing from the lateness of train 2.
        ("1\n1 100\n", "18\n"),
        ("2\n1 100\n2 38\n", "2\n"),
    ];
    for (section, total) in dues {
        let file = format!("{FILE_A}0\n{section}");
        let right = format!("{minutes}{total}");
        assert_eq!(
            gaugeviolet::check(file.as_bytes(), right.as_bytes()),
            Ok(())
        );
        compared.pair(file.as_bytes(), right.as_bytes());
        compared.pair(file.as_bytes(), TIMETABLE_A.as_bytes());
        compared.pair(FILE_A.as_bytes(), right.as_bytes());
    }
    compared.seen.ends(&Least {
        name: "right by the due minutes",
        inputs: 18,
        accepted: 8,
        numbers: &[(17, 10, 1)],
    });
}

const DAMAGED_FILES: Least = Least {
    name: "damaged files",
    inputs: 30_000,
    accepted: 1000,
    numbers: &[
        (2, 20_000, 150),
        (3, 2500, 120),
        (4, 40, 15),
        (8, 2, 1),
        (9, 1, 1),
        (10, 50, 10),
        (11, 300, 12),
        (12, 50, 10),
        (13, 50, 10),
        (14, 25, 8),
        (15, 8, 4),
        (16, 1, 1),
        (17, 80, 1),
        (18, 100, 12),
        (19, 800, 120),
    ],
};

#[test]
fn damaged_line_files_with_a_good_timetable() {
    let mut random = Random::new(354);
    let mut compared = Compared::default();
    for turn in 0..300 {
        let planned = match turn % 4 {
            0 => fully_due_planned(&mut random),
            _ => {
                let (stations, trains) = (random.within(3, 12), random.within(1, 12));
                due_planned(&mut random, stations, trains, Traffic::Mixed)
            }
        };
        compared.damaged_file(&mut random, &planned.pair());
    }
    compared.seen.ends(&DAMAGED_FILES);
}

const CUT_SHORT: Least = Least {
    name: "cut short",
    inputs: 40_000,
    accepted: 5,
    numbers: &[
        (2, 10_000, 160),
        (3, 5, 3),
        (8, 20_000, 30),
        (9, 10, 5),
        (17, 20, 1),
    ],
};

#[test]
fn cut_short_at_every_byte() {
    let mut random = Random::new(355);
    let mut compared = Compared::default();
    let mut pairs: Vec<Pair> = (0..5)
        .map(|_| fully_due_planned(&mut random).pair())
        .collect();
    pairs.extend((0..15).map(|_| {
        let (stations, trains) = (random.within(2, 12), random.within(1, 12));
        due_planned(&mut random, stations, trains, Traffic::Full).pair()
    }));
    pairs.iter().for_each(|pair| compared.cut_short(pair));
    compared.seen.ends(&CUT_SHORT);
}
