//! The library's export of stop times beside the independent one: lawful timetables and others of every
//! size, damaged texts, lent buffers of every length; and what is exported is read back.

mod guarded;
mod stop_times;

use gaugeviolet::{STOP_TIMES_BYTES, TIMETABLE_BYTES};
use independent::rules::Minutes;
use independent::{timetable, Line};
use inputs::{any_minutes, damage_bytes, damage_lines, damaged, due_planned, fully_due_planned};
use inputs::{full_size, planned, sizes, small_planned, with_one_byte_damaged};
use inputs::{Damage, Density, Least, Pair, Planned, Random, Seen, Traffic};
use stop_times::{file_of, Compared, Operation};

// What each test must at least have seen stands before it; here are the inputs of all of them.
const ALL: usize = Least::inputs_of(&[
    &EVERY_SIZE,
    &EVERY_DAMAGE,
    &NOT_JUDGED,
    &EVERY_MINUTE,
    &ONE_BYTE,
    &DAMAGED_FILES,
    &CUT_SHORT,
    &LENGTHS,
]);
const _: () = assert!(ALL >= 100_000);

const FILE_A: &[u8] = include_bytes!("../../../samples/a.line");
const TIMETABLE_A: &[u8] = include_bytes!("../../../samples/a.timetable");

static EXPORT: Operation = Operation {
    name: "exporting",
    library: gaugeviolet::export,
    independent: independent::stop_times::export_into,
};

/// Compares the export, and holds that the library's import gives the train count and the train lines with
/// which the timetable begins.
fn there_and_back(compared: &mut Compared, file: &[u8], timetable: &[u8]) {
    let Some(text) = compared.texts(file, timetable) else {
        return;
    };
    let mut lent = [0xa5; TIMETABLE_BYTES];
    let length =
        gaugeviolet::import(file, &text, &mut lent).expect("stop times that were exported");
    let trains = independent::read(file)
        .expect("an accepted file")
        .train_count;
    let ends = |&at: &usize| timetable[at] == b'\n';
    let end = (0..timetable.len()).filter(ends).nth(usize::from(trains));
    let front = &timetable[..=end.expect("a line for each train")];
    assert!(&lent[..length] == front, "{}", inputs::shown(timetable));
    assert!(lent[length..].iter().all(|&byte| byte == 0xa5));
}

/// The texts of a line with these minutes.
fn pair_of(line: Line, minutes: Minutes) -> Pair {
    Planned { line, minutes }.pair()
}

const EVERY_SIZE: Least = Least {
    name: "every size",
    inputs: 3000,
    accepted: 3000,
    numbers: &[(6, 9000, 1)],
};

/// Lawful minutes and any minutes, of lines of every size.
#[test]
fn minutes_of_every_size() {
    let mut random = Random::new(410);
    let mut compared = Compared::new(&EXPORT);
    for (stations, trains) in sizes() {
        for traffic in [Traffic::Mixed, Traffic::Full] {
            let Pair { file, timetable } = planned(&mut random, stations, trains, traffic).pair();
            there_and_back(&mut compared, &file, &timetable);
        }
        for turn in 0..20 {
            let density = [Density::Sparse, Density::Dense][turn % 2];
            let line = inputs::line(&mut random, stations, trains, density);
            let minutes = any_minutes(&mut random, &line);
            let Pair { file, timetable } = pair_of(line, minutes);
            there_and_back(&mut compared, &file, &timetable);
        }
    }
    compared.seen.ends(&EVERY_SIZE);
}

const EVERY_DAMAGE: Least = Least {
    name: "every damage",
    inputs: 22_000,
    accepted: 12_000,
    numbers: &[
        (2, 150, 40),
        (3, 200, 60),
        (4, 2, 2),
        (6, 36_000, 1),
        (7, 600, 1),
        (8, 5000, 38),
        (9, 1800, 32),
        (19, 60, 40),
    ],
};

#[test]
fn every_damage_to_lines_of_every_size() {
    let mut random = Random::new(411);
    let mut compared = Compared::new(&EXPORT);
    for (stations, trains) in sizes().chain([(12, 12); 60]) {
        let traffic = random.one_of(&[Traffic::Mixed, Traffic::Full]);
        let planned = due_planned(&mut random, stations, trains, traffic);
        for damage in Damage::ALL.into_iter().cycle().take(8 * Damage::ALL.len()) {
            let Pair { file, timetable } = damaged(&mut random, &planned, damage);
            there_and_back(&mut compared, &file, &timetable);
        }
    }
    compared.seen.ends(&EVERY_DAMAGE);
}

const NOT_JUDGED: Least = Least {
    name: "not judged",
    inputs: 10_000,
    accepted: 10_000,
    numbers: &[(6, 30_000, 1)],
};

/// Timetables that the check refuses, by each rule, by a list and by the total, are exported all the same.
#[test]
fn rules_lists_and_total_are_not_judged() {
    let mut random = Random::new(412);
    let mut compared = Compared::new(&EXPORT);
    let mut refused = Seen::default();
    while refused.inputs() < NOT_JUDGED.inputs {
        let planned = match random.below(3) {
            0 => small_planned(&mut random),
            _ => {
                let (stations, trains) = (random.within(2, 12), random.within(1, 12));
                due_planned(&mut random, stations, trains, Traffic::Mixed)
            }
        };
        for damage in [
            Damage::Minute,
            Damage::Leg,
            Damage::Train,
            Damage::List,
            Damage::Total,
            Damage::Demand,
        ] {
            let Pair { file, timetable } = damaged(&mut random, &planned, damage);
            let checked = independent::check(&file, &timetable);
            // Those that are no timetable of the line are in other tests.
            if checked.is_err_and(|refusal| refusal.number > 9) {
                refused.input(checked.map_err(|refusal| (refusal.number, refusal.place)));
                there_and_back(&mut compared, &file, &timetable);
            }
        }
    }
    compared.seen.ends(&NOT_JUDGED);
    refused.ends(&Least {
        name: "what the check refused them by",
        inputs: NOT_JUDGED.inputs,
        accepted: 0,
        numbers: &[
            (10, 600, 12),
            (11, 2500, 12),
            (12, 1000, 12),
            (13, 800, 12),
            (14, 450, 11),
            (15, 40, 7),
            (16, 1200, 20),
            (17, 1300, 1),
            (18, 150, 12),
        ],
    });
}

const EVERY_MINUTE: Least = Least {
    name: "every minute",
    inputs: 8640,
    accepted: 8640,
    numbers: &[(6, 25_920, 1)],
};

/// Every minute up to 47:59 as a departure, as an arrival, at ends and between them, of trains both ways.
#[test]
fn every_minute_up_to_the_last() {
    let mut compared = Compared::new(&EXPORT);
    let line = independent::read(FILE_A).expect("a line file");
    for minute in 0..2880 {
        let other = 2879 - minute;
        for rows in [
            [vec![minute; 4], vec![other; 4]],
            [
                vec![minute, other, minute, other],
                vec![0, minute, 2879, other],
            ],
            [vec![0, 20, minute, 40], vec![minute, 15, 24, 39]],
        ] {
            let minutes = Minutes::of_rows(&line, &rows);
            there_and_back(&mut compared, FILE_A, &timetable::write(&line, &minutes));
        }
    }
    compared.seen.ends(&EVERY_MINUTE);
}

const ONE_BYTE: Least = Least {
    name: "one byte",
    inputs: 57_000,
    accepted: 1600,
    numbers: &[
        (2, 30_000, 12),
        (3, 800, 10),
        (4, 10, 2),
        (6, 4800, 1),
        (8, 20_000, 8),
        (9, 350, 5),
    ],
};

#[test]
fn one_damaged_byte() {
    let mut compared = Compared::new(&EXPORT);
    for timetable in with_one_byte_damaged(TIMETABLE_A) {
        there_and_back(&mut compared, FILE_A, &timetable);
    }
    for file in with_one_byte_damaged(FILE_A) {
        there_and_back(&mut compared, &file, TIMETABLE_A);
    }
    compared.seen.ends(&ONE_BYTE);
}

const DAMAGED_FILES: Least = Least {
    name: "damaged files",
    inputs: 10_000,
    accepted: 450,
    numbers: &[
        (2, 6500, 160),
        (3, 700, 110),
        (4, 12, 8),
        (6, 1400, 1),
        (7, 180, 1),
        (8, 450, 35),
        (9, 45, 15),
        (19, 350, 110),
    ],
};

/// The file's own numbers come before those of the timetable, whatever that is.
#[test]
fn damaged_line_files_with_good_and_bad_timetables() {
    let mut random = Random::new(413);
    let mut compared = Compared::new(&EXPORT);
    for turn in 0..100 {
        let planned = match turn % 4 {
            0 => fully_due_planned(&mut random),
            _ => {
                let (stations, trains) = (random.within(3, 12), random.within(1, 12));
                due_planned(&mut random, stations, trains, Traffic::Mixed)
            }
        };
        for _ in 0..50 {
            let damage = random.one_of(&[Damage::Nothing, Damage::Field, Damage::Length]);
            let Pair { file, timetable } = damaged(&mut random, &planned, damage);
            let mut bytes = file.clone();
            damage_bytes(&mut random, &mut bytes, 1);
            there_and_back(&mut compared, &bytes, &timetable);
            there_and_back(&mut compared, &damage_lines(&mut random, &file), &timetable);
        }
    }
    compared.seen.ends(&DAMAGED_FILES);
}

const CUT_SHORT: Least = Least {
    name: "cut short",
    inputs: 13_000,
    accepted: 34,
    numbers: &[
        (2, 4700, 172),
        (3, 2, 2),
        (6, 102, 1),
        (8, 8200, 37),
        (9, 3, 2),
    ],
};

#[test]
fn cut_short_at_every_byte() {
    let mut random = Random::new(414);
    let mut compared = Compared::new(&EXPORT);
    compared.cut_short(FILE_A, TIMETABLE_A);
    let full = fully_due_planned(&mut random).pair();
    compared.cut_short(&full.file, &full.timetable);
    for (stations, trains) in [
        (2, 0),
        (2, 1),
        (3, 3),
        (4, 7),
        (12, 1),
        (9, 3),
        (5, 12),
        (12, 8),
    ] {
        let Pair { file, timetable } =
            due_planned(&mut random, stations, trains, Traffic::Full).pair();
        compared.cut_short(&file, &timetable);
    }
    compared.seen.ends(&CUT_SHORT);
}

const LENGTHS: Least = Least {
    name: "lengths",
    inputs: 448,
    accepted: 0,
    numbers: &[(1, 112, 1), (2, 112, 1), (7, 128, 1), (8, 96, 3)],
};

#[test]
fn lengths() {
    let mut compared = Compared::new(&EXPORT);
    compared.lengths(FILE_A, TIMETABLE_A);
    let full = fully_due_planned(&mut Random::new(415)).pair();
    compared.lengths(&full.file, &full.timetable);
    compared.seen.ends(&LENGTHS);
}

/// 12 trains over 12 stations: 4,096 bytes always suffice.
#[test]
fn the_longest_stop_times() {
    let mut random = Random::new(416);
    let mut compared = Compared::new(&EXPORT);
    for minute in [0, 1439, 2879] {
        let line = full_size(&mut random);
        let minutes = Minutes::of_rows(&line, &vec![vec![minute; 22]; 12]);
        let Pair { file, timetable } = pair_of(line, minutes);
        let text = compared.texts(&file, &timetable).expect("in order");
        assert_eq!(text.len(), 3766);
        for few in [3764, 3765] {
            compared.lent(&file, &timetable, few, Err((6, 0)));
        }
        for enough in [3766, 3767, STOP_TIMES_BYTES] {
            compared.lent(&file, &timetable, enough, Ok(&text));
        }
    }
}

/// Every number of lent bytes: the text and nothing else is written, or no byte.
#[test]
fn every_lent_length() {
    let mut random = Random::new(417);
    let mut compared = Compared::new(&EXPORT);
    compared.every_lent_length(FILE_A, TIMETABLE_A);
    let line = full_size(&mut random);
    let minutes = any_minutes(&mut random, &line);
    let full = pair_of(line, minutes);
    compared.every_lent_length(&full.file, &full.timetable);
    for trains in [0, 1] {
        let line = inputs::line(&mut random, 2, trains, Density::Dense);
        let minutes = any_minutes(&mut random, &line);
        let timetable = timetable::write(&line, &minutes);
        compared.every_lent_length(&file_of(&line), &timetable);
    }
    assert_eq!(compared.seen.inputs(), 4);
}
