//! The library's check beside the independent one, on some hundred thousand pairs of a line file and
//! a timetable: right ones, damaged ones, and unlawful minutes with the lists and total of their own.

mod checked;
mod totals;

use checked::Compared;
use gaugeviolet::{FILE_BYTES, TIMETABLE_BYTES};
use independent::rules::Minutes;
use independent::{Limits, Line, Train};
use inputs::{damaged, full_size_planned, planned, small_planned, with_one_byte_damaged};
use inputs::{Damage, Density, Fields, Least, Pair, Planned, Random, Traffic};
use totals::near_and_wrapped;

// What each test must at least have seen stands before it; here are the inputs of all of them.
const ALL: usize = Least::inputs_of(&[
    &EVERY_DAMAGE,
    &SMALL_LINES,
    &SEVERAL_FAULTS,
    &ANY_MINUTES,
    &GREATEST_TOTAL,
    &TWO_ON_A_SEGMENT,
    &THREE_AT_A_STATION,
    &EVERY_NUMBER,
    &ONE_BYTE,
    &CUT_SHORT,
    &DAMAGED_FILES,
    &ARBITRARY_BYTES,
    &LENGTHS,
]);
const _: () = assert!(ALL >= 200_000);

const FILE_A: &[u8] = include_bytes!("../../../samples/a.line");
const TIMETABLE_A: &[u8] = include_bytes!("../../../samples/a.timetable");

fn random_planned(random: &mut Random) -> Planned {
    let (stations, trains) = (random.within(2, 12), random.within(0, 12));
    let traffic = random.one_of(&[Traffic::Mixed, Traffic::Full]);
    planned(random, stations, trains, traffic)
}

// All trains, segments, middle stations, lists and lines that there can be. Line 38 is past the
// last one; line 37 is the total, which has no range.
const EVERY_DAMAGE: Least = Least {
    name: "every damage",
    inputs: 142_000,
    accepted: 25_000,
    numbers: &[
        (2, 1000, 36),
        (3, 1000, 36),
        (4, 40, 12),
        (7, 4000, 1),
        (8, 35_000, 38),
        (9, 10_000, 36),
        (10, 2000, 12),
        (11, 15_000, 12),
        (12, 7000, 12),
        (13, 3000, 12),
        (14, 2500, 11),
        (15, 700, 10),
        (16, 6000, 22),
        (17, 7000, 1),
    ],
};

#[test]
fn every_damage_to_lines_of_every_size() {
    let mut random = Random::new(50);
    let mut compared = Compared::default();
    compared.every_damage_to_every_size(&mut random, planned);
    compared.seen.ends(&EVERY_DAMAGE);
}

const SMALL_LINES: Least = Least {
    name: "small lines",
    inputs: 42_000,
    accepted: 9000,
    numbers: &[
        (2, 400, 13),
        (3, 600, 12),
        (4, 40, 5),
        (7, 1200, 1),
        (8, 10_000, 12),
        (9, 4000, 10),
        (10, 1200, 3),
        (11, 3500, 3),
        (12, 1000, 3),
        (13, 1000, 3),
        (14, 500, 3),
        (15, 30, 2),
        (16, 1000, 5),
        (17, 1500, 1),
    ],
};

#[test]
fn every_damage_to_small_lines() {
    let mut random = Random::new(51);
    let mut compared = Compared::default();
    for _ in 0..1000 {
        let planned = small_planned(&mut random);
        compared.every_damage(&mut random, &planned, 3);
    }
    compared.seen.ends(&SMALL_LINES);
}

/// The same line with minutes in which some trains, from some leg on, run earlier or later.
fn careless(random: &mut Random, planned: &Planned) -> Planned {
    let mut rows = planned.minutes.rows(&planned.line);
    let (most, each) = (random.one_of(&[2, 5, 60]), random.one_of(&[2, 4, 12]));
    for row in &mut rows {
        if random.below(each) > 0 {
            continue;
        }
        // A shift that begins at an arrival alters the run too.
        let leg = random.below(row.len() / 2) * 2;
        let from = leg + usize::from(random.below(10) == 0);
        let minutes = random.within(1, most);
        let earlier = random.below(2) == 0;
        for time in &mut row[from..] {
            *time = if earlier {
                time.saturating_sub(minutes)
            } else {
                (*time + minutes).min(2879)
            };
        }
    }
    Planned {
        line: planned.line,
        minutes: Minutes::of_rows(&planned.line, &rows),
    }
}

const SEVERAL_FAULTS: Least = Least {
    name: "several faults",
    inputs: 80_000,
    accepted: 18_000,
    numbers: &[
        (2, 1000, 28),
        (3, 3500, 33),
        (4, 200, 10),
        (7, 500, 1),
        (8, 6000, 32),
        (9, 4000, 27),
        (10, 6000, 12),
        (11, 8000, 12),
        (12, 6000, 12),
        (13, 5000, 12),
        (14, 2000, 11),
        (15, 250, 9),
        (16, 800, 17),
        (17, 1500, 1),
    ],
};

/// Minutes of several trains, a list or total on top, and a harder line: the order of the numbers
/// and the lowest place decide.
#[test]
fn several_faults_at_once() {
    let mut random = Random::new(52);
    let mut compared = Compared::default();
    for turn in 0..400 {
        let planned = match turn % 2 {
            0 => small_planned(&mut random),
            _ => random_planned(&mut random),
        };
        for _ in 0..50 {
            let careless = careless(&mut random, &planned);
            let pair = careless.pair();
            compared.pair(&pair.file, &pair.timetable);
            let harder = damaged(&mut random, &careless, Damage::Demand);
            compared.pair(&harder.file, &harder.timetable);
            let damage = random.one_of(&Damage::ALL);
            let timetable = damaged(&mut random, &careless, damage).timetable;
            compared.pair(&harder.file, &timetable);
            let damage = random.one_of(&[Damage::List, Damage::Total]);
            let other = damaged(&mut random, &planned, Damage::LineField);
            let timetable = damaged(&mut random, &careless, damage).timetable;
            compared.pair(&other.file, &timetable);
        }
    }
    compared.seen.ends(&SEVERAL_FAULTS);
}

const ANY_MINUTES: Least = Least {
    name: "any minutes",
    inputs: 40_000,
    accepted: 2500,
    numbers: &[
        (10, 7000, 12),
        (11, 8000, 9),
        (13, 18_000, 4),
        (14, 150, 2),
        (15, 5, 1),
    ],
};

/// Minutes up to the last one on lines with numbers over the whole of their ranges.
#[test]
fn any_minutes_on_any_line() {
    let mut random = Random::new(57);
    let mut compared = Compared::default();
    for _ in 0..ANY_MINUTES.inputs {
        let density = random.one_of(&[Density::Sparse, Density::Dense]);
        let (stations, trains) = (random.within(2, 12), random.within(1, 12));
        let (stations, trains) = random.one_of(&[(2, 1), (2, 2), (3, 2), (stations, trains)]);
        let line = inputs::line(&mut random, stations, trains, density);
        let rows: Vec<Vec<u16>> = line
            .used_trains()
            .iter()
            .map(|train| any_row(&mut random, train))
            .collect();
        compared.rows(&line, &rows);
    }
    compared.seen.ends(&ANY_MINUTES);
}

/// Minutes with runs and stops as the train has them and some waits, as long as the day lasts.
fn any_row(random: &mut Random, train: &Train) -> Vec<u16> {
    let last = Limits::MINUTE.most;
    let wait = random.one_of(&[0, 1, 60, 1000]);
    let mut ready = train.earliest.saturating_sub(random.one_of(&[0, 0, 0, 1]));
    let mut row = Vec::new();
    for leg in 0..train.legs() {
        let departure = last.min(ready + random.within(0, wait));
        let arrival = last.min(departure + train.runs[leg]);
        row.extend([departure, arrival]);
        ready = arrival + train.stops[leg];
    }
    row
}

const GREATEST_TOTAL: Least = Least {
    name: "greatest total",
    inputs: 200,
    accepted: 1,
    numbers: &[(8, 2, 1), (17, 200, 1)],
};

/// The greatest total of a lawful timetable without dues, and others that fewer bits would not tell from it.
#[test]
fn totals_near_the_greatest() {
    let mut compared = Compared::default();
    let trains = vec!["1 2 0 2879 99 1".to_string(); 12];
    let line = line(1, &["D 1 1"], &trains);
    let rows: Vec<Vec<u16>> = (0..12).map(|late| vec![2878 - late, 2879 - late]).collect();
    let planned = Planned {
        line,
        minutes: Minutes::of_rows(&line, &rows),
    };
    near_and_wrapped(&mut compared, &planned, 3_412_530);
    compared.seen.ends(&GREATEST_TOTAL);
}

/// A line of these segments and trains, with so many tracks at each station.
fn line(tracks: u16, segments: &[&str], trains: &[String]) -> Line {
    let mut file = format!("{}\n", segments.len() + 1);
    file += &format!("{tracks}\n").repeat(segments.len() + 1);
    file += &format!("{}\n{}\n", segments.len(), segments.join("\n"));
    file += &format!("{}\n", trains.len());
    for train in trains {
        file += &format!("{train}\n");
    }
    independent::read(file.as_bytes()).expect("a line file")
}

const TWO_ON_A_SEGMENT: Least = Least {
    name: "two on a segment",
    inputs: 129_000,
    accepted: 80_000,
    numbers: &[(13, 12_000, 1), (14, 25_000, 1)],
};

/// Both trains at every minute near each other, on each kind and in each direction.
#[test]
fn two_trains_on_a_segment() {
    let mut compared = Compared::default();
    let ends = ["1 2", "2 1"];
    for segment in ["S 1 3", "S 4 2", "F 1 3", "F 4 2", "D 1 3", "D 4 2"] {
        for (one, other) in [(0, 0), (0, 1), (1, 0), (1, 1)] {
            for (run, other_run) in [(1, 1), (1, 4), (4, 1), (3, 4), (5, 5), (1, 9)] {
                let trains = [
                    format!("{} 0 2879 1 {run}", ends[one]),
                    format!("{} 0 30 2 {other_run}", ends[other]),
                ];
                let line = line(1, &[segment], &trains);
                for (departure, other) in (0..30).flat_map(|d| (0..30).map(move |o| (d, o))) {
                    let rows = [
                        vec![departure, departure + run],
                        vec![other, other + other_run],
                    ];
                    compared.rows(&line, &rows);
                }
            }
        }
    }
    compared.seen.ends(&TWO_ON_A_SEGMENT);
}

const THREE_AT_A_STATION: Least = Least {
    name: "three at a station",
    inputs: 78_000,
    accepted: 50_000,
    numbers: &[(14, 16_000, 2), (15, 11_000, 1)],
};

/// Three trains that stand at station 2, two of them at every minute near the first, in each
/// direction, with fewer and more tracks.
#[test]
fn three_trains_at_a_station() {
    let mut compared = Compared::default();
    let ends = ["1 3", "3 1"];
    for tracks in 1..=3 {
        for directions in 0..8 {
            let train = |bit: usize| format!("{} 0 2879 1 2 0 2", ends[directions >> bit & 1]);
            let line = line(tracks, &["D 1 1", "D 1 1"], &[train(0), train(1), train(2)]);
            for stands in 0..27 {
                let stands = [stands % 3, stands / 3 % 3, stands / 9];
                for (second, third) in (4..15).flat_map(|a| (4..15).map(move |b| (a, b))) {
                    let row = |(arrival, stand): (u16, u16)| {
                        let departure = arrival + stand;
                        vec![arrival - 2, arrival, departure, departure + 2]
                    };
                    let arrivals = [9, second, third];
                    let rows: Vec<Vec<u16>> = arrivals.into_iter().zip(stands).map(row).collect();
                    compared.rows(&line, &rows);
                }
            }
        }
    }
    compared.seen.ends(&THREE_AT_A_STATION);
}

const EVERY_NUMBER: Least = Least {
    name: "every number",
    inputs: 180_000,
    accepted: 17,
    numbers: &[
        (8, 100, 3),
        (9, 130_000, 6),
        (11, 23_000, 2),
        (16, 4, 2),
        (17, 19_000, 1),
    ],
};

#[test]
fn every_number_in_every_field() {
    let mut compared = Compared::default();
    let fields = Fields::of_text(TIMETABLE_A);
    for place in fields.places() {
        for number in 0..=9999 {
            compared.pair(FILE_A, &fields.text_with(place, &number.to_string()));
        }
    }
    // The total may have seven digits.
    let total = *fields.places().last().expect("a timetable has fields");
    for number in (9_000_000..10_010_000).step_by(101) {
        compared.pair(FILE_A, &fields.text_with(total, &number.to_string()));
    }
    compared.seen.ends(&EVERY_NUMBER);
}

const ONE_BYTE: Least = Least {
    name: "one byte",
    inputs: 57_000,
    accepted: 300,
    numbers: &[
        (2, 30_000, 11),
        (3, 400, 10),
        (4, 4, 2),
        (8, 20_000, 8),
        (9, 250, 5),
        (10, 30, 2),
        (11, 400, 2),
        (12, 25, 2),
        (13, 4, 2),
        (14, 35, 2),
        (15, 1, 1),
        (16, 4, 2),
        (17, 80, 1),
    ],
};

#[test]
fn one_damaged_byte() {
    let mut compared = Compared::default();
    for timetable in with_one_byte_damaged(TIMETABLE_A) {
        compared.pair(FILE_A, &timetable);
    }
    for file in with_one_byte_damaged(FILE_A) {
        compared.pair(&file, TIMETABLE_A);
    }
    compared.seen.ends(&ONE_BYTE);
}

const CUT_SHORT: Least = Least {
    name: "cut short",
    inputs: 35_000,
    accepted: 25,
    numbers: &[(2, 7000, 36), (8, 25_000, 30), (9, 10, 5), (17, 40, 1)],
};

#[test]
fn cut_short_at_every_byte() {
    let mut random = Random::new(53);
    let mut compared = Compared::default();
    let mut pairs: Vec<Pair> = (0..5)
        .map(|_| full_size_planned(&mut random).pair())
        .collect();
    pairs.extend((0..20).map(|_| random_planned(&mut random).pair()));
    pairs.iter().for_each(|pair| compared.cut_short(pair));
    compared.seen.ends(&CUT_SHORT);
}

const DAMAGED_FILES: Least = Least {
    name: "damaged files",
    inputs: 30_000,
    accepted: 2000,
    numbers: &[
        (2, 20_000, 36),
        (3, 3000, 35),
        (4, 20, 12),
        (8, 10, 5),
        (10, 150, 9),
        (11, 600, 12),
        (12, 70, 9),
        (13, 100, 8),
        (14, 70, 8),
        (15, 25, 7),
        (16, 5, 4),
        (17, 180, 1),
    ],
};

#[test]
fn damaged_line_files_with_a_good_timetable() {
    let mut random = Random::new(54);
    let mut compared = Compared::default();
    for _ in 0..300 {
        let pair = random_planned(&mut random).pair();
        compared.damaged_file(&mut random, &pair);
    }
    compared.seen.ends(&DAMAGED_FILES);
}

const ARBITRARY_BYTES: Least = Least {
    name: "arbitrary bytes",
    inputs: 30_000,
    accepted: 0,
    numbers: &[(8, 25_000, 30), (9, 1000, 25), (17, 1, 1)],
};

/// Bytes from anywhere, alone and behind the first part of a good timetable.
#[test]
fn arbitrary_bytes_as_a_timetable() {
    let mut random = Random::new(55);
    let mut compared = Compared::default();
    for _ in 0..300 {
        let Pair { file, timetable } = random_planned(&mut random).pair();
        for _ in 0..100 {
            let some = random.below(timetable.len());
            let front = random.one_of(&[0, some, some]);
            let mut bytes = timetable[..front].to_vec();
            let more = random.one_of(&[1, 5, 20, 200]);
            let any = random.below(4) == 0;
            for _ in 0..random.below(more) {
                bytes.push(match any {
                    true => random.below(256) as u8,
                    false => random.one_of(b"0123456789    \n\n"),
                });
            }
            compared.pair(&file, &bytes);
        }
    }
    compared.seen.ends(&ARBITRARY_BYTES);
}

const LENGTHS: Least = Least {
    name: "lengths",
    inputs: 390,
    accepted: 0,
    numbers: &[(1, 98, 1), (2, 98, 1), (7, 112, 1), (8, 80, 3)],
};

#[test]
fn lengths() {
    let mut random = Random::new(56);
    let mut compared = Compared::default();
    let full = full_size_planned(&mut random).pair();
    let long_file = [b'1'; FILE_BYTES + 1];
    // 65,536 and a little: a length kept in 16 bits would look short.
    let lengths = [
        0,
        TIMETABLE_BYTES - 1,
        TIMETABLE_BYTES,
        TIMETABLE_BYTES + 1,
        8192,
        65_536,
    ];
    for (file, timetable) in [(FILE_A, TIMETABLE_A), (&full.file, &full.timetable)] {
        for byte in [0, b'\n', b' ', b'0', b'1', b'x', 255] {
            for length in lengths.into_iter().chain([65_536 + timetable.len()]) {
                let mut long = timetable.to_vec();
                long.resize(length, byte);
                compared.pair(file, &long);
                compared.pair(file, &vec![byte; length]);
                compared.pair(&long_file, &long);
                compared.pair(b"", &long);
            }
        }
    }
    compared.seen.ends(&LENGTHS);
}
