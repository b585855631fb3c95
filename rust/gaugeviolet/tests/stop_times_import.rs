//! The library's import of stop times beside the independent one: texts of every size, every fault, damage
//! at every byte, lent buffers of every length; and what is accepted is the export of what it gives.

mod guarded;
mod stop_times;

use gaugeviolet::STOP_TIMES_BYTES;
use independent::rules::lists;
use independent::stop_times::{export, write};
use independent::Line;
use inputs::{any_minutes, damage_bytes, damage_lines, damaged, due_planned, fully_due_planned};
use inputs::{full_size, sizes, with_every_field_altered, with_one_byte_damaged};
use inputs::{with_stop_times_fault, Damage, Density, Least, Random, StopTimesFault, Traffic};
use stop_times::{file_of, Compared, Operation};

// What each test must at least have seen stands before it; here are the inputs of all of them.
const ALL: usize = Least::inputs_of(&[
    &EVERY_FAULT,
    &EVERY_FIELD,
    &ONE_BYTE,
    &EVERY_BYTE,
    &DAMAGED_FILES,
    &OTHER_LINES,
    &CUT_SHORT,
    &ARBITRARY_BYTES,
    &LENGTHS,
]);
const _: () = assert!(ALL >= 300_000);

const FILE_A: &[u8] = include_bytes!("../../../samples/a.line");
const TIMETABLE_A: &[u8] = include_bytes!("../../../samples/a.timetable");

static IMPORT: Operation = Operation {
    name: "importing",
    library: gaugeviolet::import,
    independent: independent::stop_times::import_into,
};

/// Compares the import, and holds that accepted stop times are the library's export of what was imported:
/// with empty lists and a total of 0, as neither is judged.
fn there_and_back(compared: &mut Compared, file: &[u8], stop_times: &[u8]) {
    let Some(mut timetable) = compared.texts(file, stop_times) else {
        return;
    };
    let line = independent::read(file).expect("an accepted file");
    let list_count = lists(&line).count();
    timetable.extend(format!("{list_count}\n{}0\n", "0\n".repeat(list_count)).bytes());
    let mut lent = [0xa5; STOP_TIMES_BYTES];
    let length = gaugeviolet::export(file, &timetable, &mut lent).expect("imported minutes");
    assert!(
        &lent[..length] == stop_times,
        "{}",
        inputs::shown(stop_times)
    );
}

/// Stop times of any minutes.
fn any_stop_times(random: &mut Random, line: &Line) -> Vec<u8> {
    let minutes = any_minutes(random, line);
    write(line, &minutes)
}

fn stop_times_a() -> Vec<u8> {
    export(FILE_A, TIMETABLE_A).expect("the timetable of file A")
}

const EVERY_FAULT: Least = Least {
    name: "every fault",
    inputs: 41_000,
    accepted: 8000,
    numbers: &[(6, 24_000, 1), (20, 24_000, 146), (21, 6500, 144)],
};

/// Stop times in order and with every fault, for lines of every size.
#[test]
fn every_fault_on_lines_of_every_size() {
    let mut random = Random::new(420);
    let mut compared = Compared::new(&IMPORT);
    let mut lines: Vec<Line> = sizes()
        .flat_map(|size| [(size, Density::Sparse), (size, Density::Dense)])
        .map(|((stations, trains), density)| inputs::line(&mut random, stations, trains, density))
        .collect();
    lines.extend((0..60).map(|_| full_size(&mut random)));
    for line in lines {
        let file = file_of(&line);
        for _ in 0..8 {
            let text = any_stop_times(&mut random, &line);
            for fault in StopTimesFault::ALL {
                let wrong = with_stop_times_fault(&mut random, &text, fault);
                there_and_back(&mut compared, &file, &wrong);
            }
        }
    }
    compared.seen.ends(&EVERY_FAULT);
}

const EVERY_FIELD: Least = Least {
    name: "every field",
    inputs: 40_000,
    accepted: 1800,
    numbers: &[(6, 5000, 1), (20, 30_000, 145), (21, 7500, 144)],
};

/// Each field of each line put in every other way.
#[test]
fn every_field_altered() {
    let mut random = Random::new(421);
    let mut compared = Compared::new(&IMPORT);
    for wrong in with_every_field_altered(&stop_times_a()) {
        there_and_back(&mut compared, FILE_A, &wrong);
    }
    let sizes = [(2, 0), (2, 1), (2, 2), (3, 1), (5, 4)];
    let mut lines: Vec<Line> = sizes
        .map(|(stations, trains)| inputs::line(&mut random, stations, trains, Density::Dense))
        .into();
    lines.push(full_size(&mut random));
    for line in lines {
        let file = file_of(&line);
        for wrong in with_every_field_altered(&any_stop_times(&mut random, &line)) {
            there_and_back(&mut compared, &file, &wrong);
        }
    }
    compared.seen.ends(&EVERY_FIELD);
}

const ONE_BYTE: Least = Least {
    name: "one byte",
    inputs: 160_000,
    accepted: 4000,
    numbers: &[
        (2, 30_000, 12),
        (3, 800, 10),
        (4, 10, 2),
        (6, 12_000, 1),
        (20, 120_000, 8),
        (21, 1200, 6),
    ],
};

/// Every byte of the stop times of file A, and of the file.
#[test]
fn one_damaged_byte() {
    let mut compared = Compared::new(&IMPORT);
    let text = stop_times_a();
    for wrong in with_one_byte_damaged(&text) {
        there_and_back(&mut compared, FILE_A, &wrong);
    }
    for file in with_one_byte_damaged(FILE_A) {
        there_and_back(&mut compared, &file, &text);
    }
    compared.seen.ends(&ONE_BYTE);
}

const EVERY_BYTE: Least = Least {
    name: "every byte of longer texts",
    inputs: 38_000,
    accepted: 3000,
    numbers: &[(6, 9000, 1), (20, 31_000, 146), (21, 3800, 144)],
};

/// Every byte of longer texts, left out, doubled, one more or one less, or another that is near it.
#[test]
fn every_byte_of_longer_texts() {
    let mut random = Random::new(422);
    let mut compared = Compared::new(&IMPORT);
    for line in [
        full_size(&mut random),
        inputs::line(&mut random, 12, 5, Density::Dense),
        inputs::line(&mut random, 6, 12, Density::Sparse),
    ] {
        let file = file_of(&line);
        let text = any_stop_times(&mut random, &line);
        for at in 0..text.len() {
            let (before, after) = (&text[..at], &text[at + 1..]);
            let (byte, near) = (text[at], random.one_of(b"0123456789T,:\n\r \"t"));
            there_and_back(&mut compared, &file, &[before, after].concat());
            for bytes in [
                &[byte, byte][..],
                &[byte + 1],
                &[byte - 1],
                &[near],
                &[near, byte],
            ] {
                there_and_back(&mut compared, &file, &[before, bytes, after].concat());
            }
        }
    }
    compared.seen.ends(&EVERY_BYTE);
}

const DAMAGED_FILES: Least = Least {
    name: "damaged files",
    inputs: 15_000,
    accepted: 2500,
    numbers: &[
        (2, 7000, 170),
        (3, 1600, 140),
        (4, 35, 15),
        (6, 7500, 1),
        (19, 900, 140),
        (20, 1200, 100),
        (21, 450, 80),
    ],
};

/// The file's own numbers come before those of the stop times, whatever these are.
#[test]
fn damaged_line_files() {
    let mut random = Random::new(423);
    let mut compared = Compared::new(&IMPORT);
    for turn in 0..100 {
        let planned = match turn % 4 {
            0 => fully_due_planned(&mut random),
            _ => {
                let (stations, trains) = (random.within(2, 12), random.within(1, 12));
                due_planned(&mut random, stations, trains, Traffic::Mixed)
            }
        };
        let text = write(&planned.line, &planned.minutes);
        for _ in 0..50 {
            let fault = random.one_of(&StopTimesFault::ALL);
            let wrong = with_stop_times_fault(&mut random, &text, fault);
            let text = if random.below(2) == 0 { &text } else { &wrong };
            let file = damaged(&mut random, &planned, Damage::LineField).file;
            there_and_back(&mut compared, &file, text);
            let mut file = planned.pair().file;
            damage_bytes(&mut random, &mut file, 1);
            there_and_back(&mut compared, &file, text);
            let file = damage_lines(&mut random, &planned.pair().file);
            there_and_back(&mut compared, &file, text);
        }
    }
    compared.seen.ends(&DAMAGED_FILES);
}

const OTHER_LINES: Least = Least {
    name: "other lines",
    inputs: 20_000,
    accepted: 3300,
    numbers: &[(6, 10_000, 1), (20, 3800, 110), (21, 11_000, 95)],
};

/// The stop times of one line read for another: that with a train more or less, with a train's ends exchanged
/// or moved, and for any other.
#[test]
fn stop_times_of_another_line() {
    let mut random = Random::new(424);
    let mut compared = Compared::new(&IMPORT);
    while compared.seen.inputs() < OTHER_LINES.inputs {
        let (stations, trains) = (random.within(2, 12), random.within(1, 12));
        let line = inputs::line(&mut random, stations, trains, Density::Dense);
        let text = any_stop_times(&mut random, &line);
        let mut other = line;
        let at = random.below(usize::from(trains));
        let train = &mut other.trains[at];
        match random.below(5) {
            0 => std::mem::swap(&mut train.origin, &mut train.destination),
            1 => *train = inputs::line(&mut random, stations, 1, Density::Dense).trains[0],
            2 => other.train_count -= 1,
            3 => other = inputs::line(&mut random, stations, trains, Density::Dense),
            _ => other.trains.swap(at, random.below(usize::from(trains))),
        }
        there_and_back(&mut compared, &file_of(&other), &text);
        there_and_back(
            &mut compared,
            &file_of(&line),
            &any_stop_times(&mut random, &other),
        );
    }
    compared.seen.ends(&OTHER_LINES);
}

const CUT_SHORT: Least = Least {
    name: "cut short",
    inputs: 21_000,
    accepted: 10,
    numbers: &[(2, 3700, 172), (6, 30, 1), (20, 17_000, 145), (21, 50, 50)],
};

#[test]
fn cut_short_at_every_byte() {
    let mut random = Random::new(425);
    let mut compared = Compared::new(&IMPORT);
    compared.cut_short(FILE_A, &stop_times_a());
    let planned = fully_due_planned(&mut random);
    let text = any_stop_times(&mut random, &planned.line);
    compared.cut_short(&planned.pair().file, &text);
    for (stations, trains) in [(2, 0), (2, 1), (4, 2), (12, 1), (9, 3), (5, 12), (12, 8)] {
        let line = inputs::line(&mut random, stations, trains, Density::Dense);
        compared.cut_short(&file_of(&line), &any_stop_times(&mut random, &line));
    }
    compared.seen.ends(&CUT_SHORT);
}

const ARBITRARY_BYTES: Least = Least {
    name: "arbitrary bytes",
    inputs: 10_000,
    accepted: 0,
    numbers: &[(20, 9900, 110), (21, 12, 8)],
};

/// Bytes from anywhere, alone and behind the first part of good stop times.
#[test]
fn arbitrary_bytes() {
    let mut random = Random::new(426);
    let mut compared = Compared::new(&IMPORT);
    for _ in 0..100 {
        let (stations, trains) = (random.within(2, 12), random.within(1, 12));
        let line = inputs::line(&mut random, stations, trains, Density::Dense);
        let (file, text) = (file_of(&line), any_stop_times(&mut random, &line));
        for _ in 0..100 {
            let some = random.below(text.len());
            let mut bytes = text[..random.one_of(&[0, some, some])].to_vec();
            let (more, any) = (random.one_of(&[1, 5, 20, 200]), random.below(4) == 0);
            for _ in 0..random.below(more) {
                bytes.push(match any {
                    true => random.below(256) as u8,
                    false => random.one_of(b"0123456789T,:00\n"),
                });
            }
            compared.texts(&file, &bytes);
        }
    }
    compared.seen.ends(&ARBITRARY_BYTES);
}

const LENGTHS: Least = Least {
    name: "lengths",
    inputs: 448,
    accepted: 0,
    numbers: &[(1, 112, 1), (2, 112, 1), (20, 224, 3)],
};

/// No number is for the length: a long text is refused by its first bad line, the 146th at the latest.
#[test]
fn lengths() {
    let mut random = Random::new(427);
    let mut compared = Compared::new(&IMPORT);
    compared.lengths(FILE_A, &stop_times_a());
    let line = full_size(&mut random);
    let text = any_stop_times(&mut random, &line);
    compared.lengths(&file_of(&line), &text);
    compared.seen.ends(&LENGTHS);
    let answer = gaugeviolet::import(&file_of(&line), &[&text[..], b"x"].concat(), &mut []);
    let refusal = answer.expect_err("a byte after the end");
    assert_eq!((refusal.number, refusal.place), (20, 146));
}

/// Every number of lent bytes: the text and nothing else is written, or no byte.
#[test]
fn every_lent_length() {
    let mut random = Random::new(428);
    let mut compared = Compared::new(&IMPORT);
    compared.every_lent_length(FILE_A, &stop_times_a());
    let lines = [
        full_size(&mut random),
        inputs::line(&mut random, 2, 0, Density::Dense),
        inputs::line(&mut random, 2, 1, Density::Dense),
    ];
    for line in lines {
        let text = any_stop_times(&mut random, &line);
        compared.every_lent_length(&file_of(&line), &text);
    }
    assert_eq!(compared.seen.inputs(), 4);
}
