//! The library beside the independent reader and writer, on line files with a section of dues, good and bad.
//! For each one reading is compared, and rewriting with lent buffers of several lengths.

mod altered;
mod common;
mod guarded;
mod sections;

use altered::{bytes_after, cut_short};
use common::Compared;
use independent::{Due, Line};
use inputs::{due_full_size, sizes, with_bookings, with_due_fault, with_dues};
use inputs::{with_one_byte_damaged, Booked, Density, DueAt, DueFault, Fields, Least, Random};
use sections::{damaged, every_number, limits, optional_places};

// What each test must at least have seen stands before it; here are the inputs of all of them.
const ALL: usize = Least::inputs_of(&[
    &VALID,
    &TWO_DUES,
    &COUNTS,
    &EVERY_NUMBER,
    &LIMITS,
    &FAULTS,
    &ONE_BYTE,
    &DAMAGED,
    &CUT_SHORT,
    &BYTES_AFTER,
]);
const _: () = assert!(ALL >= 200_000);

/// Three stations; a train over the whole line, one back and one over one segment. The first and the last are
/// listed, and none is booked.
const SMALL: &[u8] =
    b"3\n1\n1\n1\n2\nS 1 1\nS 1 1\n3\n1 3 0 99 1 5 0 5\n3 1 0 99 1 5 0 5\n2 3 0 9 1 5\n\
    0\n2\n1 30\n3 0\n";

/// The same with a booking.
const SMALL_BOOKED: &[u8] = b"3\n1\n1\n1\n2\nS 1 1\nS 1 1\n3\n1 3 0 99 1 5 0 5\n3 1 0 99 1 5 0 5\n\
    2 3 0 9 1 5\n1\n2 2 7\n2\n1 30\n3 0\n";

/// A random line of any size, half of them with bookings.
fn random_line(random: &mut Random) -> Line {
    let (stations, trains) = (random.within(2, 12), random.within(1, 12));
    let density = random.one_of(&[Density::Sparse, Density::Dense]);
    let line = inputs::line(random, stations, trains, density);
    match random.below(2) {
        0 => line,
        _ => with_bookings(random, &line, &Booked::ALL),
    }
}

/// The same with dues.
fn due_line(random: &mut Random) -> Line {
    let line = random_line(random);
    with_dues(random, &line, &DueAt::ALL)
}

/// One of these, or one in twenty with the longest text.
fn due_line_of_any_length(random: &mut Random) -> Line {
    match random.below(20) {
        0 => due_full_size(random),
        _ => due_line(random),
    }
}

const VALID: Least = Least {
    name: "valid files",
    inputs: 14_000,
    accepted: 14_000,
    numbers: &[(6, 42_000, 1)],
};

#[test]
fn valid_files_of_every_size() {
    let mut random = Random::new(310);
    let mut compared = Compared::new();
    let mut lines: Vec<Line> = (0..100).map(|_| due_full_size(&mut random)).collect();
    for (stations, trains) in sizes() {
        for density in [Density::Sparse, Density::Dense] {
            for booked in [false, true].repeat(25) {
                let mut line = inputs::line(&mut random, stations, trains, density);
                if booked {
                    line = with_bookings(&mut random, &line, &Booked::ALL);
                }
                lines.push(with_dues(&mut random, &line, &DueAt::ALL));
            }
        }
    }
    for line in &lines {
        let text = Fields::of(line).text();
        // The text made here field by field is also what rewriting must give.
        compared.lent(&text, text.len(), Ok(&text));
        compared.file(&text);
    }
    compared.seen.ends(&VALID);
}

const TWO_DUES: Least = Least {
    name: "every two dues",
    inputs: 1800,
    accepted: 96,
    numbers: &[(3, 1000, 3), (6, 288, 1), (19, 200, 2)],
};

/// Every two dues of every train, and of those next to the limits.
#[test]
fn every_two_dues() {
    let mut compared = Compared::new();
    let minutes = [0, 1, 2878, 2879, 2880, 9999];
    let all: Vec<Due> = (0..=4)
        .flat_map(|train| minutes.map(|minute| Due { train, minute }))
        .collect();
    for file in [SMALL, SMALL_BOOKED] {
        let mut line = independent::read(file).expect("a line file");
        for &first in &all {
            for &second in &all {
                line.dues[..2].copy_from_slice(&[first, second]);
                compared.file(&Fields::of(&line).text());
            }
        }
    }
    compared.seen.ends(&TWO_DUES);
}

const COUNTS: Least = Least {
    name: "counts",
    inputs: 24_000,
    accepted: 700,
    numbers: &[(2, 5000, 50), (3, 15_000, 30), (6, 2100, 1), (19, 200, 20)],
};

/// Every count of dues from 0 to one more than the trains and past that, behind bookings and behind none. An
/// empty section of bookings at the end is among them.
#[test]
fn every_count_with_what_may_follow() {
    let mut random = Random::new(311);
    let mut compared = Compared::new();
    for (stations, trains) in sizes() {
        let line = inputs::line(&mut random, stations, trains, Density::Sparse);
        let booked = with_bookings(&mut random, &line, &[Booked::InAnyCase]);
        let mut fronts = vec![[&Fields::of(&line).text()[..], b"0\n"].concat()];
        if booked.booking_count > 0 {
            fronts.push(Fields::of(&booked).text());
        }
        for front in &fronts {
            compared.file(front);
            for count in [0, 1, trains.max(1) - 1, trains, trains + 1, 13, 120, 9999] {
                with_count(&mut compared, front, count);
            }
        }
    }
    compared.seen.ends(&COUNTS);
}

/// This count of dues behind a file, with nothing behind it, with bytes that are no due, and with as many dues
/// or one more or fewer.
fn with_count(compared: &mut Compared, front: &[u8], count: u16) {
    let listed = (1..=count.min(14)).map(|train| format!("{train} {}\n", 40 * train));
    let dues: String = listed.collect();
    let fewer = dues.trim_end().rfind('\n').map_or("", |end| &dues[..=end]);
    let more = format!("{dues}1 5\n");
    let others = [
        "",
        "\n",
        "x",
        "0\n",
        "1",
        "1 ",
        "1 x\n",
        "2 0\n1 x\n",
        "0 0\n",
    ];
    for behind in others.into_iter().chain([&dues[..], fewer, &more]) {
        let section = format!("{count}\n{behind}");
        compared.file(&[front, section.as_bytes()].concat());
    }
}

const EVERY_NUMBER: Least = Least {
    name: "every number",
    inputs: 140_000,
    accepted: 10_000,
    numbers: &[(2, 200, 5), (3, 100_000, 5), (6, 30_000, 1), (19, 7, 3)],
};

#[test]
fn every_number_in_every_field_of_the_section() {
    let mut compared = Compared::new();
    every_number(&mut compared, SMALL);
    every_number(&mut compared, SMALL_BOOKED);
    compared.seen.ends(&EVERY_NUMBER);
}

const LIMITS: Least = Least {
    name: "limits",
    inputs: 70_000,
    accepted: 7000,
    numbers: &[
        (2, 30_000, 100),
        (3, 15_000, 90),
        (6, 20_000, 1),
        (19, 2500, 80),
    ],
};

#[test]
fn each_field_of_the_section_to_and_past_its_limits() {
    let mut random = Random::new(312);
    let mut compared = Compared::new();
    for _ in 0..80 {
        let line = due_line_of_any_length(&mut random);
        let fields = Fields::of(&line);
        // The count of the bookings, and all behind them.
        let mut places = optional_places(&line, &fields);
        places.drain(1..1 + 3 * usize::from(line.booking_count));
        limits(&mut compared, &line, &fields, &places);
    }
    compared.seen.ends(&LIMITS);
}

const FAULTS: Least = Least {
    name: "faults",
    inputs: 30_000,
    accepted: 5000,
    numbers: &[(3, 8000, 120), (6, 15_000, 1), (19, 8000, 120)],
};

/// Dues out of order, twice, too many or past a limit.
#[test]
fn every_fault() {
    let mut random = Random::new(313);
    let mut compared = Compared::new();
    for fault in DueFault::ALL.into_iter().cycle().take(FAULTS.inputs) {
        let line = due_line_of_any_length(&mut random);
        let wrong = with_due_fault(&mut random, &line, fault);
        compared.file(&Fields::of(&wrong).text());
    }
    compared.seen.ends(&FAULTS);
}

const ONE_BYTE: Least = Least {
    name: "one byte",
    inputs: 90_000,
    accepted: 1500,
    numbers: &[
        (2, 80_000, 17),
        (3, 1500, 15),
        (4, 20, 3),
        (6, 4500, 1),
        (19, 10, 2),
    ],
};

#[test]
fn one_damaged_byte() {
    let mut compared = Compared::new();
    for file in [SMALL, SMALL_BOOKED] {
        for damaged in with_one_byte_damaged(file) {
            compared.file(&damaged);
        }
    }
    compared.seen.ends(&ONE_BYTE);
}

const DAMAGED: Least = Least {
    name: "damaged bytes and lines",
    inputs: 45_000,
    accepted: 2000,
    numbers: &[
        (2, 25_000, 150),
        (3, 4000, 100),
        (4, 50, 15),
        (6, 6000, 1),
        (19, 400, 100),
    ],
};

#[test]
fn damaged_bytes_and_lines() {
    let mut random = Random::new(314);
    let mut compared = Compared::new();
    for _ in 0..15_000 {
        let line = due_line_of_any_length(&mut random);
        damaged(&mut compared, &mut random, &line);
    }
    compared.seen.ends(&DAMAGED);
}

const CUT_SHORT: Least = Least {
    name: "cut short",
    inputs: 40_000,
    // Each file is whole before its sections past the third, and again behind its bookings, and once its last
    // minute has a digit and the line ends there.
    accepted: 200,
    numbers: &[(2, 39_000, 160), (3, 30, 3), (6, 600, 1)],
};

#[test]
fn cut_short_at_every_byte() {
    let mut random = Random::new(315);
    let mut compared = Compared::new();
    let mut texts = vec![SMALL.to_vec(), SMALL_BOOKED.to_vec()];
    texts.extend((0..3).map(|_| Fields::of(&due_full_size(&mut random)).text()));
    texts.extend((0..40).map(|_| Fields::of(&due_line(&mut random)).text()));
    texts.iter().for_each(|text| cut_short(&mut compared, text));
    compared.seen.ends(&CUT_SHORT);
}

const BYTES_AFTER: Least = Least {
    name: "bytes after",
    inputs: 26_000,
    accepted: 0,
    numbers: &[(2, 26_000, 40)],
};

#[test]
fn bytes_after_the_dues() {
    let mut random = Random::new(316);
    let mut compared = Compared::new();
    for _ in 0..100 {
        let text = Fields::of(&due_line_of_any_length(&mut random)).text();
        let more = ["0\n", "\n\n", " \n", "1\n1 0\n", "12 2879\n", "\0\0\0\0"];
        bytes_after(&mut compared, &text, &more);
    }
    compared.seen.ends(&BYTES_AFTER);
}
