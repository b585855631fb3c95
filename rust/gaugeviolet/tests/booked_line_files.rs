//! The library beside the independent reader and writer, on line files with a section of bookings, good
//! and bad. For each one reading is compared, and rewriting with lent buffers of several lengths.

mod altered;
mod common;
mod guarded;
mod sections;

use altered::{bytes_after, cut_short};
use common::Compared;
use independent::Line;
use inputs::{booked_full_size, misbooked, sizes, with_bookings};
use inputs::{with_one_byte_damaged, Booked, Density, Fields, Least, Misbooking, Random};
use sections::{damaged, every_number, limits, optional_places};

// What each test must at least have seen stands before it; here are the inputs of all of them.
const ALL: usize = Least::inputs_of(&[
    &VALID,
    &TWO_BOOKINGS,
    &EVERY_NUMBER,
    &LIMITS,
    &MISBOOKED,
    &ONE_BYTE,
    &DAMAGED,
    &CUT_SHORT,
    &BYTES_AFTER,
]);
const _: () = assert!(ALL >= 200_000);

/// Four stations; a train over the whole line, one back over a part of it, and one over one segment. Each
/// train that has a middle station is booked.
const SMALL: &[u8] = b"4\n1\n1\n1\n1\n3\nS 1 1\nS 1 1\nS 1 1\n3\n1 4 0 99 1 5 0 5 0 5\n\
    4 2 0 99 1 5 0 5\n2 3 0 9 1 5\n2\n1 2 30\n2 3 0\n";

/// A random line with bookings, of any size.
fn booked_line(random: &mut Random) -> Line {
    loop {
        let (stations, trains) = (random.within(3, 12), random.within(1, 12));
        let density = random.one_of(&[Density::Sparse, Density::Dense]);
        let line = inputs::line(random, stations, trains, density);
        let booked = with_bookings(random, &line, &Booked::ALL);
        if booked.booking_count > 0 {
            return booked;
        }
    }
}

const VALID: Least = Least {
    name: "valid files",
    inputs: 14_000,
    accepted: 14_000,
    numbers: &[(6, 42_000, 1)],
};

#[test]
fn valid_files_of_every_size() {
    let mut random = Random::new(110);
    let mut compared = Compared::new();
    let mut counts = std::collections::BTreeSet::new();
    for (stations, trains) in sizes() {
        for density in [Density::Sparse, Density::Dense] {
            for _ in 0..50 {
                let line = inputs::line(&mut random, stations, trains, density);
                let booked = with_bookings(&mut random, &line, &Booked::ALL);
                let text = Fields::of(&booked).text();
                // The text made here field by field is also what rewriting must give.
                compared.lent(&text, text.len(), Ok(&text));
                compared.file(&text);
                counts.insert(booked.booking_count);
            }
        }
    }
    for _ in 0..100 {
        let text = Fields::of(&booked_full_size(&mut random)).text();
        compared.lent(&text, text.len(), Ok(&text));
        compared.file(&text);
    }
    println!("{} counts of bookings", counts.len());
    assert!(counts.len() >= 90);
    compared.seen.ends(&VALID);
}

const TWO_BOOKINGS: Least = Least {
    name: "every two bookings",
    inputs: 8100,
    accepted: 12,
    numbers: &[(3, 4000, 2), (6, 36, 1), (19, 1000, 2)],
};

/// Every two bookings of every train and station, and of those next to the limits.
#[test]
fn every_two_bookings() {
    let line = independent::read(SMALL).expect("a line file");
    let mut compared = Compared::new();
    let mut all = Vec::new();
    for (train, station) in (0..=4).flat_map(|train| (0..=5).map(move |it| (train, it))) {
        all.extend([0, 2879, 2880].map(|minute| independent::Booking {
            train,
            station,
            minute,
        }));
    }
    for &first in &all {
        for &second in &all {
            let mut booked = line;
            booked.bookings[..2].copy_from_slice(&[first, second]);
            compared.file(&Fields::of(&booked).text());
        }
    }
    compared.seen.ends(&TWO_BOOKINGS);
}

const EVERY_NUMBER: Least = Least {
    name: "every number",
    inputs: 70_000,
    accepted: 5000,
    numbers: &[(2, 100, 2), (3, 60_000, 3), (6, 15_000, 1), (19, 5, 2)],
};

#[test]
fn every_number_in_every_field_of_the_section() {
    let mut compared = Compared::new();
    every_number(&mut compared, SMALL);
    compared.seen.ends(&EVERY_NUMBER);
}

const LIMITS: Least = Least {
    name: "limits",
    inputs: 100_000,
    accepted: 7000,
    numbers: &[
        (2, 50_000, 140),
        (3, 25_000, 120),
        (6, 20_000, 1),
        (19, 9000, 120),
    ],
};

#[test]
fn each_field_of_the_section_to_and_past_its_limits() {
    let mut random = Random::new(111);
    let mut compared = Compared::new();
    for at in 0..60 {
        let line = match at {
            0 | 1 => booked_full_size(&mut random),
            _ => booked_line(&mut random),
        };
        let fields = Fields::of(&line);
        let places = optional_places(&line, &fields);
        limits(&mut compared, &line, &fields, &places);
    }
    compared.seen.ends(&LIMITS);
}

const MISBOOKED: Least = Least {
    name: "misbooked",
    inputs: 45_000,
    accepted: 5000,
    numbers: &[(3, 5000, 120), (6, 15_000, 1), (19, 15_000, 120)],
};

/// Bookings out of order, at the wrong station or past a limit.
#[test]
fn every_misbooking() {
    let mut random = Random::new(112);
    let mut compared = Compared::new();
    let every = Misbooking::ALL.into_iter().cycle();
    for misbooking in every.take(MISBOOKED.inputs) {
        let line = match random.below(20) {
            0 => booked_full_size(&mut random),
            _ => booked_line(&mut random),
        };
        let wrong = misbooked(&mut random, &line, misbooking);
        compared.file(&Fields::of(&wrong).text());
    }
    compared.seen.ends(&MISBOOKED);
}

const ONE_BYTE: Least = Least {
    name: "one byte",
    inputs: 50_000,
    accepted: 1500,
    numbers: &[
        (2, 48_000, 17),
        (3, 1500, 15),
        (4, 20, 3),
        (6, 4500, 1),
        (19, 30, 2),
    ],
};

#[test]
fn one_damaged_byte() {
    let mut compared = Compared::new();
    for damaged in with_one_byte_damaged(SMALL) {
        compared.file(&damaged);
    }
    compared.seen.ends(&ONE_BYTE);
}

const DAMAGED: Least = Least {
    name: "damaged bytes and lines",
    inputs: 60_000,
    accepted: 2000,
    numbers: &[
        (2, 35_000, 140),
        (3, 5000, 120),
        (4, 50, 15),
        (6, 6000, 1),
        (19, 700, 100),
    ],
};

#[test]
fn damaged_bytes_and_lines() {
    let mut random = Random::new(113);
    let mut compared = Compared::new();
    for at in 0..20_000 {
        let line = match at % 20 {
            0 => booked_full_size(&mut random),
            _ => booked_line(&mut random),
        };
        damaged(&mut compared, &mut random, &line);
    }
    compared.seen.ends(&DAMAGED);
}

const CUT_SHORT: Least = Least {
    name: "cut short",
    inputs: 40_000,
    // Each file is whole before its section of bookings, and again once its last minute has a digit and
    // the line ends there.
    accepted: 200,
    numbers: &[(2, 39_000, 150), (3, 20, 3), (6, 600, 1)],
};

#[test]
fn cut_short_at_every_byte() {
    let mut random = Random::new(114);
    let mut compared = Compared::new();
    let mut texts = vec![SMALL.to_vec()];
    texts.extend((0..3).map(|_| Fields::of(&booked_full_size(&mut random)).text()));
    texts.extend((0..40).map(|_| Fields::of(&booked_line(&mut random)).text()));
    texts.iter().for_each(|text| cut_short(&mut compared, text));
    compared.seen.ends(&CUT_SHORT);
}

const BYTES_AFTER: Least = Least {
    name: "bytes after",
    inputs: 26_000,
    accepted: 0,
    // A section of dues may follow: it is not empty, and what has no form is none.
    numbers: &[(2, 26_000, 40), (3, 100, 40)],
};

#[test]
fn bytes_after_the_bookings() {
    let mut random = Random::new(115);
    let mut compared = Compared::new();
    for at in 0..100 {
        let line = match at {
            0 => booked_full_size(&mut random),
            _ => booked_line(&mut random),
        };
        let text = Fields::of(&line).text();
        let more = [
            "0\n",
            "\n\n",
            " \n",
            "1\n1 2 0\n",
            "12 11 2879\n",
            "\0\0\0\0",
        ];
        bytes_after(&mut compared, &text, &more);
    }
    compared.seen.ends(&BYTES_AFTER);
}
