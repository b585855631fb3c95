//! The library beside the independent reader and writer, on some hundred thousand line files, good
//! and bad. For each one reading is compared, and rewriting with lent buffers of several lengths.

mod altered;
mod common;
mod guarded;

use altered::{bytes_after, cut_short};
use common::Compared;
use independent::{Line, FILE_BYTES};
use inputs::{
    damage_bytes, damage_lines, full_size, sizes, with_one_byte_damaged, Density, Fields, Least,
    Random,
};

// What each test must at least have seen stands before it; here are the inputs of all of them.
const ALL: usize = Least::inputs_of(&[
    &VALID,
    &EVERY_NUMBER,
    &LIMITS,
    &ONE_BYTE,
    &ONE_BYTE_EVERY_SIZE,
    &MANY_BYTES,
    &WHOLE_LINES,
    &CUT_SHORT,
    &BYTES_AFTER,
    &LENGTHS,
]);
const _: () = assert!(ALL >= 200_000);

/// A small file that has every field, with two trains, one each way.
const SMALL: &[u8] = b"3\n2\n1\n2\n2\nS 5 4\nD 5 40\n2\n1 3 0 200 1 20 0 20\n3 2 7 9 99 15\n";

fn random_line(random: &mut Random) -> Line {
    let stations = random.within(2, 12);
    let trains = random.within(0, 12);
    let density = random.one_of(&[Density::Sparse, Density::Dense]);
    inputs::line(random, stations, trains, density)
}

fn random_text(random: &mut Random) -> Vec<u8> {
    Fields::of(&random_line(random)).text()
}

const VALID: Least = Least {
    name: "valid files",
    inputs: 28_000,
    accepted: 28_000,
    numbers: &[(6, 84_000, 1)],
};

#[test]
fn valid_files_of_every_size() {
    let mut random = Random::new(10);
    let mut compared = Compared::new();
    for (stations, trains) in sizes() {
        for density in [Density::Sparse, Density::Dense] {
            for _ in 0..100 {
                let line = inputs::line(&mut random, stations, trains, density);
                let text = Fields::of(&line).text();
                // The text made here field by field is also what rewriting must give.
                compared.lent(&text, text.len(), Ok(&text));
                compared.file(&text);
            }
        }
    }
    for _ in 0..100 {
        compared.file(&Fields::of(&full_size(&mut random)).text());
    }
    compared.seen.ends(&VALID);
}

const EVERY_NUMBER: Least = Least {
    name: "every number",
    inputs: 260_000,
    accepted: 5_000,
    numbers: &[(2, 20_000, 5), (3, 220_000, 10), (4, 4, 2), (6, 15_000, 1)],
};

#[test]
fn every_number_in_every_field() {
    let line = independent::read(SMALL).expect("a line file");
    let fields = Fields::of(&line);
    let mut compared = Compared::new();
    for place in fields.places() {
        for number in 0..=9999 {
            compared.file(&fields.text_with(place, &number.to_string()));
        }
    }
    compared.seen.ends(&EVERY_NUMBER);
}

/// At each limit of the ranges, next to it and past it; what wraps to a good number at 8, 16, 32 or
/// 64 bits; leading zeros; forms that are no number or no kind.
#[rustfmt::skip]
const FIELD_TEXTS: &[&str] = &[
    "0", "1", "2", "3", "9", "10", "11", "12", "13", "14", "20", "59", "60", "61", "98", "99",
    "100", "101", "239", "240", "241", "255", "256", "257", "258", "999", "1000", "2878", "2879",
    "2880", "9999",
    "10000", "12345", "28790", "65536", "65537", "65538", "99999", "4294967297",
    "18446744073709551617",
    "00", "01", "02", "012", "0002", "00002", "02879",
    "", " ", "-1", "+1", "1.", ".1", "1 1", " 1", "1 ", "1\n", "\n1", "\n", "x", "1x", "x1", "1e1",
    "0x1", "\0", "1\0", "\u{7f}", "\u{e9}",
    "S", "F", "D", "s", "f", "d", "SS", "SF", "S5", "E", "T", "R",
];

const LIMITS: Least = Least {
    name: "limits",
    inputs: 170_000,
    accepted: 10_000,
    numbers: &[
        (2, 80_000, 38),
        (3, 20_000, 37),
        (4, 2_000, 30),
        (6, 30_000, 1),
    ],
};

#[test]
fn each_field_to_and_past_its_limits() {
    let mut random = Random::new(11);
    let mut compared = Compared::new();
    for (stations, trains) in sizes() {
        let density = random.one_of(&[Density::Sparse, Density::Dense]);
        let line = inputs::line(&mut random, stations, trains, density);
        // All texts in each field of the small files, some of them in each field of the large ones.
        let each = if usize::from(stations * (trains + 1)) <= 12 {
            1
        } else {
            19
        };
        put_texts(&mut compared, &mut random, &line, each);
    }
    let longest = full_size(&mut random);
    put_texts(&mut compared, &mut random, &longest, 1);
    compared.seen.ends(&LIMITS);
}

/// Puts every `each`th of the texts, from a random one on, in the place of each field of `line`.
fn put_texts(compared: &mut Compared, random: &mut Random, line: &Line, each: usize) {
    let fields = Fields::of(line);
    for place in fields.places() {
        for text in FIELD_TEXTS.iter().skip(random.below(each)).step_by(each) {
            compared.file(&fields.text_with(place, text));
        }
        // The line's own counts, and next to them: wrong segment counts, stations past the last,
        // and destinations equal to their origins.
        for near in [
            line.station_count - 1,
            line.station_count,
            line.station_count + 1,
        ] {
            compared.file(&fields.text_with(place, &near.to_string()));
        }
    }
    destinations_equal_to_origins(compared, line, &fields);
}

fn destinations_equal_to_origins(compared: &mut Compared, line: &Line, fields: &Fields) {
    let first_train = 2 * usize::from(line.station_count) + 2;
    for (train, place) in line.trains[..usize::from(line.train_count)]
        .iter()
        .zip(first_train..)
    {
        compared.file(&fields.text_with((place, 1), &train.origin.to_string()));
        compared.file(&fields.text_with((place, 0), &train.destination.to_string()));
    }
}

const ONE_BYTE: Least = Least {
    name: "one byte",
    inputs: 41_000,
    accepted: 500,
    numbers: &[(2, 39_000, 11), (3, 1_000, 10), (4, 10, 2), (6, 1_500, 1)],
};

#[test]
fn one_damaged_byte() {
    let mut compared = Compared::new();
    for file in [SMALL, b"2\n1\n12\n1\nF 60 1\n0\n"] {
        for damaged in with_one_byte_damaged(file) {
            compared.file(&damaged);
        }
    }
    compared.seen.ends(&ONE_BYTE);
}

/// Compares random files, as many as `least` asks for, each of them damaged.
fn compare_damaged(seed: u64, least: &Least, damage: impl Fn(&mut Random, Vec<u8>) -> Vec<u8>) {
    let mut random = Random::new(seed);
    let mut compared = Compared::new();
    for _ in 0..least.inputs {
        let text = random_text(&mut random);
        compared.file(&damage(&mut random, text));
    }
    compared.seen.ends(least);
}

const ONE_BYTE_EVERY_SIZE: Least = Least {
    name: "one byte, every size",
    inputs: 60_000,
    accepted: 5_000,
    numbers: &[
        (2, 40_000, 38),
        (3, 7_000, 37),
        (4, 100, 25),
        (6, 15_000, 1),
    ],
};

#[test]
fn one_damaged_byte_in_files_of_every_size() {
    compare_damaged(12, &ONE_BYTE_EVERY_SIZE, |random, mut text| {
        damage_bytes(random, &mut text, 1);
        text
    });
}

const MANY_BYTES: Least = Least {
    name: "many bytes",
    inputs: 100_000,
    accepted: 500,
    numbers: &[
        (2, 75_000, 37),
        (3, 18_000, 37),
        (4, 100, 25),
        (6, 1_500, 1),
    ],
};

#[test]
fn many_damaged_bytes() {
    compare_damaged(13, &MANY_BYTES, |random, mut text| {
        let times = 2 + random.below(7);
        damage_bytes(random, &mut text, times);
        text
    });
}

const WHOLE_LINES: Least = Least {
    name: "lines",
    inputs: 50_000,
    accepted: 500,
    numbers: &[(2, 35_000, 38), (3, 4_000, 35), (6, 20_000, 1)],
};

#[test]
fn damaged_lines() {
    compare_damaged(14, &WHOLE_LINES, |random, text| damage_lines(random, &text));
}

const CUT_SHORT: Least = Least {
    name: "cut short",
    inputs: 40_000,
    accepted: 62,
    numbers: &[(2, 39_000, 37), (3, 30, 3), (6, 186, 1)],
};

#[test]
fn cut_short_at_every_byte() {
    let mut random = Random::new(15);
    let mut compared = Compared::new();
    let mut texts = vec![SMALL.to_vec(), Fields::of(&full_size(&mut random)).text()];
    texts.extend((0..60).map(|_| random_text(&mut random)));
    texts.iter().for_each(|text| cut_short(&mut compared, text));
    compared.seen.ends(&CUT_SHORT);
}

const BYTES_AFTER: Least = Least {
    name: "bytes after",
    inputs: 37_000,
    accepted: 0,
    // A section of bookings may follow the trains: it is not empty, and what has no form is none.
    numbers: &[(2, 37_000, 33), (3, 143, 33)],
};

#[test]
fn bytes_after_the_last_line() {
    let mut random = Random::new(16);
    let mut compared = Compared::new();
    for (stations, trains) in sizes() {
        let text = Fields::of(&inputs::line(
            &mut random,
            stations,
            trains,
            Density::Sparse,
        ))
        .text();
        let more = ["0\n", "\n\n", " \n", "1 2 0 9 1 5\n", "S 5 4\n", "\0\0\0\0"];
        bytes_after(&mut compared, &text, &more);
        compared.file(&[&text[..], &text[..]].concat());
    }
    compared.seen.ends(&BYTES_AFTER);
}

const LENGTHS: Least = Least {
    name: "lengths",
    inputs: 1_000,
    accepted: 0,
    numbers: &[(1, 500, 1), (2, 400, 5), (3, 30, 2)],
};

#[test]
fn lengths() {
    let mut random = Random::new(17);
    let mut compared = Compared::new();
    compared.file(b"");
    let longest = Fields::of(&full_size(&mut random)).text();
    let fronts = [
        b"".to_vec(),
        SMALL.to_vec(),
        longest,
        random_text(&mut random),
    ];
    // 65,536 and a little: a length kept in 16 bits would look short.
    let lengths = [
        4090,
        4095,
        FILE_BYTES,
        FILE_BYTES + 1,
        4098,
        5000,
        8192,
        65_536,
        65_540,
        70_000,
    ];
    for front in &fronts {
        for byte in [0, b'\n', b' ', b'0', b'1', b'S', 255] {
            for length in lengths.iter().copied().chain([65_536 + front.len()]) {
                let mut file = front.clone();
                file.resize(length, byte);
                compared.file(&file);
            }
        }
    }
    for _ in 0..700 {
        let mut file = vec![0; FILE_BYTES - 3 + random.below(7)];
        file.fill_with(|| random.one_of(b"1234567890\n\n\n   SFD"));
        compared.file(&file);
    }
    compared.seen.ends(&LENGTHS);
}
