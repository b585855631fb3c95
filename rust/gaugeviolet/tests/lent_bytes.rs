//! Rewriting with every number of lent bytes: the text and nothing else is written, or no byte.

mod common;
mod guarded;

use common::Compared;
use inputs::{booked_full_size, due_full_size, full_size, sizes, with_bookings, with_dues};
use inputs::{Booked, Density, DueAt, Fields, Least, Random};

#[test]
fn every_lent_length_for_an_accepted_file() {
    let mut random = Random::new(20);
    let mut compared = Compared::new();
    let mut texts = vec![Fields::of(&full_size(&mut random)).text()];
    for (stations, trains) in sizes() {
        texts.push(Fields::of(&inputs::line(&mut random, stations, trains, Density::Dense)).text());
    }
    texts.push(Fields::of(&booked_full_size(&mut random)).text());
    for (stations, trains) in sizes().filter(|&(stations, trains)| stations > 2 && trains > 0) {
        let line = inputs::line(&mut random, stations, trains, Density::Dense);
        let booked = with_bookings(&mut random, &line, &[Booked::AnyTime]);
        texts.push(Fields::of(&booked).text());
    }
    texts.push(Fields::of(&due_full_size(&mut random)).text());
    for (stations, trains) in sizes().filter(|&(_, trains)| trains > 0) {
        let line = inputs::line(&mut random, stations, trains, Density::Dense);
        texts.push(Fields::of(&with_dues(&mut random, &line, &[DueAt::AnyTime])).text());
    }
    for text in &texts {
        compared.file(text);
        for lent in 0..text.len() {
            compared.lent(text, lent, Err((6, 0)));
        }
        for lent in text.len()..text.len() + 100 {
            compared.lent(text, lent, Ok(text));
        }
        for lent in [4095, 4096, 4097, 8192] {
            compared.lent(text, lent, Ok(text));
        }
    }
    compared.seen.ends(&Least {
        name: "lent to an accepted file",
        inputs: 398,
        accepted: 398,
        numbers: &[(6, 1194, 1)],
    });
}

#[test]
fn every_lent_length_for_a_refused_file() {
    let mut compared = Compared::new();
    let until_last_run = |destination: u32| {
        format!(
            "3\n2\n2\n2\n2\nS 5 4\nS 5 4\n2\n1 3 0 200 1 20 0 20\n3 {destination} 0 200 2 15 0 "
        )
    };
    let long = format!("15\n{}", "x".repeat(4100));
    // Each is refused at its end or past it, when all of a text could have been written.
    let refusals = [
        (1, "15\n\n", (2, 11)),
        (1, "15", (2, 10)),
        (1, "241\n", (3, 10)),
        (3, "15\n", (4, 10)),
        (1, &long, (1, 0)),
        (1, "15\n2\n1 2 5\n1 2 5\n", (19, 13)),
        (1, "15\n1\n1 2 2880\n", (3, 12)),
        (1, "15\n0\n", (3, 11)),
        (1, "15\n0\n2\n2 5\n2 5\n", (19, 14)),
        (1, "15\n0\n1\n1 2880\n", (3, 13)),
    ];
    for (destination, end, refusal) in refusals {
        let file = until_last_run(destination) + end;
        compared.file(file.as_bytes());
        for lent in (0..300).chain([4095, 4096, 4097, 8192]) {
            compared.lent(file.as_bytes(), lent, Err(refusal));
        }
    }
    compared.seen.ends(&Least {
        name: "lent to a refused file",
        inputs: 10,
        accepted: 0,
        numbers: &[(1, 1, 1), (2, 2, 2), (3, 4, 4), (4, 1, 1), (19, 2, 2)],
    });
}
