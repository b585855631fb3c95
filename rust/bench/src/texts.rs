//! Reading and rewriting a full-size line file, and checking full-size timetables.

use std::hint::black_box;

use independent::Line;
use inputs::{due_full_size, full_size, full_size_planned, fully_due_planned};
use inputs::{Fields, Pair, Random};

use crate::times::{Beside, Times, Unit};

const ROUNDS: usize = 400;
const CALLS: u32 = 200;
/// How many timetables are checked in turn, each with its own line file.
const PAIRS: usize = 10;

const NANOSECONDS: Unit = Unit {
    name: "ns",
    in_a_second: 1e9,
    digits: 0,
};

/// Prints all of it: for full-size lines without bookings and dues, and for the same with 120 and 12.
pub fn print() {
    println!("{ROUNDS} rounds of {CALLS} calls for each, in turn.");
    println!("The lent buffer is cleared between rounds, outside the time, and not between calls.");
    let mut random = Random::new(1);
    file(&full_size(&mut random));
    file(&due_full_size(&mut random));

    let mut random = Random::new(2);
    timetables("", || full_size_planned(&mut random).pair());
    timetables(" with 120 bookings and 12 dues", || {
        fully_due_planned(&mut random).pair()
    });
}

fn file(line: &Line) {
    let file = Fields::of(line).text();
    println!(
        "A file of {} bytes: 12 stations, 12 trains over the whole line, {} bookings, {} dues.",
        file.len(),
        line.booking_count,
        line.due_count
    );
    reading(&file);
    rewriting(&file);
}

fn timetables(which: &str, pair: impl FnMut() -> Pair) {
    let pairs: Vec<Pair> = std::iter::repeat_with(pair).take(PAIRS).collect();
    let mean = |bytes: fn(&Pair) -> usize| pairs.iter().map(bytes).sum::<usize>() / PAIRS;
    println!(
        "{PAIRS} lawful timetables of such lines{which}, one after another: timetables of {} bytes on \
         average, line files of {}.",
        mean(|pair| pair.timetable.len()),
        mean(|pair| pair.file.len())
    );
    checking(&pairs);
}

fn reading(file: &[u8]) {
    let (mut library, mut independent) = (Times::default(), Times::default());
    for _ in 0..ROUNDS {
        library.round(CALLS, || {
            black_box(gaugeviolet::read(black_box(file))).expect("a line file");
        });
        independent.round(CALLS, || {
            // The record is made in full, as the library makes its own: the reference to it escapes.
            black_box(&independent::read(black_box(file)).expect("a line file"));
        });
    }
    Beside::new(library, independent).report("read", &NANOSECONDS);
}

fn rewriting(file: &[u8]) {
    let (mut library, mut independent) = (Times::default(), Times::default());
    let mut lent = [0; gaugeviolet::FILE_BYTES];
    for _ in 0..ROUNDS {
        library.round(CALLS, || {
            let length = gaugeviolet::rewrite(black_box(file), black_box(&mut lent));
            assert_eq!(length, Ok(file.len()));
        });
        assert_eq!(&lent[..file.len()], file);
        lent.fill(0);
        independent.round(CALLS, || {
            let length = independent::rewrite(black_box(file), black_box(&mut lent));
            assert_eq!(length, Ok(file.len()));
        });
        assert_eq!(&lent[..file.len()], file);
        lent.fill(0);
    }
    Beside::new(library, independent).report("rewrite", &NANOSECONDS);
}

fn checking(pairs: &[Pair]) {
    let (mut library, mut independent) = (Times::default(), Times::default());
    for _ in 0..ROUNDS {
        let mut next = pairs.iter().cycle();
        library.round(CALLS, || {
            let Pair { file, timetable } = next.next().expect("there are pairs");
            let answer = gaugeviolet::check(black_box(file), black_box(timetable));
            assert_eq!(answer, Ok(()));
        });
        let mut next = pairs.iter().cycle();
        independent.round(CALLS, || {
            let Pair { file, timetable } = next.next().expect("there are pairs");
            let answer = independent::check(black_box(file), black_box(timetable));
            assert_eq!(answer, Ok(()));
        });
    }
    Beside::new(library, independent).report("check", &NANOSECONDS);
}
