//! Totals for many starting minutes of a train, beside solving each altered file and beside the independent
//! code.

use std::hint::black_box;

use gaugeviolet::on_callers_stack;
use independent::search::search_within;
use independent::starts::{starts, with_earliest};
use independent::{Limits, Line};
use inputs::{some_saturday, Fields, Random, Style};

use crate::times::{Beside, Times, MILLISECONDS};

/// How many Saturdays of each style there are.
const FILES: usize = 3;
/// How often each of them is asked about.
const ROUNDS: usize = 15;
/// The minutes of a list, and how far apart they are.
const MINUTES: usize = gaugeviolet::STARTS_MOST;
const APART: usize = 5;
/// The most plans of the independent search for one of them.
const MOST_PLANS: u64 = 20_000;
/// The name of the ratio to solving.
const TO_SOLVES: &str = "/ solves";

/// Prints all of it.
pub fn print() {
    println!(
        "Totals for {MINUTES} starting minutes, {APART} minutes apart, of the weightiest train of a \
         Saturday, {FILES} of each style, each {ROUNDS} times; then, as \
         '{TO_SOLVES}', the time beside that of solving the {MINUTES} altered files."
    );
    let mut random = Random::new(6);
    let mut together = Both::default();
    for style in Style::ALL {
        let mut both = Both::default();
        for _ in 0..FILES {
            both.add(measured(&asked_of_saturday(&mut random, style)));
        }
        println!("{style:?}:");
        both.starts.report("starts", &MILLISECONDS);
        both.solves.report_ratio(TO_SOLVES);
        together.add(both);
    }
    println!("All of them together:");
    together.starts.report_ratio("starts");
    together.solves.report_ratio(TO_SOLVES);
}

/// A file, and what is asked of it.
struct Asked {
    line: Line,
    /// The train, from 0.
    number: usize,
    minutes: Vec<u16>,
}

impl Asked {
    /// The lines with another earliest of the train.
    fn altered(&self) -> impl Iterator<Item = Line> + '_ {
        let minutes = self.minutes.iter();
        minutes.map(|&minute| with_earliest(&self.line, self.number, minute))
    }
}

/// A Saturday with its weightiest train on which the independent search ends soon for every minute.
fn asked_of_saturday(random: &mut Random, style: Style) -> Asked {
    loop {
        let line = some_saturday(random, style);
        let weight = |&number: &usize| line.trains[number].weight;
        let number = (0..line.used_trains().len()).max_by_key(weight);
        let number = number.expect("a Saturday has trains");
        let minutes = (line.trains[number].earliest..=Limits::MINUTE.most).step_by(APART);
        let minutes = minutes.take(MINUTES).collect();
        let asked = Asked {
            line,
            number,
            minutes,
        };
        let soon = |line: Line| search_within(&line, MOST_PLANS).is_ok();
        if asked.altered().all(soon) {
            return asked;
        }
    }
}

/// The library's totals beside the independent ones, and beside the library's solving of the altered files.
#[derive(Clone, Copy, Default)]
struct Both {
    starts: Beside,
    solves: Beside,
}

impl Both {
    fn add(&mut self, other: Both) {
        self.starts.add(other.starts);
        self.solves.add(other.solves);
    }
}

fn measured(asked: &Asked) -> Both {
    let Asked {
        line,
        number,
        minutes,
    } = asked;
    let file = Fields::of(line).text();
    let altered: Vec<Vec<u8>> = asked
        .altered()
        .map(|line| Fields::of(&line).text())
        .collect();
    let train = *number as u32 + 1;
    let [mut library, mut solves, mut independent] = [(); 3].map(|()| Times::default());
    let mut totals = vec![0; minutes.len()];
    for _ in 0..ROUNDS {
        library.round(1, || {
            let answer = on_callers_stack::starts(black_box(&file), train, minutes, &mut totals);
            assert_eq!(answer, Ok(()));
        });
        let mut solved = Vec::new();
        solves.round(1, || {
            solved = altered.iter().map(|file| total(file)).collect()
        });
        assert_eq!(totals, solved);
        let mut expected = Ok(Vec::new());
        independent.round(1, || expected = starts(black_box(&file), train, minutes));
        let entry = |total: Option<u32>| total.unwrap_or(gaugeviolet::NO_TIMETABLE);
        let expected = expected
            .expect("a question in order")
            .into_iter()
            .map(entry);
        assert!(expected.eq(totals.iter().copied()));
    }
    Both {
        starts: Beside::new(library.clone(), independent),
        solves: Beside::new(library, solves),
    }
}

/// The total of the best timetable of a file by the library, as an entry holds it.
fn total(file: &[u8]) -> u32 {
    let mut lent = [0; gaugeviolet::TIMETABLE_BYTES];
    let Ok(length) = on_callers_stack::solve(black_box(file), &mut lent) else {
        return gaugeviolet::NO_TIMETABLE;
    };
    let text = std::str::from_utf8(&lent[..length]).expect("ASCII bytes");
    let last = text.lines().last().expect("the line of the total");
    last.parse().expect("a number")
}
