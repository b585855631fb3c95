//! Dense lines on which the walk ends: the time of a plan of the library's walk beside the independent walk,
//! as both take up the same plans, and solving beside the independent search.

use std::hint::black_box;

use independent::search::plan_by_search;
use independent::walk;
use inputs::{dense_walk, due_dense_walk, Fields, LineWalk, Random};

use crate::times::{Beside, Times, Unit, MILLISECONDS};

/// How many dense lines of each size are planned.
const LINES: usize = 5;
/// How often each of them is planned.
const ROUNDS: usize = 25;
/// The fewest and the most plans of their walks.
const LEAST_PLANS: u64 = 200_000;
const MOST_PLANS: u64 = 1_000_000;

/// How a dense line is drawn: its size, and the fewest and the most plans of its walk.
type Draw = fn(&mut Random, (u16, u16), u64, u64) -> LineWalk;

/// Prints all of it: without dues, and with every train due around its free arrival.
pub fn print() {
    print_lines("Dense lines", Random::new(3), dense_walk);
    print_lines("Dense lines with dues", Random::new(5), due_dense_walk);
}

fn print_lines(which: &str, mut random: Random, draw: Draw) {
    println!("{which} planned, each {ROUNDS} times.");
    let (mut walks, mut solves) = (Beside::default(), Beside::default());
    for size in [(6, 8), (8, 9)] {
        println!("{} stations, {} trains:", size.0, size.1);
        for _ in 0..LINES {
            let LineWalk { line, walked } = draw(&mut random, size, LEAST_PLANS, MOST_PLANS);
            let file = Fields::of(&line).text();
            println!("A line with a walk of {} plans:", walked.plans);
            let walked_both = walking(&file, walked.plans);
            walked_both.report("walk", &microseconds_a_plan(walked.plans));
            walks.add(walked_both);
            let solved = solving(&file);
            solved.report("solve", &MILLISECONDS);
            solves.add(solved);
        }
    }
    println!("All of them together:");
    walks.report_ratio("walk");
    solves.report_ratio("solve");
}

fn microseconds_a_plan(plans: u64) -> Unit {
    Unit {
        name: "µs a plan",
        in_a_second: 1e6 / plans as f64,
        digits: 3,
    }
}

/// The library's walk beside the independent one, each from the bytes of the file to the length.
fn walking(file: &[u8], plans: u64) -> Beside {
    let (mut library, mut independent) = (Times::default(), Times::default());
    for _ in 0..ROUNDS {
        library.round(1, || {
            let length = gaugeviolet::on_callers_stack::walk_length(black_box(file));
            assert_eq!(length.map(u64::from), Ok(plans));
        });
        independent.round(1, || {
            let line = independent::read(black_box(file)).expect("a line file");
            assert_eq!(black_box(walk::solve(&line)).plans, plans);
        });
    }
    Beside::new(library, independent)
}

/// Solving beside the independent search.
fn solving(file: &[u8]) -> Beside {
    let (mut library, mut independent) = (Times::default(), Times::default());
    let mut lent = [0; gaugeviolet::TIMETABLE_BYTES];
    for _ in 0..ROUNDS {
        let (mut length, mut timetable) = (None, None);
        library.round(1, || {
            length =
                gaugeviolet::on_callers_stack::solve(black_box(file), black_box(&mut lent)).ok();
        });
        independent.round(1, || timetable = plan_by_search(black_box(file)).ok());
        assert_eq!(timetable.as_deref(), length.map(|length| &lent[..length]));
    }
    Beside::new(library, independent)
}
