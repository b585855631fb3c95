//! The search, also from a given minute, and the walk in a thread of the stated stack, each with the deepest
//! line that we could make for it.
//!
//! They go down some hundred levels at once and need not end in the time that a test has, so each runs in a
//! process of its own, which ends after a while. A thread that overflows its stack ends its process by a
//! signal.

use std::process::{Command, ExitStatus};
use std::time::Duration;

use gaugeviolet::on_callers_stack::{self, SOLVE_STACK};
use gaugeviolet::TIMETABLE_BYTES;

/// How many bytes of stack the process is to give to its thread.
const STACK: &str = "GAUGEVIOLET_STACK";

/// The first way down takes far less than a second.
const LONG_ENOUGH: Duration = Duration::from_secs(2);

/// The tests below that are the processes.
const DEEP: [&str; 3] = ["searches", "searches_from_a_minute", "walks"];

#[test]
fn the_stated_stack_suffices() {
    for deep in DEEP {
        assert!(run_within(deep, SOLVE_STACK).success(), "{deep}");
    }
}

#[test]
fn a_fraction_of_it_does_not() {
    for deep in DEEP {
        assert!(!run_within(deep, SOLVE_STACK / 8).success(), "{deep}");
    }
}

/// Also where threads that say nothing of their stack get too little.
#[test]
fn planning_takes_a_stack_of_its_own() {
    for deep in ["plans", "plans_from_a_minute"] {
        assert!(run_within(deep, SOLVE_STACK / 8).success(), "{deep}");
    }
}

/// What becomes of a process that does this in a thread of so many bytes of stack.
fn run_within(deep: &str, stack: usize) -> ExitStatus {
    let this = std::env::current_exe().expect("the program of these tests");
    Command::new(this)
        .args(["--exact", deep, "--ignored"])
        .env(STACK, stack.to_string())
        // What Rust gives to threads that are not told how much to take.
        .env("RUST_MIN_STACK", stack.to_string())
        .output()
        .expect("it can be started again")
        .status
}

/// Runs it in a thread of the stack that the process was given, and waits until the way down is done.
fn in_thread(deep: impl FnOnce() + Send + 'static) {
    let stack = std::env::var(STACK).expect("started by another test");
    let thread = std::thread::Builder::new().stack_size(stack.parse().expect("a number"));
    thread.spawn(deep).expect("a thread");
    std::thread::sleep(LONG_ENOUGH);
}

#[test]
#[ignore = "a process that the others start"]
fn searches() {
    let deepest = include_bytes!("deepest_search.line");
    in_thread(|| {
        on_callers_stack::solve(deepest, &mut [0; TIMETABLE_BYTES]).expect("a timetable");
    });
}

#[test]
#[ignore = "a process that the others start"]
fn plans() {
    let deepest = include_bytes!("deepest_search.line");
    in_thread(|| {
        gaugeviolet::plan(deepest).expect("a timetable");
    });
}

/// Minute 0 is the earliest of train 12 in the file too, so the search is the same.
#[test]
#[ignore = "a process that the others start"]
fn searches_from_a_minute() {
    let deepest = include_bytes!("deepest_search.line");
    in_thread(|| {
        on_callers_stack::starts(deepest, 12, &[0], &mut [0]).expect("a total");
    });
}

#[test]
#[ignore = "a process that the others start"]
fn plans_from_a_minute() {
    let deepest = include_bytes!("deepest_search.line");
    in_thread(|| {
        gaugeviolet::starts(deepest, 12, &[0]).expect("a total");
    });
}

#[test]
#[ignore = "a process that the others start"]
fn walks() {
    let deepest = include_bytes!("deepest_walk.line");
    in_thread(|| {
        on_callers_stack::walk_length(deepest).expect("a line file");
    });
}
