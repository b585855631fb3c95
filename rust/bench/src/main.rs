//! How long the proved library takes beside the independent implementation, in one run. It prints times and
//! their ratio and judges nothing.
//!
//! Without an argument it prints all parts, with one that part only: `texts` (reading, rewriting and
//! checking), `walks` (dense lines), `starts` (many starting minutes) or `saturdays`. A number after `saturdays` is that of the seconds after
//! which the walk is stopped on each of them.

use std::process::exit;

use apart::{plan_here, Planner, APART};

mod apart;
mod saturdays;
mod starts;
mod texts;
mod times;
mod walks;

/// The seconds after which the walk is stopped on a Saturday, where nothing else is said. It does not end on
/// some twenty of them, so that a minute for each takes long.
const WALK_LIMIT: u64 = 10;

fn main() {
    let arguments: Vec<String> = std::env::args().skip(1).collect();
    let words: Vec<&str> = arguments.iter().map(String::as_str).collect();
    match words[..] {
        [] => {
            texts::print();
            walks::print();
            starts::print();
            saturdays::print(WALK_LIMIT);
        }
        ["texts"] => texts::print(),
        ["walks"] => walks::print(),
        ["starts"] => starts::print(),
        ["saturdays"] => saturdays::print(WALK_LIMIT),
        ["saturdays", limit] => saturdays::print(limit.parse().unwrap_or_else(|_| misused())),
        [APART, name] => plan_here(Planner::named(name).unwrap_or_else(|| misused())),
        _ => misused(),
    }
}

fn misused() -> ! {
    eprintln!("bench [texts | walks | starts | saturdays [SECONDS]]");
    exit(2)
}
