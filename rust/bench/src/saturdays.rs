//! Saturdays of the greatest size: how many of them end in which time.

use std::time::Duration;

use inputs::{saturday, shown, Fields, Random, Style};

use crate::apart::{plan_apart, Planner};

/// How many Saturdays of each style are planned.
const FILES: usize = 40;
/// Within how many seconds they may end.
const WITHIN: [f64; 4] = [0.2, 1.0, 10.0, 60.0];
/// After how many seconds the library and the search are stopped.
const LIMIT: u64 = 60;
/// What is short, in seconds.
const SHORT: f64 = 0.01;

/// Prints all of it. The walk is stopped after so many seconds.
pub fn print(walk_limit: u64) {
    println!(
        "Saturdays of 12 stations and 12 trains, {FILES} of each style. Each is planned once by the \
         library, by the independent search and by the independent walk, in turn, each in a process \
         of its own; the time is that of planning alone."
    );
    println!("Library and search are stopped after {LIMIT} s, the walk after {walk_limit} s.");
    let mut random = Random::new(4);
    let mut together = Vec::new();
    for style in Style::ALL {
        println!("{style:?}:");
        let planned: Vec<Planned> = (0..FILES)
            .map(|_| Fields::of(&saturday(&mut random, 12, 12, style)).text())
            .map(|file| plan(&file, walk_limit))
            .collect();
        report_ends(
            Planner::Library,
            LIMIT,
            planned.iter().map(|one| one.library),
        );
        report_ends(Planner::Search, LIMIT, planned.iter().map(|one| one.search));
        report_ends(
            Planner::Walk,
            walk_limit,
            planned.iter().map(|one| one.walk),
        );
        report_short(&planned);
        report_ratio(&planned);
        together.extend(planned);
    }
    println!("All of them together:");
    report_ratio(&together);
}

/// How many seconds each planner took, if it ended.
struct Planned {
    library: Option<f64>,
    search: Option<f64>,
    walk: Option<f64>,
}

/// Plans a file by each planner, and holds that they answer the same.
fn plan(file: &[u8], walk_limit: u64) -> Planned {
    let by = |planner, limit| plan_apart(planner, file, Duration::from_secs(limit));
    let library = by(Planner::Library, LIMIT);
    let search = by(Planner::Search, LIMIT);
    let walk = by(Planner::Walk, walk_limit);
    let ended = [&library, &search, &walk].into_iter().flatten();
    let answers: Vec<&str> = ended.map(|ended| ended.answer.as_str()).collect();
    let same = answers.windows(2).all(|two| two[0] == two[1]);
    assert!(same, "another answer to {}", shown(file));
    let [library, search, walk] = [library, search, walk].map(|ended| Some(ended?.seconds));
    Planned {
        library,
        search,
        walk,
    }
}

/// Prints how many files end within each time, the median time and the longest.
fn report_ends(planner: Planner, limit: u64, times: impl Iterator<Item = Option<f64>>) {
    let mut times: Vec<f64> = times.map(|time| time.unwrap_or(f64::INFINITY)).collect();
    times.sort_by(f64::total_cmp);
    print!("{:8}", planner.name());
    for within in WITHIN {
        if within > limit as f64 {
            print!("   - in {within:4} s");
        } else {
            let ended = times.iter().filter(|&&time| time <= within).count();
            print!("  {ended:2} in {within:4} s");
        }
    }
    let told = |time: f64| match time.is_finite() {
        true => format!("{time:8.4} s"),
        false => format!("> {limit:6} s"),
    };
    let (median, longest) = (times[times.len() / 2], times[times.len() - 1]);
    println!("   median {}  longest {}", told(median), told(longest));
}

/// Prints how long the library takes for the files with a short walk.
fn report_short(planned: &[Planned]) {
    let has_short_walk = |one: &&Planned| one.walk.is_some_and(|walk| walk < SHORT);
    let short = planned.iter().filter(has_short_walk);
    let longest = short
        .clone()
        .map(|one| one.library.unwrap_or(f64::INFINITY))
        .fold(0.0, f64::max);
    println!(
        "The walk takes less than {} ms for {} of them, and the library at most {:.2} ms for these.",
        SHORT * 1e3,
        short.count(),
        longest * 1e3
    );
}

/// Prints the time of all files on which both library and search end.
fn report_ratio(planned: &[Planned]) {
    let both = planned
        .iter()
        .filter_map(|one| Some((one.library?, one.search?)));
    let (library, search) = both
        .clone()
        .fold((0.0, 0.0), |sum, one| (sum.0 + one.0, sum.1 + one.1));
    println!(
        "{} files on which both end: library {library:.3} s, search {search:.3} s, ratio {:.2}",
        both.count(),
        library / search
    );
}
