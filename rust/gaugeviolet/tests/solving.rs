//! Solving beside the independent planners, byte for byte: the one that tries every order and the walk on
//! small files, the walk on Saturdays where it ends, and the search on larger ones. Each timetable printed
//! passes the check, and a refusal changes no lent byte.

mod solved;

use std::cell::Cell;
use std::path::Path;

use gaugeviolet::on_callers_stack::solve;
use independent::search::search_within;
use independent::walk::solve_within;
use independent::Line;
use inputs::{beside_another, beside_walks, short_walks, small_walks};
use inputs::{saturday, some_saturday, Random, Style};
use solved::solved;

/// So many plans are more than the library's searches that do not look ahead take up.
const LONG_SEARCH: u64 = 30_000;

#[test]
fn small_files_beside_every_order() {
    let corners = beside_walks(small_walks(7).take(50_000), solved);
    corners.ends("small files", 3_000);
}

#[test]
fn files_of_every_shape_beside_the_walk() {
    let corners = beside_walks(short_walks(20_261_115, 2_000).take(20_000), solved);
    corners.ends("files of every shape", 1_000);
}

/// The Saturdays of each style on which the walk ends within four million plans.
#[test]
fn saturdays_beside_the_walk() {
    let mut random = Random::new(8);
    for style in Style::ALL {
        let saturdays = (0..100).map(|_| some_saturday(&mut random, style));
        let walk = |line: &Line| solve_within(line, 4_000_000).ok();
        let outcomes = beside_another(saturdays, walk, solved);
        println!("{style:?}: {outcomes:?}");
        assert!(outcomes.lines >= 70 && outcomes.delayed >= 40);
    }
}

/// Saturdays of the greatest size, most of them with too long a walk. Some have a long search too: only
/// there does the library look ahead.
#[test]
fn large_saturdays_beside_the_search() {
    let mut random = Random::new(9);
    let long = Cell::new(0);
    for style in Style::ALL {
        let saturdays = (0..40).map(|_| saturday(&mut random, 12, 12, style));
        let search = |line: &Line| {
            let found = search_within(line, 300_000).ok()?;
            long.set(long.get() + usize::from(found.plans >= LONG_SEARCH));
            Some(found)
        };
        let outcomes = beside_another(saturdays, search, solved);
        println!("{style:?}: {outcomes:?}");
        assert!(outcomes.lines >= 30 && outcomes.delayed >= 15);
    }
    println!("long searches: {}", long.get());
    assert!(long.get() >= 5);
}

#[test]
fn five_comes_before_six() {
    let file = include_bytes!("../../../samples/e5.line");
    let refusal = solve(file, &mut []).unwrap_err();
    assert_eq!((refusal.number, refusal.place), (5, 0));
}

#[test]
fn six_where_a_byte_is_missing() {
    let file = include_bytes!("../../../samples/a.line");
    let text = include_bytes!("../../../samples/a.timetable");
    let mut lent = vec![7; text.len() - 1];
    let refusal = solve(file, &mut lent).unwrap_err();
    assert_eq!((refusal.number, refusal.place), (6, 0));
    assert!(lent.iter().all(|&byte| byte == 7));
    let mut lent = vec![7; text.len()];
    assert_eq!(solve(file, &mut lent), Ok(text.len()));
    assert_eq!(lent, text);
}

/// The samples of a real size, three with their stored timetables and one without any, beside the search.
#[test]
fn the_sample_saturdays() {
    let samples = Path::new(env!("CARGO_MANIFEST_DIR")).join("../../samples");
    let bytes = |name: &str| std::fs::read(samples.join(name)).expect("a sample");
    let names = [
        "saturday",
        "saturday-booked",
        "saturday-due",
        "saturday-full",
    ];
    let lines = names.map(|name| {
        let line = independent::read(&bytes(&format!("{name}.line")));
        line.expect("a line file")
    });
    let search = |line: &Line| search_within(line, 300_000).ok();
    let outcomes = beside_another(lines.into_iter(), search, solved);
    assert_eq!(
        (outcomes.lines, outcomes.without, outcomes.delayed),
        (4, 1, 3)
    );
    for name in ["saturday", "saturday-booked", "saturday-due"] {
        let line = bytes(&format!("{name}.line"));
        assert_eq!(solved(&line), Ok(bytes(&format!("{name}.timetable"))));
    }
}
