//! Solving files with dues beside the independent planners, byte for byte, and the length of the walk beside
//! the independent one. Half of the small files have a tie, which the tie rule decides.

mod lent_solving;
mod solved;
mod walked;

use independent::search::{plan_by_search, search_within};
use independent::walk::solve_within;
use independent::Line;
use inputs::{beside_another, beside_walks, due_dense_walk, due_saturday, due_short_walks};
use inputs::{due_small_walks, greatest_delay, saturday, with_some_dues};
use inputs::{DueCorners, LineWalk, Random, Style};
use lent_solving::{lend_every_number, refused_by_all};
use solved::solved;
use walked::hold_length;

#[test]
fn small_files_beside_every_order() {
    let mut dues = DueCorners::default();
    let walks = dues.counting(due_small_walks(307).take(25_000));
    beside_walks(walks, solved).ends("small files", 1_000);
    dues.ends("small files", 800);
    dues.half_are_ties();
}

#[test]
fn files_of_every_shape_beside_the_walk() {
    let mut dues = DueCorners::default();
    let walks = dues.counting(due_short_walks(308, 2_000).take(10_000));
    beside_walks(walks, solved).ends("files of every shape", 400);
    dues.ends("files of every shape", 150);
}

/// The Saturdays of each style on which the walk ends within a million plans.
#[test]
fn saturdays_beside_the_walk() {
    let mut random = Random::new(309);
    for style in Style::ALL {
        let saturdays = (0..60).map(|_| due_saturday(&mut random, style));
        let walk = |line: &Line| solve_within(line, 1_000_000).ok();
        let outcomes = beside_another(saturdays, walk, solved);
        println!("{style:?}: {outcomes:?}");
        assert!(outcomes.lines >= 30 && outcomes.delayed >= 15);
    }
}

/// Saturdays of the greatest size with dues of most trains, most of them with too long a walk.
#[test]
fn large_saturdays_beside_the_search() {
    let mut random = Random::new(320);
    for style in Style::ALL {
        let saturdays = (0..25).map(|_| {
            let line = saturday(&mut random, 12, 12, style);
            with_some_dues(&mut random, &line, 20)
        });
        let search = |line: &Line| search_within(line, 100_000).ok();
        let outcomes = beside_another(saturdays, search, solved);
        println!("{style:?}: {outcomes:?}");
        assert!(outcomes.lines >= 12 && outcomes.delayed >= 5);
    }
}

#[test]
fn the_walk_takes_up_the_same_plans() {
    let mut split = 0;
    for walk in due_short_walks(321, 2_000).take(10_000) {
        hold_length(&walk);
        split += usize::from(walk.walked.plans > 1);
    }
    println!("{split} walks of more than one plan");
    assert!(split >= 3_000);
}

/// Walks of a hundred thousand plans and more, on dense lines with every train due.
#[test]
fn long_walks() {
    let mut random = Random::new(322);
    let drawn = (0..4).map(|_| due_dense_walk(&mut random, (6, 8), 100_000, 1_000_000));
    let long: Vec<LineWalk> = drawn.collect();
    long.iter().for_each(hold_length);
    beside_walks(long.into_iter(), solved);
}

/// No byte lent, one, one too few, and just enough, for files with and without a timetable.
#[test]
fn lent_bytes_of_every_number() {
    let (texts, without) = lend_every_number(due_small_walks(323).take(2_000));
    assert!(texts >= 500 && without >= 50);
}

/// A due that is refused is refused alike by every function.
#[test]
fn refused_as_reading_is() {
    refused_by_all("0\n0\n");
    refused_by_all("0\n2\n");
    refused_by_all("0\n1\n1 2880\n");
    refused_by_all("0\n1\n2 5\n");
    refused_by_all("0\n1\n1 x\n");
    refused_by_all("1\n1 2 5\n1\n0 5\n");
    refused_by_all("1\n1 2 5\n1\n1 5\n0\n");
}

/// All twelve trains are in with the last minute of the day and due at the first.
#[test]
fn the_greatest_total() {
    let file = independent::write(&greatest_delay(2878)).expect("a line within the limits");
    let text = solved(&file).expect("a timetable");
    assert!(text.starts_with(b"12\n2878 2879\n") && text.ends_with(b"\n3420252\n"));
    assert_eq!(plan_by_search(&file), Ok(text));
}

/// The text of the best timetable of file A with these sections.
fn a_solved(sections: &str) -> String {
    let file = include_str!("../../../samples/a.line").to_string() + sections;
    let text = solved(file.as_bytes()).expect("a timetable");
    String::from_utf8(text).expect("ASCII")
}

/// File A: train 1 goes through and train 2 waits for it, or the other way round. Worked by hand.
#[test]
fn file_a_with_dues() {
    let waits_2 = |total: u32| format!("2\n0 20 20 40\n0 15 24 39\n2\n2 1 2\n2 2 1\n{total}\n");
    let waits_1 = |total: u32| format!("2\n34 54 54 74\n0 15 15 30\n2\n2 2 1\n2 2 1\n{total}\n");
    // Due at the free arrival, before it and after it.
    assert_eq!(a_solved("0\n2\n1 40\n2 30\n"), waits_2(18));
    assert_eq!(a_solved("0\n2\n1 0\n2 0\n"), waits_2(118));
    assert_eq!(a_solved("0\n1\n2 39\n"), waits_2(0));
    assert_eq!(a_solved("0\n1\n1 57\n"), waits_1(17));
    // The same either way: train 1 is the earlier.
    assert_eq!(a_solved("0\n1\n1 56\n"), waits_2(18));
    assert_eq!(a_solved("0\n2\n1 74\n2 39\n"), waits_2(0));
    // What train 1 is early takes nothing from the lateness of train 2.
    assert_eq!(a_solved("0\n1\n1 100\n"), waits_1(0));
    // Listed, a booking moves the due minute no further.
    assert_eq!(a_solved("1\n2 2 24\n"), waits_2(0));
    assert_eq!(a_solved("1\n2 2 24\n1\n2 30\n"), waits_2(18));
}
