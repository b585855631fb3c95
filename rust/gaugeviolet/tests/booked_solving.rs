//! Solving files with bookings beside the independent planners, byte for byte, and the length of the walk
//! beside the independent one.

mod lent_solving;
mod solved;
mod walked;

use independent::search::search_within;
use independent::walk::solve_within;
use independent::Line;
use inputs::{beside_another, beside_walks, booked_saturday, booked_short_walks};
use inputs::{booked_small_walks, dense_line, saturday, with_bookings};
use inputs::{Booked, BookingCorners, LineWalk, Random, Style};
use lent_solving::{lend_every_number, refused_by_all};
use solved::solved;
use walked::hold_length;

/// Holds the walks' bookings to have done what mistakes could hide behind.
fn corners(walks: impl Iterator<Item = LineWalk>, name: &str, least: usize) {
    let mut corners = BookingCorners::default();
    for walk in walks {
        corners.count(&walk.line, walk.walked.best.as_ref());
    }
    corners.ends(name, least);
}

#[test]
fn small_files_beside_every_order() {
    let walks = || booked_small_walks(107).take(30_000);
    beside_walks(walks(), solved);
    corners(walks().take(10_000), "small files", 200);
}

#[test]
fn files_of_every_shape_beside_the_walk() {
    let walks = || booked_short_walks(108, 2_000).take(15_000);
    beside_walks(walks(), solved);
    corners(walks().take(5_000), "files of every shape", 50);
}

/// The Saturdays of each style on which the walk ends within four million plans.
#[test]
fn saturdays_beside_the_walk() {
    let mut random = Random::new(109);
    for style in Style::ALL {
        let saturdays = (0..100).map(|_| booked_saturday(&mut random, style));
        let walk = |line: &Line| solve_within(line, 4_000_000).ok();
        let outcomes = beside_another(saturdays, walk, solved);
        println!("{style:?}: {outcomes:?}");
        assert!(outcomes.lines >= 50 && outcomes.delayed >= 20);
    }
}

/// Saturdays of the greatest size, booked at most stops, most of them with too long a walk.
#[test]
fn large_saturdays_beside_the_search() {
    let mut random = Random::new(110);
    let times = [Booked::InAnyCase, Booked::InAnyCase, Booked::Later(15)];
    for style in Style::ALL {
        let saturdays = (0..40).map(|_| {
            let line = saturday(&mut random, 12, 12, style);
            with_bookings(&mut random, &line, &times)
        });
        let search = |line: &Line| search_within(line, 300_000).ok();
        let outcomes = beside_another(saturdays, search, solved);
        println!("{style:?}: {outcomes:?}");
        assert!(outcomes.lines >= 20 && outcomes.delayed >= 10);
    }
}

#[test]
fn the_walk_takes_up_the_same_plans() {
    let mut split = 0;
    for walk in booked_short_walks(185, 2_000).take(10_000) {
        hold_length(&walk);
        split += usize::from(walk.walked.plans > 1);
    }
    println!("{split} walks of more than one plan");
    assert!(split >= 3_000);
}

/// Walks of a hundred thousand plans and more, on dense lines with bookings.
#[test]
fn long_walks() {
    let mut random = Random::new(186);
    let times = [Booked::InAnyCase, Booked::InAnyCase, Booked::Later(5)];
    let drawn = || {
        let line = dense_line(&mut random, 6, 8);
        let line = with_bookings(&mut random, &line, &times);
        let walked = solve_within(&line, 1_000_000).ok()?;
        Some(LineWalk { line, walked })
    };
    let long = std::iter::repeat_with(drawn).flatten();
    let long: Vec<LineWalk> = long
        .filter(|walk| walk.walked.plans >= 100_000)
        .take(6)
        .collect();
    long.iter().for_each(hold_length);
    beside_walks(long.into_iter(), solved);
}

/// No byte lent, one, one too few, and just enough, for files with and without a timetable.
#[test]
fn lent_bytes_of_every_number() {
    let (texts, without) = lend_every_number(booked_small_walks(111).take(2_000));
    assert!(texts >= 500 && without >= 50);
}

/// A booking that is refused is refused alike by every function.
#[test]
fn refused_as_reading_is() {
    refused_by_all("0\n");
    refused_by_all("121\n");
    refused_by_all("1\n1 1 5\n");
    refused_by_all("1\n2 2 5\n");
    refused_by_all("1\n1 2 2880\n");
    refused_by_all("1\n1 3 5\n");
}
