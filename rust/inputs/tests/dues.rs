//! The three planners beside each other on lines with dues, and the weighted delay word by word.

use independent::rules::{free_arrival, weighted_delay};
use independent::search::plan_by_search;
use independent::walk::{plan_by_walk, solve_within};
use independent::{Line, Train};
use inputs::{beside_another, beside_walks, due_short_walks, due_small_walks};
use inputs::{due_planned, due_saturday, due_small_planned, fully_due_planned, sizes};
use inputs::{DueCorners, Planned, Random, Style, Traffic};

/// Each of these lines has its walk held to trying every order.
#[test]
fn the_search_and_every_order_on_small_lines() {
    let mut dues = DueCorners::default();
    let walks = dues.counting(due_small_walks(260).take(25_000));
    beside_walks(walks, plan_by_search).ends("small lines", 1000);
    dues.ends("small lines", 800);
    dues.half_are_ties();
}

#[test]
fn the_walk_and_every_order_on_small_lines() {
    let corners = beside_walks(due_small_walks(261).take(5000), plan_by_walk);
    corners.ends("small lines", 150);
}

#[test]
fn the_search_beside_the_walk_on_lines_of_every_shape() {
    let mut dues = DueCorners::default();
    let walks = dues.counting(due_short_walks(262, 5000).take(5000));
    beside_walks(walks, plan_by_search).ends("lines of every shape", 150);
    dues.ends("lines of every shape", 100);
}

#[test]
fn the_search_beside_the_walk_on_saturdays() {
    let mut random = Random::new(263);
    for style in Style::ALL {
        let saturdays = (0..90).map(|_| due_saturday(&mut random, style));
        let walk = |line: &_| solve_within(line, 200_000).ok();
        let outcomes = beside_another(saturdays, walk, plan_by_search);
        println!("{style:?}: {outcomes:?}");
        assert!(outcomes.lines >= 40 && outcomes.delayed >= 25);
    }
}

/// The papers' sum, with what is below 0 left out train by train.
fn delay_by_the_papers(planned: &Planned) -> i64 {
    let Planned { line, minutes } = planned;
    let rows = minutes.rows(line);
    let delay = |(i, train): (usize, &Train)| {
        let number = i as u16 + 1;
        let listed = line.used_dues().iter().find(|due| due.train == number);
        let due = listed.map_or(i64::from(free_arrival(line, i)), |due| due.minute.into());
        let late = i64::from(rows[i][rows[i].len() - 1]) - due;
        i64::from(train.weight) * late.max(0)
    };
    line.used_trains().iter().enumerate().map(delay).sum()
}

#[test]
fn the_weighted_delay_word_by_word() {
    let mut random = Random::new(264);
    let mut lines: Vec<Planned> = (0..3000).map(|_| due_small_planned(&mut random)).collect();
    for (stations, trains) in sizes() {
        lines.push(due_planned(&mut random, stations, trains, Traffic::Mixed));
    }
    lines.extend((0..100).map(|_| fully_due_planned(&mut random)));
    let mut otherwise = 0;
    for planned in &lines {
        let delay = weighted_delay(&planned.line, &planned.minutes);
        assert_eq!(i64::from(delay), delay_by_the_papers(planned));
        let unlisted = Line {
            due_count: 0,
            ..planned.line
        };
        otherwise += usize::from(weighted_delay(&unlisted, &planned.minutes) != delay);
    }
    println!(
        "{} lines, {otherwise} with another delay without dues",
        lines.len()
    );
    assert!(otherwise >= 1000);
}
