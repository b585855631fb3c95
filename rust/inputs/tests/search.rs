//! The search through plans beside the planner that tries every order and beside the walk: on small
//! lines where mistakes would hide, on lines of every shape, and on Saturdays.

use independent::plans::PlanLimit;
use independent::search::{plan_by_search, search, search_within};
use independent::walk::solve_within;
use independent::Refusal;
use inputs::{beside_another, beside_walks, short_walks, small_walks};
use inputs::{dense_line, some_saturday, Random, Style};

#[test]
fn small_lines_beside_every_order() {
    let corners = beside_walks(small_walks(80).take(12_000), plan_by_search);
    corners.ends("small lines", 500);
}

#[test]
fn lines_of_every_shape_beside_the_walk() {
    let corners = beside_walks(short_walks(81, 5000).take(6000), plan_by_search);
    corners.ends("lines of every shape", 200);
}

#[test]
fn saturdays_beside_the_walk() {
    let mut random = Random::new(82);
    for style in Style::ALL {
        let saturdays = (0..60).map(|_| some_saturday(&mut random, style));
        let walk = |line: &_| solve_within(line, 200_000).ok();
        let outcomes = beside_another(saturdays, walk, plan_by_search);
        println!("{style:?}: {outcomes:?}");
        assert!(outcomes.lines >= 40 && outcomes.delayed >= 25);
    }
}

#[test]
fn the_plan_limit_is_told() {
    let line = dense_line(&mut Random::new(84), 5, 6);
    let found = search(&line);
    assert!(found.plans > 10);
    assert_eq!(search_within(&line, found.plans), Ok(found));
    assert_eq!(search_within(&line, found.plans - 1), Err(PlanLimit));
    assert_eq!(search_within(&line, 0), Err(PlanLimit));
}

#[test]
fn a_refused_file_is_not_searched() {
    let refused = |number, place| Err(Refusal { number, place });
    assert_eq!(plan_by_search(b""), refused(2, 1));
    assert_eq!(plan_by_search(&[b'1'; 4097]), refused(1, 0));
}
