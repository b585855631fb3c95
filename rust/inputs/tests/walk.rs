//! The walk through plans beside the planner that tries every order, byte for byte, and beside the
//! same walk with each plan worked out afresh, plan by plan counted.

use independent::afresh::walk_within;
use independent::plans::PlanLimit;
use independent::rules::weighted_delay;
use independent::walk::{plan_by_walk, solve, solve_within};
use independent::{check, Line, Refusal};
use inputs::{beside_walks, dense_line, short_walk, small_line, small_walks, walk_line};
use inputs::{booked_small_line, due_small_line, with_bookings, with_some_dues};
use inputs::{Booked, Random, Shape};

fn text(line: &Line) -> String {
    let file = independent::write(line).expect("a line within the limits");
    String::from_utf8(file).expect("ASCII")
}

/// What was compared.
#[derive(Debug, Default)]
struct Compared {
    files: usize,
    without: usize,
    split: usize,
    delayed: usize,
    most_plans: u64,
}

impl Compared {
    fn count(&mut self, line: &Line) {
        let walked = solve(line);
        self.files += 1;
        self.without += usize::from(walked.best.is_none());
        self.split += usize::from(walked.plans > 1);
        let delay = |minutes| weighted_delay(line, minutes);
        self.delayed += usize::from(walked.best.as_ref().map_or(0, delay) > 0);
        self.most_plans = self.most_plans.max(walked.plans);
    }

    /// Compares with the walk that works each plan out afresh, unless that is too long.
    fn afresh(&mut self, line: &Line, limit: u64) {
        let afresh = walk_within(line, limit).map(|walked| (walked.best, walked.plans()));
        let walked = solve_within(line, limit);
        let walked = walked.map(|walked| (walked.best, walked.plans)).ok();
        assert_eq!(walked, afresh, "{}", text(line));
        if walked.is_some() {
            self.count(line);
        }
    }
}

/// Calls `compare` so many times and prints what it has compared.
fn compared(name: &str, times: usize, mut compare: impl FnMut(&mut Compared)) -> Compared {
    let mut compared = Compared::default();
    for _ in 0..times {
        compare(&mut compared);
    }
    println!("{name}: {compared:?}");
    compared
}

/// The same for each shape.
fn compared_by_shape(
    times: usize,
    mut compare: impl FnMut(&mut Compared, Shape),
) -> [Compared; Shape::ALL.len()] {
    Shape::ALL.map(|shape| {
        compared(&format!("{shape:?}"), times, |compared| {
            compare(compared, shape)
        })
    })
}

#[test]
fn small_lines_beside_every_order() {
    let corners = beside_walks(small_walks(60).take(6000), plan_by_walk);
    corners.ends("small lines", 250);
}

#[test]
fn lines_of_every_shape_afresh() {
    let mut random = Random::new(62);
    let by_shape = compared_by_shape(500, |compared, shape| {
        let (stations, trains) = (random.within(2, 7), random.within(0, 7));
        let line = walk_line(&mut random, stations, trains, shape);
        compared.afresh(&line, 200);
    });
    assert!(by_shape.iter().all(|compared| compared.files >= 300));
}

#[test]
fn small_lines_afresh() {
    let mut random = Random::new(63);
    let compared = compared("short times", 2000, |compared| {
        let (stations, trains) = (random.within(2, 6), random.within(0, 5));
        let line = small_line(&mut random, stations, trains);
        compared.afresh(&line, 200);
    });
    assert!(compared.files >= 1900);
}

#[test]
fn lines_with_bookings_afresh() {
    let mut random = Random::new(67);
    let times = [Booked::InAnyCase, Booked::Later(10), Booked::Later(60)];
    let by_shape = compared_by_shape(400, |compared, shape| {
        let (stations, trains) = (random.within(3, 7), random.within(1, 7));
        let line = walk_line(&mut random, stations, trains, shape);
        let line = with_bookings(&mut random, &line, &times);
        compared.afresh(&line, 200);
    });
    assert!(by_shape.iter().all(|compared| compared.files >= 200));
}

#[test]
fn small_lines_with_bookings_afresh() {
    let mut random = Random::new(68);
    let compared = compared("short times, booked", 2000, |compared| {
        let (stations, trains) = (random.within(3, 6), random.within(1, 5));
        let line = booked_small_line(&mut random, stations, trains);
        compared.afresh(&line, 200);
    });
    assert!(compared.files >= 1900);
}

#[test]
fn lines_with_dues_afresh() {
    let mut random = Random::new(69);
    let by_shape = compared_by_shape(250, |compared, shape| {
        let (stations, trains) = (random.within(2, 7), random.within(1, 7));
        let line = walk_line(&mut random, stations, trains, shape);
        let line = match random.below(2) {
            0 => line,
            _ => with_bookings(&mut random, &line, &[Booked::InAnyCase, Booked::Later(10)]),
        };
        let line = with_some_dues(&mut random, &line, 10);
        compared.afresh(&line, 200);
    });
    assert!(by_shape.iter().all(|compared| compared.files >= 120));
}

#[test]
fn small_lines_with_dues_afresh() {
    let mut random = Random::new(160);
    let compared = compared("short times, due", 2000, |compared| {
        let (stations, trains) = (random.within(2, 6), random.within(1, 5));
        let line = due_small_line(&mut random, stations, trains);
        compared.afresh(&line, 200);
    });
    assert!(compared.files >= 1900);
}

/// Some long walks.
#[test]
fn dense_lines_afresh() {
    let mut random = Random::new(64);
    let compared = compared("dense", 10, |compared| {
        compared.afresh(&dense_line(&mut random, 5, 6), 4000);
    });
    assert!(compared.files >= 3);
}

/// The lines on which the proved solver is compared with this walk: each has a walk under the limit,
/// and what the walk finds passes the check.
#[test]
fn lines_with_short_walks() {
    let mut random = Random::new(65);
    let by_shape = compared_by_shape(200, |compared, shape| {
        let short = short_walk(&mut random, shape, 5000);
        assert!(short.walked.plans <= 5000);
        assert_eq!(solve(&short.line), short.walked);
        let file = text(&short.line).into_bytes();
        match plan_by_walk(&file) {
            Ok(timetable) => assert_eq!(check(&file, &timetable), Ok(())),
            Err(refusal) => assert_eq!((refusal.number, refusal.place), (5, 0)),
        }
        compared.count(&short.line);
    });
    assert!(by_shape.iter().all(|compared| compared.split >= 20));
}

#[test]
fn the_plan_limit_is_told() {
    let line = dense_line(&mut Random::new(66), 4, 4);
    let walked = solve(&line);
    assert!(walked.plans > 10);
    assert_eq!(solve_within(&line, walked.plans), Ok(walked));
    assert_eq!(solve_within(&line, walked.plans - 1), Err(PlanLimit));
    assert_eq!(solve_within(&line, 0), Err(PlanLimit));
}

#[test]
fn a_refused_file_is_not_walked() {
    let refused = |number, place| Err(Refusal { number, place });
    assert_eq!(plan_by_walk(b""), refused(2, 1));
    assert_eq!(plan_by_walk(&[b'1'; 4097]), refused(1, 0));
}
