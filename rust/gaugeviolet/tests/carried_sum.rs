//! The library's walk and solving beside the walk that works each plan out afresh: as many plans, and the same
//! best timetable. The library carries the weighted delay from plan to plan (request K3). Where that sum is
//! wrong a plan ends too early or too late, or another timetable is taken for the best.

mod solved;
mod walked;

use gaugeviolet::on_callers_stack::walk_length;
use independent::afresh::{walk_within, PlanKind, PlanKinds};
use inputs::{beside_walks, booked_short_walks, dense_walk, due_dense_walk, due_short_walks};
use inputs::{short_walks, shown, BookingCorners, Corners, DueCorners, LineWalk, Random};
use solved::solved;
use walked::hold_length;

/// What a plan can only be where trains are listed as due: any other train is due at its free arrival, so that
/// it is never early and the plan without choices costs nothing.
const OF_DUES: [PlanKind; 5] = [
    PlanKind::FirstCosts,
    PlanKind::Overdue,
    PlanKind::OverdueAtTheEnd,
    PlanKind::OverdueAgain,
    PlanKind::LaterInTime,
];

/// What the plans of the walks afresh were.
#[derive(Default)]
struct Plans {
    count: u64,
    kinds: PlanKinds,
}

impl Plans {
    /// Holds that the independent walk and the library's are the walk afresh.
    fn compare(&mut self, walk: &LineWalk) {
        let LineWalk { line, walked } = walk;
        let file = independent::write(line).expect("a line within the limits");
        let afresh = walk_within(line, walked.plans);
        let afresh = afresh.unwrap_or_else(|| panic!("longer afresh: {}", shown(&file)));
        let found = (afresh.plans(), afresh.best);
        assert_eq!((walked.plans, walked.best), found, "{}", shown(&file));
        hold_length(walk);
        self.count += afresh.plans();
        self.kinds.add(&afresh.kinds);
    }

    /// The walks, compared, with what solving prints.
    fn compare_all(&mut self, walks: impl Iterator<Item = LineWalk>) -> Corners {
        beside_walks(walks.inspect(|walk| self.compare(walk)), solved)
    }

    /// Prints the counts, and holds that each kind was seen at least so often, but for those that the lines
    /// cannot have.
    fn ends(&self, name: &str, least: u64, unseen: &[PlanKind]) {
        println!("{name}: {} plans", self.count);
        for kind in PlanKind::ALL {
            let times = self.kinds.of(kind);
            println!("  {kind:?}: {times}");
            match unseen.contains(&kind) {
                true => assert_eq!(times, 0, "{name}: {kind:?}"),
                false => assert!(times >= least, "{name}: too rare: {kind:?}"),
            }
        }
    }
}

#[test]
fn lines_of_every_shape() {
    let mut plans = Plans::default();
    let corners = plans.compare_all(short_walks(401, 1_000).take(8_000));
    corners.ends("lines of every shape", 300);
    plans.ends("lines of every shape", 5_000, &OF_DUES);
}

#[test]
fn lines_with_bookings() {
    let (mut plans, mut bookings) = (Plans::default(), BookingCorners::default());
    let walks = booked_short_walks(402, 1_000).take(8_000);
    let walks = walks.inspect(|walk| bookings.count(&walk.line, walk.walked.best.as_ref()));
    let corners = plans.compare_all(walks);
    corners.ends("lines with bookings", 300);
    bookings.ends("lines with bookings", 50);
    plans.ends("lines with bookings", 5_000, &OF_DUES);
}

#[test]
fn lines_with_dues() {
    let (mut plans, mut dues) = (Plans::default(), DueCorners::default());
    let walks = dues.counting(due_short_walks(403, 1_000).take(16_000));
    plans.compare_all(walks).ends("lines with dues", 500);
    dues.ends("lines with dues", 250);
    plans.ends("lines with dues", 500, &[]);
}

/// Walks of some ten thousand plans on dense lines, where each train may arrive up to the last minute. Half of
/// them have every train due.
#[test]
fn long_walks() {
    let mut random = Random::new(404);
    let (least, most) = (10_000, 60_000);
    let mut plans = Plans::default();
    for size in [(5, 6), (6, 7), (6, 8)] {
        let long = [dense_walk, due_dense_walk].map(|draw| draw(&mut random, size, least, most));
        plans.compare_all(long.into_iter());
    }
    plans.ends("long walks", 3, &[PlanKind::AfterLatest]);
}

/// Its plans are worked out by hand in the independent crate. There a wrong sum gives a timetable of 44.
#[test]
fn the_sample_of_the_growing_total() {
    let file = include_bytes!("../../../samples/growing-total.line");
    let text = include_bytes!("../../../samples/growing-total.timetable");
    assert_eq!(walk_length(file), Ok(13));
    assert_eq!(solved(file).as_deref(), Ok(&text[..]));
}
