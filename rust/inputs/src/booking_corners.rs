//! What the bookings of a line do to it that a planner's mistakes could hide behind, and the count of it.

use independent::rules::{lists, order_list, weighted_delay, Minutes};
use independent::walk::solve_within;
use independent::{Booking, Limits, Line};

use crate::corners::PLANS;
use crate::parts::put_bookings;
use crate::tally::Tally;

/// Something that the bookings of a line do.
#[derive(Clone, Copy, Debug, PartialEq, Eq)]
pub enum BookingCorner {
    /// Without them the best timetable is the same.
    CostNothing,
    /// The best timetable leaves a station at the booked minute, later than stop and arrival ask.
    Bind,
    /// Without them the trains go over some segment in another order.
    MoveACrossing,
    /// The best timetable has a weighted delay all the same.
    Delay,
    /// There is no timetable, and without them there is one.
    Unsolvable,
    /// An inbound train has several of them.
    Inbound,
    /// One is at minute 0.
    FirstMinute,
    /// One is at 2,879.
    LastMinute,
}

impl BookingCorner {
    /// All of them.
    pub const ALL: [BookingCorner; 8] = [
        BookingCorner::CostNothing,
        BookingCorner::Bind,
        BookingCorner::MoveACrossing,
        BookingCorner::Delay,
        BookingCorner::Unsolvable,
        BookingCorner::Inbound,
        BookingCorner::FirstMinute,
        BookingCorner::LastMinute,
    ];

    /// Whether that is so of a line with bookings, its best timetable and that without bookings.
    fn is_of(self, line: &Line, best: Option<&Minutes>, unbooked: Option<&Minutes>) -> bool {
        let any_at = |minute| line.used_bookings().iter().any(|it| it.minute == minute);
        match (self, best, unbooked) {
            (BookingCorner::CostNothing, Some(best), Some(unbooked)) => best == unbooked,
            (BookingCorner::Bind, Some(best), _) => bind(line, best),
            (BookingCorner::MoveACrossing, Some(best), Some(unbooked)) => {
                lists(line).any(|(p, lane)| {
                    order_list(line, best, p, lane) != order_list(line, unbooked, p, lane)
                })
            }
            (BookingCorner::Delay, Some(best), _) => weighted_delay(line, best) > 0,
            (BookingCorner::Unsolvable, None, Some(_)) => true,
            (BookingCorner::Inbound, ..) => has_an_inbound_train_booked_twice(line),
            (BookingCorner::FirstMinute, ..) => any_at(Limits::MINUTE.least),
            (BookingCorner::LastMinute, ..) => any_at(Limits::MINUTE.most),
            _ => false,
        }
    }
}

fn bind(line: &Line, best: &Minutes) -> bool {
    line.used_bookings().iter().any(|booking| {
        let i = usize::from(booking.train) - 1;
        let train = &line.trains[i];
        let leg = train.leg_from(booking.station);
        let departure = best.departures[train.segment(leg)][i];
        let arrival = best.arrivals[train.segment(leg - 1)][i];
        departure == booking.minute && departure > arrival + train.stops[leg - 1]
    })
}

fn has_an_inbound_train_booked_twice(line: &Line) -> bool {
    let inbound = |booking: &Booking| !line.trains[usize::from(booking.train) - 1].outbound();
    let bookings = line.used_bookings();
    bookings
        .windows(2)
        .any(|pair| pair[0].train == pair[1].train && inbound(&pair[0]))
}

/// How many lines with bookings there were, and of how many each corner is.
#[derive(Default)]
pub struct BookingCorners {
    tally: Tally<{ BookingCorner::ALL.len() }>,
}

impl BookingCorners {
    /// Counts a line, of which `best` is the best timetable, if it has bookings.
    pub fn count(&mut self, line: &Line, best: Option<&Minutes>) {
        if line.booking_count == 0 {
            return;
        }
        let mut without = *line;
        put_bookings(&mut without, Vec::new());
        if let Ok(unbooked) = solve_within(&without, PLANS) {
            let is_of = |corner: BookingCorner| corner.is_of(line, best, unbooked.best.as_ref());
            self.tally.count(BookingCorner::ALL.map(is_of));
        }
    }

    /// Prints the counts, and holds that each corner was seen at least so often.
    pub fn ends(&self, name: &str, least: usize) {
        self.tally.ends(name, BookingCorner::ALL, least);
    }
}
