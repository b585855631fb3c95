//! Booked times at stops, the fourth section of a line file: a train does not leave a middle station of
//! its path before the minute booked there.

use crate::{Line, Train, SEGMENTS};

/// A booked time.
#[derive(Clone, Copy, Debug, Default, PartialEq, Eq)]
pub struct Booking {
    /// The train, from 1.
    pub train: u16,
    /// The station, from 1: a middle one of the train's path.
    pub station: u16,
    /// The minute that the train does not leave before. 0 is a booking too.
    pub minute: u16,
}

impl Booking {
    /// What the bookings of a line rise by.
    #[inline]
    fn order(&self) -> (u16, u16) {
        (self.train, self.station)
    }

    /// Whether it may stand behind the booking `before` it, if there is one, in a line with these trains.
    /// Its own train is one of them.
    #[inline]
    pub(crate) fn suits(&self, trains: &[Train], before: Option<&Booking>) -> bool {
        let rises = before.is_none_or(|before| before.order() < self.order());
        rises && trains[usize::from(self.train) - 1].has_in_the_middle(self.station)
    }
}

impl Train {
    /// Whether a station, from 1, lies on its path between origin and destination.
    #[inline]
    pub fn has_in_the_middle(&self, station: u16) -> bool {
        let (low, high) = (
            self.origin.min(self.destination),
            self.origin.max(self.destination),
        );
        low < station && station < high
    }

    /// The leg, from 0, with which it leaves a middle station of its path.
    #[inline]
    pub fn leg_from(&self, station: u16) -> usize {
        usize::from(self.origin.abs_diff(station))
    }
}

impl Line {
    /// The bookings that there are.
    #[inline]
    pub fn used_bookings(&self) -> &[Booking] {
        &self.bookings[..usize::from(self.booking_count)]
    }

    /// The least minutes of departure that a train, by its number from 0, has from its bookings, by
    /// leg. Without a booking that is 0, which no minute lies before.
    #[inline]
    pub fn floors(&self, number: usize) -> [u16; SEGMENTS] {
        let mut floors = [0; SEGMENTS];
        for booking in self.used_bookings() {
            if usize::from(booking.train) == number + 1 {
                floors[self.trains[number].leg_from(booking.station)] = booking.minute;
            }
        }
        floors
    }
}
