//! Due minutes, the fifth section of a line file: a train's delay counts from the minute when it is due.

use crate::rules::free_arrival;
use crate::Line;

/// When a train is due.
#[derive(Clone, Copy, Debug, Default, PartialEq, Eq)]
pub struct Due {
    /// The train, from 1.
    pub train: u16,
    /// The minute of its last arrival from which on it is late. 0 is a due minute too.
    pub minute: u16,
}

impl Due {
    /// Whether a due of this train may stand behind the due `before` it, if there is one.
    #[inline]
    pub(crate) fn may_follow(train: u16, before: Option<&Due>) -> bool {
        before.is_none_or(|before| before.train < train)
    }
}

impl Line {
    /// The dues that there are.
    #[inline]
    pub fn used_dues(&self) -> &[Due] {
        &self.dues[..usize::from(self.due_count)]
    }

    /// The minute listed for a train, by its number from 0, if it is listed.
    #[inline]
    pub fn listed_due(&self, number: usize) -> Option<u16> {
        let of_train = |due: &&Due| usize::from(due.train) == number + 1;
        self.used_dues().iter().find(of_train).map(|due| due.minute)
    }

    /// When a train, by its number from 0, is due: at its listed minute, or else at its free arrival, which
    /// may be past the last minute of a timetable.
    #[inline]
    pub fn due_minute(&self, number: usize) -> u32 {
        match self.listed_due(number) {
            Some(minute) => u32::from(minute),
            None => free_arrival(self, number),
        }
    }
}
