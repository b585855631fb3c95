//! The weighted delay as request K3 carries it from plan to plan: a sum that is adjusted where a train's last
//! minute rises.

use crate::rules::{free_arrival, last_arrival, Minutes};
use crate::Line;

/// The sum as it was carried to a plan, with that plan's minutes.
pub(super) struct Carried {
    sum: u32,
    minutes: Minutes,
}

/// What a choice did to the sum.
#[derive(Default)]
pub(super) struct Rise {
    /// Of how many trains the sum rose.
    pub(super) costs: usize,
    /// The trains among them, from 0, that were early in the plan before.
    pub(super) overdue: Vec<usize>,
    /// Whether the last minute of a train with a weight rose and the train is not late all the same.
    pub(super) in_time: bool,
    /// Whether a departure rose of a train whose last minute did not.
    pub(super) on_the_way: bool,
}

impl Carried {
    /// The sum of a plan with these least minutes, from that of the plan before. In the plan without choices
    /// each train is in at its free arrival.
    pub(super) fn to(line: &Line, before: Option<&Carried>, minutes: &Minutes) -> Carried {
        let mut sum = before.map_or(0, |before| before.sum);
        for (number, train) in line.used_trains().iter().enumerate() {
            let arrival = u32::from(last_arrival(minutes, number, train));
            let due = line.due_minute(number);
            let weight = u32::from(train.weight);
            sum += match before {
                None => weight * free_arrival(line, number).saturating_sub(due),
                Some(before) => {
                    let former = u32::from(last_arrival(&before.minutes, number, train));
                    assert!(former <= arrival, "the last minute of a train fell");
                    weight * (arrival.saturating_sub(due) - former.saturating_sub(due))
                }
            };
        }
        Carried {
            sum,
            minutes: *minutes,
        }
    }

    pub(super) fn sum(&self) -> u32 {
        self.sum
    }

    /// What the choice did that led here from the plan `before`.
    pub(super) fn rise_from(&self, line: &Line, before: &Carried) -> Rise {
        let mut rise = Rise::default();
        for (number, train) in line.used_trains().iter().enumerate() {
            let [former, arrival] = [before, self]
                .map(|carried| u32::from(last_arrival(&carried.minutes, number, train)));
            let due = line.due_minute(number);
            if former == arrival {
                rise.on_the_way |= self.leaves_later(line, before, number);
            } else if train.weight > 0 && arrival > due {
                rise.costs += 1;
                if former < due {
                    rise.overdue.push(number);
                }
            } else {
                rise.in_time |= train.weight > 0;
            }
        }
        rise
    }

    /// Whether any departure of a train is later than in the plan `before`.
    fn leaves_later(&self, line: &Line, before: &Carried, number: usize) -> bool {
        let mut path = line.trains[number].segments();
        let [former, now] = [before, self].map(|carried| &carried.minutes.departures);
        path.any(|p| former[p][number] < now[p][number])
    }
}
