//! Lawful timetables of lines with dues.

use independent::rules::{free_arrival, last_arrival};
use independent::{exhaustive, Due, Limits};

use crate::parts::put_dues;
use crate::{booked_planned, due_small_line, fully_booked_planned, planned};
use crate::{Planned, Random, Traffic};

/// A line of [`planned`], or one with bookings, with dues of most trains: when they are in by its timetable,
/// a little before or after that, at their free arrival, or at either end of the day.
pub fn due_planned(random: &mut Random, stations: u16, trains: u16, traffic: Traffic) -> Planned {
    let draw = random.one_of(&[planned, booked_planned]);
    let mut planned = draw(random, stations, trains, traffic);
    let one_in = random.one_of(&[2, 8, 8]);
    put_near_arrivals(random, &mut planned, |random| random.below(one_in) > 0);
    planned
}

/// A line of [`fully_booked_planned`] with 12 dues.
pub fn fully_due_planned(random: &mut Random) -> Planned {
    let mut planned = fully_booked_planned(random);
    put_near_arrivals(random, &mut planned, |_| true);
    planned
}

/// A small line with dues and the best of its timetables, found by trying every order.
pub fn due_small_planned(random: &mut Random) -> Planned {
    loop {
        let (stations, trains) = (random.within(2, 4), random.within(1, 3));
        let line = due_small_line(random, stations, trains);
        if let Ok(Some(minutes)) = exhaustive::best(&line, 100_000) {
            return Planned { line, minutes };
        }
    }
}

/// Lists each train of which `listed` holds, due near its arrival by the timetable.
fn put_near_arrivals(
    random: &mut Random,
    planned: &mut Planned,
    listed: impl Fn(&mut Random) -> bool,
) {
    let Planned { line, minutes } = planned;
    let mut dues = Vec::new();
    for (i, train) in line.used_trains().iter().enumerate() {
        if listed(random) {
            let (arrival, free) = (
                last_arrival(minutes, i, train),
                free_arrival(line, i) as u16,
            );
            let (before, after) = (arrival - random.within(1, 20).min(arrival), arrival + 20);
            let minute = random.one_of(&[
                arrival,
                arrival - 1,
                arrival + 1,
                before,
                after,
                free,
                0,
                2879,
            ]);
            dues.push(Due {
                train: i as u16 + 1,
                minute: minute.min(Limits::MINUTE.most),
            });
        }
    }
    put_dues(line, &dues);
}

#[cfg(test)]
mod tests {
    use super::*;
    use crate::planned::passes_the_check;

    #[test]
    fn planned_lines_with_dues_pass_the_check() {
        let mut random = Random::new(243);
        let (mut dues, mut booked) = (0, 0);
        for (stations, trains) in crate::sizes() {
            for traffic in [Traffic::Mixed, Traffic::Full] {
                let planned = due_planned(&mut random, stations, trains, traffic);
                passes_the_check(&planned);
                dues += planned.line.used_dues().len();
                booked += usize::from(planned.line.booking_count > 0);
            }
        }
        assert!(dues > 1000 && booked > 80);
    }

    #[test]
    fn small_planned_lines_with_dues_pass_the_check() {
        let mut random = Random::new(244);
        for _ in 0..2000 {
            let planned = due_small_planned(&mut random);
            assert!(planned.line.due_count > 0);
            passes_the_check(&planned);
        }
    }

    #[test]
    fn lines_with_120_bookings_and_12_dues() {
        let mut random = Random::new(245);
        for _ in 0..50 {
            let planned = fully_due_planned(&mut random);
            let line = &planned.line;
            assert_eq!((line.booking_count, line.due_count), (120, 12));
            passes_the_check(&planned);
        }
    }
}
