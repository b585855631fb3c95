//! Many starting minutes for one train: the total of the best timetable for each of them.

use crate::rules::weighted_delay;
use crate::search::search;
use crate::{Limits, Line, Refusal};

/// The most minutes that a list may have.
pub const MOST_MINUTES: usize = 24;

/// What an entry holds where no timetable keeps the rules. No total is as great.
pub const NO_TIMETABLE: u32 = u32::MAX;

/// The total of the best timetable of a line file for each minute that a train, by its number from 1, may
/// have for its earliest; none where there is no timetable. 1 to 4 and 19 of the file, then 22.
pub fn starts(file: &[u8], train: u32, minutes: &[u16]) -> Result<Vec<Option<u32>>, Refusal> {
    let line = crate::read(file)?;
    let number = accepted(&line, train, minutes)?;
    let total = |&minute| total(&with_earliest(&line, number, minute));
    Ok(minutes.iter().map(total).collect())
}

/// Puts the totals of [`starts`] into the first entries lent, one for each minute; the others keep what they
/// held. Fewer entries than minutes are 22 too. A refusal changes no entry.
pub fn starts_into(
    file: &[u8],
    train: u32,
    minutes: &[u16],
    totals: &mut [u32],
) -> Result<(), Refusal> {
    let line = crate::read(file)?;
    let number = accepted(&line, train, minutes)?;
    if totals.len() < minutes.len() {
        return Err(NOT_TAKEN);
    }
    for (entry, &minute) in totals.iter_mut().zip(minutes) {
        let total = total(&with_earliest(&line, number, minute));
        *entry = total.unwrap_or(NO_TIMETABLE);
    }
    Ok(())
}

/// The line with another earliest of a train, by its number from 0. All else stays: its latest, its
/// bookings, its due minute if it is listed.
pub fn with_earliest(line: &Line, number: usize, minute: u16) -> Line {
    let mut altered = *line;
    altered.trains[number].earliest = minute;
    altered
}

/// Number 22.
const NOT_TAKEN: Refusal = Refusal {
    number: 22,
    place: 0,
};

/// The train's number from 0, if it is one of the line and the list is in order.
fn accepted(line: &Line, train: u32, minutes: &[u16]) -> Result<usize, Refusal> {
    let has_train = (1..=u32::from(line.train_count)).contains(&train);
    let has_length = (1..=MOST_MINUTES).contains(&minutes.len());
    let rises = minutes.windows(2).all(|two| two[0] < two[1]);
    let in_the_day = minutes.iter().all(|&minute| Limits::MINUTE.hold(minute));
    if has_train && has_length && rises && in_the_day {
        Ok(train as usize - 1)
    } else {
        Err(NOT_TAKEN)
    }
}

/// The total of the best timetable of a line, worked from its minutes.
fn total(line: &Line) -> Option<u32> {
    let best = search(line).best?;
    Some(weighted_delay(line, &best))
}
