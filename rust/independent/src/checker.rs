//! The check of a timetable against its line file.

use crate::rules::{first_breach, is_order_list, lists, weighted_delay};
use crate::timetable::{self, Timetable};
use crate::{Line, Refusal};

/// Holds that `timetable` is a lawful timetable of `file` with the order lists and the total that
/// follow from its minutes. Otherwise the first number in the order of the scope document: those of
/// the file (1 to 4 and 19), then 7, 8 and 9 over the whole text, then 10 to 12, 18, 13 to 15, 16, 17.
pub fn check(file: &[u8], timetable: &[u8]) -> Result<(), Refusal> {
    let line = crate::read(file)?;
    let timetable = timetable::read(&line, timetable)?;
    first_breach(&line, &timetable.minutes)?;
    check_lists(&line, &timetable)?;
    check_total(&line, &timetable)
}

fn check_lists(line: &Line, timetable: &Timetable) -> Result<(), Refusal> {
    for (at, (p, lane)) in lists(line).enumerate() {
        if !is_order_list(line, &timetable.minutes, p, lane, &timetable.lists[at]) {
            return Err(Refusal {
                number: 16,
                place: at as u32 + 1,
            });
        }
    }
    Ok(())
}

fn check_total(line: &Line, timetable: &Timetable) -> Result<(), Refusal> {
    if timetable.total == weighted_delay(line, &timetable.minutes) {
        Ok(())
    } else {
        Err(Refusal {
            number: 17,
            place: 0,
        })
    }
}
