//! The timetable text, read and written.

use crate::position::{Position, LINE_FEED, SPACE};
use crate::rules::{lists, order_list, weighted_delay, Minutes, OrderList, LISTS};
use crate::text::{Text, SPARE};
use crate::{Limits, Line, Refusal, Train, FILE_BYTES};

/// The bytes of the longest timetable: 3 for the train count, 110 for each of 12 trains, 3 for the
/// list count, 32 for each of 11 segments of kind D, 8 for the total.
const LONGEST: usize = 1686;

/// What a timetable says: minutes, and the order lists and total as they are given.
#[derive(Clone, Copy, Debug, PartialEq, Eq)]
pub struct Timetable {
    /// The minutes of the trains.
    pub minutes: Minutes,
    /// The order lists; those beyond the line's number of lists are empty.
    pub lists: [OrderList; LISTS],
    /// The total weighted delay.
    pub total: u32,
}

/// Reads the timetable of a line that was read: 7, 8 or 9 with the line of the fault. Rules, lists
/// and total are not judged.
pub fn read(line: &Line, text: &[u8]) -> Result<Timetable, Refusal> {
    // Numbers 7, 8 and 9 are 1, 2 and 3 of the timetable: the fields are read in the same way.
    read_fields(line, text).map_err(|refusal| Refusal {
        number: refusal.number + 6,
        ..refusal
    })
}

fn read_fields(line: &Line, text: &[u8]) -> Result<Timetable, Refusal> {
    if text.len() > FILE_BYTES {
        return Err(Refusal::TOO_LONG);
    }
    let mut timetable = Timetable {
        minutes: Minutes::default(),
        lists: [OrderList::default(); LISTS],
        total: 0,
    };
    let mut at = Position::first(text);
    at.number(LINE_FEED, only(line.train_count))?;
    for (number, train) in line.used_trains().iter().enumerate() {
        read_train(&mut at, number, train, &mut timetable.minutes)?;
    }
    let list_count = lists(line).count();
    at.number(LINE_FEED, only(list_count as u16))?;
    for list in &mut timetable.lists[..list_count] {
        read_list(&mut at, line.train_count, list)?;
    }
    timetable.total = at.total()?;
    at.at_the_end()?;
    Ok(timetable)
}

/// The range of a count that must be the line's.
#[inline]
const fn only(count: u16) -> Limits {
    Limits::new(count, count)
}

#[inline]
fn read_train(
    at: &mut Position,
    number: usize,
    train: &Train,
    minutes: &mut Minutes,
) -> Result<(), Refusal> {
    let last = train.legs() - 1;
    for leg in 0..=last {
        let segment = train.segment(leg);
        let after = if leg == last { LINE_FEED } else { SPACE };
        minutes.departures[segment][number] = at.number(SPACE, Limits::MINUTE)?;
        minutes.arrivals[segment][number] = at.number(after, Limits::MINUTE)?;
    }
    Ok(())
}

#[inline]
fn read_list(at: &mut Position, train_count: u16, list: &mut OrderList) -> Result<(), Refusal> {
    // Nothing follows the count 0 on its line; train numbers follow any other, also one that is too
    // high, as the byte after it is looked at before its range.
    let after = |count| if count == 0 { LINE_FEED } else { SPACE };
    let count = at.number_and(after, Limits::new(0, train_count))?;
    list.count = usize::from(count);
    if let [others @ .., last] = &mut list.trains[..usize::from(count)] {
        let numbers = Limits::new(1, train_count);
        for number in others {
            *number = at.number(SPACE, numbers)?;
        }
        *last = at.number(LINE_FEED, numbers)?;
    }
    Ok(())
}

/// The timetable of `line` with these minutes, which are at most 2,879 and need not keep the rules.
pub fn write(line: &Line, minutes: &Minutes) -> Vec<u8> {
    let mut lent = [0; FILE_BYTES];
    let length = write_into(line, minutes, &mut lent).expect("4,096 bytes always suffice");
    lent[..length].to_vec()
}

/// Writes the text of [`write()`] to the front of `lent` and returns its length, or 6 where `lent` has
/// fewer bytes than the text. A refusal changes no lent byte.
pub fn write_into(line: &Line, minutes: &Minutes, lent: &mut [u8]) -> Result<usize, Refusal> {
    let mut text = Text::<{ LONGEST + SPARE }>::new();
    put_minutes(&mut text, line, minutes);
    text.number(lists(line).count() as u16, b'\n');
    for (p, lane) in lists(line) {
        text.list(&order_list(line, minutes, p, lane));
    }
    text.long_number(weighted_delay(line, minutes), b'\n');
    text.copy_to(lent)
}

/// Puts the train count and a line for each train to a text that has room for them.
pub(crate) fn put_minutes<const ROOM: usize>(
    text: &mut Text<ROOM>,
    line: &Line,
    minutes: &Minutes,
) {
    text.number(line.train_count, b'\n');
    for (number, train) in line.used_trains().iter().enumerate() {
        let last = train.legs() - 1;
        for leg in 0..=last {
            let segment = train.segment(leg);
            text.number(minutes.departures[segment][number], b' ');
            let after = if leg == last { b'\n' } else { b' ' };
            text.number(minutes.arrivals[segment][number], after);
        }
    }
}

impl Text<{ LONGEST + SPARE }> {
    fn list(&mut self, list: &OrderList) {
        // Each number is written once it is known whether another follows it on the line.
        let mut number = list.count as u16;
        for &next in list.used_trains() {
            self.number(number, b' ');
            number = next;
        }
        self.number(number, b'\n');
    }
}
