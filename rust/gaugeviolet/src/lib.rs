//! Safe Rust functions over Gaugeviolet's proved static library, for the planning screen.
//!
//! A line file or a timetable is lent as bytes. What is wrong with it comes back as a [`Refusal`]: its
//! number and its place, as the rules of the planner have them.
//!
//! ```
//! let file = b"2\n1\n1\n1\nS 5 4\n0\n";
//! assert_eq!(gaugeviolet::read(file), Ok(()));
//!
//! let mut lent = [0; gaugeviolet::FILE_BYTES];
//! let length = gaugeviolet::rewrite(file, &mut lent).unwrap();
//! assert_eq!(&lent[..length], file);
//!
//! let refusal = gaugeviolet::read(b"13\n").unwrap_err();
//! assert_eq!((refusal.number, refusal.place), (3, 1));
//! assert_eq!(refusal.in_numbers(), "refused 3 1");
//! ```
//!
//! [`Refusal::sentence`] says it in words, and [`Refusal::explanation`] quotes the line with the fault.
//!
//! A timetable is checked against its line file:
//!
//! ```
//! let file = "3\n2\n2\n2\n2\nS 5 4\nS 5 4\n2\n1 3 0 200 1 20 0 20\n3 1 0 200 2 15 0 15\n";
//! let timetable = "2\n0 20 20 40\n0 15 24 39\n2\n2 1 2\n2 2 1\n18\n";
//! let check = |timetable: &str| gaugeviolet::check(file.as_bytes(), timetable.as_bytes());
//! assert_eq!(check(timetable), Ok(()));
//!
//! // The last run of train 2 takes 15 minutes and no fewer.
//! let refusal = check(&timetable.replace("24 39", "24 38")).unwrap_err();
//! assert_eq!((refusal.number, refusal.place), (11, 2));
//! ```
//!
//! A passenger special that is booked at a stop does not leave it before the printed minute. Bookings are
//! a section after the trains: their count, then train, station and minute on a line each.
//!
//! ```
//! let booked = "3\n2\n2\n2\n2\nS 5 4\nS 5 4\n1\n1 3 0 200 1 20 0 20\n1\n1 2 30\n";
//! let timetable = gaugeviolet::plan(booked.as_bytes()).unwrap();
//! assert_eq!(timetable, b"1\n0 20 30 50\n2\n1 1\n1 1\n0\n");
//!
//! // It is there at minute 20, and may not go on at once.
//! let early = b"1\n0 20 20 40\n2\n1 1\n1 1\n0\n";
//! let refusal = gaugeviolet::check(booked.as_bytes(), early).unwrap_err();
//! assert_eq!((refusal.number, refusal.place), (18, 1));
//!
//! // At its destination a train is not booked.
//! let refusal = gaugeviolet::read(booked.replace("1 2 30", "1 3 30").as_bytes()).unwrap_err();
//! assert_eq!((refusal.number, refusal.place), (19, 11));
//! ```
//!
//! A special is late from the minute at which it was due. Due minutes are a section after the bookings,
//! of which the count is there also where it is 0: their count, then train and minute on a line each. A
//! train that is not listed is due when it would be there alone on the line.
//!
//! ```
//! let due = "2\n1\n1\n1\nS 5 4\n2\n1 2 0 99 1 10\n2 1 0 99 1 10\n0\n1\n1 20\n";
//! let timetable = gaugeviolet::plan(due.as_bytes()).unwrap();
//! // Train 1 is due at 20 and waits. It arrives at 24, and train 2 at 10, as it would alone.
//! assert_eq!(timetable, b"2\n14 24\n0 10\n1\n2 2 1\n4\n");
//!
//! // The trains stand in rising order.
//! let twice = due.replace("1\n1 20\n", "2\n1 20\n1 20\n");
//! let refusal = gaugeviolet::read(twice.as_bytes()).unwrap_err();
//! assert_eq!((refusal.number, refusal.place), (19, 12));
//! ```
//!
//! Journey planners take stop times, the public GTFS file `stop_times.txt`: a trip for each train, a line
//! for each stop of it.
//!
//! ```
//! let file = b"3\n2\n2\n2\n2\nS 5 4\nS 5 4\n1\n1 3 0 200 1 20 0 20\n";
//! let timetable = b"1\n0 20 24 44\n2\n1 1\n1 1\n4\n";
//! let mut lent = [0; gaugeviolet::STOP_TIMES_BYTES];
//! let length = gaugeviolet::export(file, timetable, &mut lent).unwrap();
//! let stop_times = std::str::from_utf8(&lent[..length]).unwrap();
//! assert_eq!(
//!     stop_times,
//!     "trip_id,arrival_time,departure_time,stop_id,stop_sequence\n\
//!      T1,00:00:00,00:00:00,1,1\n\
//!      T1,00:20:00,00:24:00,2,2\n\
//!      T1,00:44:00,00:44:00,3,3\n"
//! );
//!
//! // Read back for the same line file, they are the train lines of the timetable.
//! let mut lent = [0; gaugeviolet::TIMETABLE_BYTES];
//! let length = gaugeviolet::import(file, stop_times.as_bytes(), &mut lent).unwrap();
//! assert_eq!(&lent[..length], b"1\n0 20 24 44\n");
//! ```
//!
//! [`plan`] finds the best timetable, and [`starts`] what a day costs for each of some minutes from which a
//! special may set out. [`Line`] and [`Timetable`] give typed access to accepted texts, and
//! [`LineBuilder`] makes line files. Nothing here overflows a stack but the functions of
//! [`on_callers_stack`], and only where they are called from a thread with too little of it.

#![deny(unsafe_code)]

use std::thread;

pub mod on_callers_stack;

mod explain;
mod line;
mod refusal;
mod screen;
mod timetable;
mod waits;
mod words;

pub use explain::{Explanation, Field, Quotation, Text};
pub use line::{Booking, Due, Kind, Line, LineBuilder, Segment, Train};
pub use refusal::{Cause, Refusal};
pub use timetable::{Lane, Leg, OrderList, Timetable};
pub use waits::{Reason, Wait};
pub use words::{counted, punctuality, time_of_day};

/// The most bytes that a line file may have. As many lent bytes hold the text of every line.
pub const FILE_BYTES: usize = 4096;
/// The most bytes that a timetable may have. As many lent bytes hold the text of every timetable.
pub const TIMETABLE_BYTES: usize = 4096;
/// As many lent bytes hold the stop times of every timetable. The longest have 3,766.
pub const STOP_TIMES_BYTES: usize = 4096;
/// The most minutes that [`starts`] takes for a train.
pub const STARTS_MOST: usize = 24;
/// What stands in the place of a total where there is no timetable. No total is as great.
pub const NO_TIMETABLE: u32 = 4_294_967_295;

/// Reads a line file: whether it is one, or why not (numbers 1 to 4 and 19).
///
/// ```
/// assert_eq!(gaugeviolet::read(b"2\n1\n1\n1\nS 5 4\n0\n"), Ok(()));
///
/// // Nothing is no line file: its first line is missing.
/// let refusal = gaugeviolet::read(&[]).unwrap_err();
/// assert_eq!((refusal.number, refusal.place), (2, 1));
/// ```
pub fn read(file: &[u8]) -> Result<(), Refusal> {
    unpacked(screen::read(file)).map(|_| ())
}

/// Reads a line file and writes its line out again to the front of `lent`. Returns the length of
/// the text; the bytes past it keep their former content. Refused as in [`read`], then with 6 where
/// `lent` has fewer bytes than the text.
///
/// ```
/// let file = b"2\n1\n1\n1\nS 5 4\n0\n";
/// let mut lent = [b'-'; 20];
/// assert_eq!(gaugeviolet::rewrite(file, &mut lent), Ok(file.len()));
/// assert_eq!(&lent, b"2\n1\n1\n1\nS 5 4\n0\n----");
///
/// // Too few bytes, none among them, stay as they are.
/// let refusal = gaugeviolet::rewrite(file, &mut lent[..15]).unwrap_err();
/// assert_eq!((refusal.number, refusal.place), (6, 0));
/// assert_eq!(gaugeviolet::rewrite(file, &mut []), Err(refusal));
/// ```
///
/// The file and the lent bytes are different bytes, or it is no program:
///
/// ```compile_fail,E0502
/// let mut bytes = *b"2\n1\n1\n1\nS 5 4\n0\n";
/// let written = gaugeviolet::rewrite(&bytes, &mut bytes);
/// ```
pub fn rewrite(file: &[u8], lent: &mut [u8]) -> Result<usize, Refusal> {
    unpacked(screen::rewrite(file, lent)).map(|length| length as usize)
}

/// Checks a timetable against its line file: whether it keeps every rule and gives the order lists and
/// the total that follow from its minutes, or why not. Refused as in [`read`], then with the first of 7
/// to 18: form and range (8 and 9) over the whole text, then each rule over all trains, 18 after 12.
///
/// ```
/// let file = b"2\n1\n1\n1\nS 5 4\n1\n1 2 0 10 1 10\n";
/// assert_eq!(gaugeviolet::check(file, b"1\n0 10\n1\n1 1\n0\n"), Ok(()));
///
/// // Its total is not the weighted delay.
/// let refusal = gaugeviolet::check(file, b"1\n0 10\n1\n1 1\n5\n").unwrap_err();
/// assert_eq!((refusal.number, refusal.place), (17, 0));
///
/// // The same bytes may be lent as both: a line file is no timetable.
/// let refusal = gaugeviolet::check(file, file).unwrap_err();
/// assert_eq!((refusal.number, refusal.place), (9, 1));
/// ```
pub fn check(file: &[u8], timetable: &[u8]) -> Result<(), Refusal> {
    unpacked(screen::check(file, timetable)).map(|_| ())
}

/// Plans a line file: the text of its best timetable. Refused as in [`read`], then with 5 where no
/// timetable keeps every rule.
///
/// The search runs in a thread of its own, with the stack that it needs, and has no limit of time.
///
/// ```
/// let file = b"3\n2\n2\n2\n2\nS 5 4\nS 5 4\n2\n1 3 0 200 1 20 0 20\n3 1 0 200 2 15 0 15\n";
/// let timetable = gaugeviolet::plan(file)?;
/// assert_eq!(timetable, b"2\n0 20 20 40\n0 15 24 39\n2\n2 1 2\n2 2 1\n18\n");
/// assert_eq!(gaugeviolet::check(file, &timetable), Ok(()));
/// # Ok::<(), gaugeviolet::Refusal>(())
/// ```
///
/// # Panics
/// Where the system gives no thread.
pub fn plan(file: &[u8]) -> Result<Vec<u8>, Refusal> {
    with_solve_stack(|| {
        let mut lent = vec![0; TIMETABLE_BYTES];
        let length = on_callers_stack::solve(file, &mut lent)?;
        lent.truncate(length);
        Ok(lent)
    })
}

/// What a train costs the day from each of a rising list of minutes on: the total weighted delay of the
/// best timetable of the line with that train's earliest departure altered to the minute, or nothing where
/// no timetable keeps every rule then. The train is named by its number, from 1.
///
/// A train that is not listed with a due minute has its free arrival moved with its earliest departure, so a
/// total counts its delay from there.
///
/// Refused as in [`read`], then with 22 where the list is empty, has more than [`STARTS_MOST`] minutes, does
/// not rise from each to the next or goes past 2,879, or where the file has no such train.
///
/// The searches run one after another in a thread of their own, with the stack that they need, and have no
/// limit of time.
///
/// ```
/// // Train 1 may arrive at 40 and runs for 20 minutes; train 2 comes the other way.
/// let file = b"2\n1\n1\n1\nS 5 4\n2\n1 2 0 40 1 20\n2 1 0 60 2 15\n";
/// let totals = gaugeviolet::starts(file, 1, &[0, 10, 19, 21])?;
/// assert_eq!(totals, [Some(19), Some(9), Some(0), None]);
///
/// // There is no third train.
/// let refusal = gaugeviolet::starts(file, 3, &[0]).unwrap_err();
/// assert_eq!((refusal.number, refusal.place), (22, 0));
/// # Ok::<(), gaugeviolet::Refusal>(())
/// ```
///
/// # Panics
/// Where the system gives no thread.
pub fn starts(file: &[u8], train: u32, minutes: &[u16]) -> Result<Vec<Option<u32>>, Refusal> {
    let mut totals = [0; STARTS_MOST];
    with_solve_stack(|| on_callers_stack::starts(file, train, minutes, &mut totals))?;
    let total = |&total: &u32| (total != NO_TIMETABLE).then_some(total);
    // A list that is not refused has no more minutes than that.
    Ok(totals[..minutes.len()].iter().map(total).collect())
}

/// Runs a search in a thread of its own, which has the stack for it.
fn with_solve_stack<Found: Send>(search: impl FnOnce() -> Found + Send) -> Found {
    thread::scope(|scope| {
        let thread = thread::Builder::new().stack_size(on_callers_stack::SOLVE_STACK);
        let searching = thread.spawn_scoped(scope, search);
        let searching = searching.expect("the system gives a thread to plan in");
        searching.join().expect("planning does not panic")
    })
}

/// Exports a timetable as stop times (`stop_times.txt` of GTFS) to the front of `lent`: under the header a
/// line for each train and station of its path, in travel order. Returns the length of the text; the bytes
/// past it keep their former content. [`STOP_TIMES_BYTES`] always suffice.
///
/// Trips are T1 on, stops are the numbers of the stations. Hours run past 23: the second day's are 24 to
/// 47. Where a train begins or ends, arrival and departure are the same minute.
///
/// Refused as in [`read`], then with 7 to 9 where the timetable's text is not one of the line, then with 6
/// where `lent` has fewer bytes than the text. The rules, the order lists and the total are not tested:
/// [`check`] does that.
///
/// ```
/// let file = b"2\n1\n1\n1\nS 5 4\n1\n1 2 1430 1450 1 15\n";
/// let timetable = b"1\n1430 1445\n1\n1 1\n0\n";
/// let mut lent = [0; gaugeviolet::STOP_TIMES_BYTES];
/// let length = gaugeviolet::export(file, timetable, &mut lent)?;
/// assert_eq!(
///     &lent[..length],
///     b"trip_id,arrival_time,departure_time,stop_id,stop_sequence\n\
///       T1,23:50:00,23:50:00,1,1\n\
///       T1,24:05:00,24:05:00,2,2\n"
/// );
///
/// // Too few bytes stay as they are.
/// let mut few = [b'-'; 100];
/// let refusal = gaugeviolet::export(file, timetable, &mut few).unwrap_err();
/// assert_eq!((refusal.number, refusal.place), (6, 0));
/// assert_eq!(few, [b'-'; 100]);
///
/// // The line has one train and the text two.
/// let refusal = gaugeviolet::export(file, b"2\n", &mut lent).unwrap_err();
/// assert_eq!((refusal.number, refusal.place), (9, 1));
/// # Ok::<(), gaugeviolet::Refusal>(())
/// ```
///
/// The timetable and the lent bytes are different bytes, or it is no program:
///
/// ```compile_fail,E0502
/// let mut bytes = *b"0\n1\n0\n0\n";
/// let written = gaugeviolet::export(b"2\n1\n1\n1\nS 5 4\n0\n", &bytes, &mut bytes);
/// ```
pub fn export(file: &[u8], timetable: &[u8], lent: &mut [u8]) -> Result<usize, Refusal> {
    unpacked(screen::export(file, timetable, lent)).map(|length| length as usize)
}

/// Imports stop times for a line file: writes what a timetable begins with, the train count and a line of
/// minutes for each train, to the front of `lent`. Returns the length of this text; the bytes past it keep
/// their former content. [`TIMETABLE_BYTES`] always suffice.
///
/// What [`export`] wrote gives the minutes back, and nothing else is accepted: every accepted text is the
/// export of some minutes of the line. They need not keep the rules.
///
/// Refused as in [`read`], then by the first line of the stop times that is wrong: with 20 where it has not
/// the form, is missing or stands after the end, with 21 where trip, stop or sequence is not the next one
/// on the paths of the line's trains, and 20 before 21 on one line. Then with 6 where `lent` has fewer
/// bytes than the text.
///
/// ```
/// let file = b"2\n1\n1\n1\nS 5 4\n2\n1 2 0 99 1 10\n2 1 0 99 1 10\n";
/// let stop_times = "trip_id,arrival_time,departure_time,stop_id,stop_sequence\n\
///                   T1,00:14:00,00:14:00,1,1\n\
///                   T1,00:24:00,00:24:00,2,2\n\
///                   T2,00:00:00,00:00:00,2,1\n\
///                   T2,00:10:00,00:10:00,1,2\n";
/// let import = |stop_times: &str| {
///     let mut lent = [0; gaugeviolet::TIMETABLE_BYTES];
///     let length = gaugeviolet::import(file, stop_times.as_bytes(), &mut lent)?;
///     Ok::<_, gaugeviolet::Refusal>(lent[..length].to_vec())
/// };
/// assert_eq!(import(stop_times)?, b"2\n14 24\n0 10\n");
///
/// // Hours have two digits.
/// let refusal = import(&stop_times.replace("00:14:00", "0:14:00")).unwrap_err();
/// assert_eq!((refusal.number, refusal.place), (20, 2));
///
/// // Train 2 begins at station 2.
/// let refusal = import(&stop_times.replace(",2,1", ",1,1")).unwrap_err();
/// assert_eq!((refusal.number, refusal.place), (21, 4));
///
/// // A train has one minute where it begins: the line has not the form, whatever its stop.
/// let both = stop_times.replace("T2,00:00:00,00:00:00,2,1", "T2,00:00:00,00:01:00,1,1");
/// let refusal = import(&both).unwrap_err();
/// assert_eq!((refusal.number, refusal.place), (20, 4));
/// # Ok::<(), gaugeviolet::Refusal>(())
/// ```
pub fn import(file: &[u8], stop_times: &[u8], lent: &mut [u8]) -> Result<usize, Refusal> {
    unpacked(screen::import(file, stop_times, lent)).map(|length| length as usize)
}

/// Takes a returned number apart: number · 2³² + value. Number 0 is success with its value, any
/// other is a refusal and the value is its place.
fn unpacked(returned: u64) -> Result<u32, Refusal> {
    let number = (returned >> 32) as u32;
    let value = returned as u32;
    if number == 0 {
        Ok(value)
    } else {
        Err(Refusal {
            number,
            place: value,
        })
    }
}

#[cfg(test)]
mod tests {
    use super::*;

    #[test]
    fn a_returned_number_is_taken_apart() {
        assert_eq!(unpacked(0), Ok(0));
        assert_eq!(unpacked(1357), Ok(1357));
        assert_eq!(unpacked(u64::from(u32::MAX)), Ok(u32::MAX));
        let refused = |number, place| Err(Refusal { number, place });
        assert_eq!(unpacked(1 << 32), refused(1, 0));
        assert_eq!(unpacked((4 << 32) + 38), refused(4, 38));
        assert_eq!(unpacked(6 << 32), refused(6, 0));
        assert_eq!(unpacked((16 << 32) + 22), refused(16, 22));
    }
}
