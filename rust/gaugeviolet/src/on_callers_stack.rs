//! The functions that search, on the stack of the thread that calls them.
//!
//! All are recursive and take about 2.4 kB of stack for each choice of a plan; a plan has at most
//! 1,386. In a thread with less than [`SOLVE_STACK`] bytes of stack a busy line may end the whole process
//! by an overflow. The main thread has 8 MB on most systems, any other thread of Rust 2 MB unless it is
//! told otherwise. What to do: call [`crate::plan`] or [`crate::starts`], which take a thread of their own;
//! or start the thread with `std::thread::Builder` and a `stack_size` of [`SOLVE_STACK`].

use crate::{screen, unpacked, Refusal};

/// The bytes of stack that the functions here need: about twice what their recursion takes at its
/// deepest, as far as that is argued and tested. No proof bounds it.
pub const SOLVE_STACK: usize = 6 << 20;

/// Solves a line file: writes the text of its best timetable to the front of `lent` and returns its
/// length; the bytes past it keep their former content. Refused as in [`crate::read`], then with 5 where
/// no timetable keeps every rule, then with 6 where `lent` has fewer bytes than the text.
///
/// Call it from a thread with [`SOLVE_STACK`] bytes of stack.
///
/// ```
/// use gaugeviolet::on_callers_stack::{solve, SOLVE_STACK};
///
/// let file = "3\n2\n2\n2\n2\nS 5 4\nS 5 4\n2\n1 3 0 200 1 20 0 20\n3 1 0 200 2 15 0 15\n";
/// let solving = std::thread::Builder::new().stack_size(SOLVE_STACK).spawn(move || {
///     let mut lent = [0; gaugeviolet::TIMETABLE_BYTES];
///     let length = solve(file.as_bytes(), &mut lent)?;
///     Ok::<_, gaugeviolet::Refusal>(lent[..length].to_vec())
/// });
/// let timetable = solving.unwrap().join().unwrap().unwrap();
/// assert_eq!(timetable, b"2\n0 20 20 40\n0 15 24 39\n2\n2 1 2\n2 2 1\n18\n");
/// assert_eq!(gaugeviolet::check(file.as_bytes(), &timetable), Ok(()));
/// ```
///
/// The file and the lent bytes are different bytes, or it is no program:
///
/// ```compile_fail,E0502
/// let mut bytes = *b"2\n1\n1\n1\nS 5 4\n0\n";
/// let written = gaugeviolet::on_callers_stack::solve(&bytes, &mut bytes);
/// ```
pub fn solve(file: &[u8], lent: &mut [u8]) -> Result<usize, Refusal> {
    unpacked(screen::solve(file, lent)).map(|length| length as usize)
}

/// The length of the walk of a line file: how many plans that takes up, cut off at 4,294,967,295. Refused
/// as in [`crate::read`].
///
/// This is the walk of request K9, which goes from plan to plan in a fixed order. It is here for the tests
/// and the benchmark; [`solve`] finds the same timetable by a shorter way. On a busy day the walk does not
/// end in reasonable time. Call it from a thread with [`SOLVE_STACK`] bytes of stack.
///
/// ```
/// use gaugeviolet::on_callers_stack::walk_length;
///
/// // Two trains meet on the only segment: one plan without a choice, and one for each that goes first.
/// let file = b"2\n1\n1\n1\nS 5 4\n2\n1 2 0 200 1 20\n2 1 0 200 2 15\n";
/// assert_eq!(walk_length(file), Ok(3));
///
/// let refusal = walk_length(b"13\n").unwrap_err();
/// assert_eq!((refusal.number, refusal.place), (3, 1));
/// ```
pub fn walk_length(file: &[u8]) -> Result<u32, Refusal> {
    unpacked(screen::walk_length(file))
}

/// Solves a line file once for each of a rising list of minutes, with the earliest departure of one train
/// altered to it: the front of `totals` becomes the total weighted delay of each, or
/// [`NO_TIMETABLE`](crate::NO_TIMETABLE) where there is no timetable. Entries past the list keep what they
/// held. Trains count from 1.
///
/// Refused as in [`crate::read`], then with 22 where the list is empty, has more than
/// [`STARTS_MOST`](crate::STARTS_MOST) minutes, does not rise from each to the next or goes past 2,879, where
/// `totals` has fewer entries than the list minutes, or where the file has no such train. No entry has
/// changed then.
///
/// Call it from a thread with [`SOLVE_STACK`] bytes of stack.
///
/// ```
/// use gaugeviolet::on_callers_stack::starts;
/// use gaugeviolet::NO_TIMETABLE;
///
/// // Train 1 may arrive at 40 and runs for 20 minutes; train 2 comes the other way.
/// let file = b"2\n1\n1\n1\nS 5 4\n2\n1 2 0 40 1 20\n2 1 0 60 2 15\n";
/// let mut totals = [7; 4];
/// assert_eq!(starts(file, 1, &[0, 19, 21], &mut totals), Ok(()));
/// assert_eq!(totals, [19, 0, NO_TIMETABLE, 7]);
///
/// // Minutes that do not rise, and a train that is not there, leave every entry alone.
/// let refusal = starts(file, 1, &[19, 19], &mut totals).unwrap_err();
/// assert_eq!((refusal.number, refusal.place), (22, 0));
/// assert_eq!(starts(file, 3, &[0], &mut totals), Err(refusal));
/// assert_eq!(totals, [19, 0, NO_TIMETABLE, 7]);
/// ```
pub fn starts(file: &[u8], train: u32, minutes: &[u16], totals: &mut [u32]) -> Result<(), Refusal> {
    unpacked(screen::starts(file, train, minutes, totals)).map(|_| ())
}
