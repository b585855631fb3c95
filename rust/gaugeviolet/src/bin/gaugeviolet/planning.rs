//! Looking for the best timetable of a line file, or for what it costs from other minutes. A search cannot
//! be interrupted, so it goes on in a thread of its own while this one waits and shows that it lives. A
//! thread that nobody waits for any more works on until the program ends, and ends with it.

use std::io::{self, IsTerminal, Write};
use std::sync::mpsc::{self, RecvTimeoutError};
use std::thread;
use std::time::{Duration, Instant};

use gaugeviolet::{counted, Refusal};

use crate::interrupt;

/// What planning gives.
pub type Planned = Result<Vec<u8>, Refusal>;

/// How often the time gone is shown.
const STEP: Duration = Duration::from_secs(1);

/// The best timetable, however long it takes.
pub fn best(file: &[u8]) -> Planned {
    let planned = wait(plan(file), "looking for the best timetable", None);
    planned.expect("without a limit of time")
}

/// The best timetable, or nothing where it is not known within some time.
pub fn best_within(file: &[u8], doing: &str, limit: Duration) -> Option<Planned> {
    wait(plan(file), doing, Some(limit))
}

/// The total for each minute from which a train may set out, however long it takes.
pub fn totals(file: &[u8], train: u32, minutes: &[u16]) -> Result<Vec<Option<u32>>, Refusal> {
    let count = counted(minutes.len() as u32, "minute");
    let (file, minutes) = (file.to_vec(), minutes.to_vec());
    let search = move || gaugeviolet::starts(&file, train, &minutes);
    let totals = wait(search, &format!("looking for the totals of {count}"), None);
    totals.expect("without a limit of time")
}

fn plan(file: &[u8]) -> impl FnOnce() -> Planned + Send + 'static {
    let file = file.to_vec();
    move || gaugeviolet::plan(&file)
}

fn wait<Found: Send + 'static>(
    search: impl FnOnce() -> Found + Send + 'static,
    doing: &str,
    limit: Option<Duration>,
) -> Option<Found> {
    interrupt::going_on(doing);
    let (sender, receiver) = mpsc::channel();
    // Where nobody waits any more, the answer is not needed.
    thread::spawn(move || drop(sender.send(search())));
    let begun = Instant::now();
    let mut shown = Shown::new(doing);
    loop {
        let left = limit.map(|limit| limit.saturating_sub(begun.elapsed()));
        if left.is_some_and(|left| left.is_zero()) {
            return None;
        }
        match receiver.recv_timeout(left.map_or(STEP, |left| left.min(STEP))) {
            Ok(found) => return Some(found),
            Err(RecvTimeoutError::Timeout) => shown.time(begun.elapsed()),
            Err(RecvTimeoutError::Disconnected) => panic!("planning ended without an answer"),
        }
    }
}

/// The time gone, on standard error where that is a terminal. It is wiped away at the end.
struct Shown<'a> {
    doing: &'a str,
    terminal: bool,
    any: bool,
}

impl Shown<'_> {
    fn new(doing: &str) -> Shown<'_> {
        Shown {
            doing,
            terminal: io::stderr().is_terminal(),
            any: false,
        }
    }

    fn time(&mut self, gone: Duration) {
        if self.terminal {
            self.any = true;
            let _ = write!(io::stderr(), "\r{}: {} s ", self.doing, gone.as_secs());
        }
    }
}

impl Drop for Shown<'_> {
    fn drop(&mut self) {
        if self.any {
            let _ = write!(io::stderr(), "\r\x1b[K");
        }
    }
}
