//! Reads a line file on standard input and prints its best timetable, found by trying every order,
//! or `refused n p`. For small files: after the work that the one argument allows (positions tried;
//! without it ten million) it gives up with exit status 1.

use std::io::{Read, Write};
use std::process::ExitCode;

use independent::exhaustive::{plan, Unplanned};

const WORK: u64 = 10_000_000;

fn main() -> ExitCode {
    match run() {
        Ok(()) => ExitCode::SUCCESS,
        Err(why) => {
            eprintln!("exhaustive: {why}");
            ExitCode::FAILURE
        }
    }
}

fn run() -> Result<(), String> {
    let work = match std::env::args().nth(1) {
        Some(work) => work.parse().map_err(|_| "the work is a number")?,
        None => WORK,
    };
    let mut file = Vec::new();
    std::io::stdin()
        .read_to_end(&mut file)
        .map_err(|why| why.to_string())?;
    let printed = match plan(&file, work) {
        Ok(timetable) => timetable,
        Err(Unplanned::Refused(refusal)) => format!("{refusal}\n").into_bytes(),
        Err(Unplanned::WorkLimit) => return Err(format!("{work} positions were not enough")),
    };
    std::io::stdout()
        .write_all(&printed)
        .map_err(|why| why.to_string())
}
