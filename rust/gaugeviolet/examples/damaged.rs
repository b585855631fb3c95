//! Lends damaged files, timetables, stop times and lists of minutes, as many as the argument says, to every
//! function of the library, in buffers of their exact length: to be run under valgrind, whose word it then is
//! that nothing outside a lent buffer is touched (`rust/damaged` does it). It holds itself that no refusal
//! changes a lent byte or entry and, with 20,000 inputs or more, that every number from 1 to 22 comes up.
//!
//! With `outside` for the argument it reads a byte past a buffer, which valgrind must report.

use std::collections::BTreeMap;
use std::process::ExitCode;

use gaugeviolet::{on_callers_stack, Refusal, FILE_BYTES};
use inputs::{booked_planned, booked_small_line, damage_bytes, damaged, planned, small_line};
use inputs::{due_planned, due_small_line, fully_due_planned, with_stop_times_fault};
use inputs::{question, with_starts_fault, StartsAt, StartsFault};
use inputs::{Damage, Pair, Planned, Question, Random, StopTimesFault, Traffic};

/// How many lines there are to damage.
const LINES: usize = 400;

/// The most minutes of a list that is in order: each of them is a search.
const MINUTES: usize = 3;

/// With so many inputs every number comes up.
const ENOUGH: u64 = 20_000;

/// How often each number came back; 0 where nothing was refused.
type Numbers = BTreeMap<u32, u64>;

fn main() -> ExitCode {
    let arguments: Vec<String> = std::env::args().skip(1).collect();
    match arguments.as_slice() {
        [outside] if outside == "outside" => {
            println!("read outside a buffer: {}", byte_outside());
            ExitCode::SUCCESS
        }
        [count] => count.parse().map_or_else(|_| usage(), run),
        _ => usage(),
    }
}

fn usage() -> ExitCode {
    eprintln!("damaged: give the count of inputs, or 'outside'");
    ExitCode::FAILURE
}

fn run(count: u64) -> ExitCode {
    let mut random = Random::new(70);
    let lines: Vec<Planned> = (0..LINES).map(|_| line_to_damage(&mut random)).collect();
    let full = fully_due_planned(&mut random);
    let mut numbers = Numbers::new();
    for at in 0..count {
        let damage = Damage::ALL[at as usize % Damage::ALL.len()];
        // The search or the walk of a full-size line may be too long to wait for.
        let solved = at % 50 != 0;
        let planned = if solved {
            &lines[random.below(LINES)]
        } else {
            &full
        };
        let mut pair = damaged(&mut random, planned, damage);
        damage_file(&mut random, &mut pair.file);
        lend(&mut random, &pair, solved, &mut numbers);
        let fault = StopTimesFault::ALL[at as usize % StopTimesFault::ALL.len()];
        let stop_times = independent::stop_times::write(&planned.line, &planned.minutes);
        let stop_times = with_stop_times_fault(&mut random, &stop_times, fault);
        lend_stop_times(&mut random, &pair, &stop_times, &mut numbers);
        let asked = question_to_lend(&mut random, planned, solved);
        lend_starts(&pair.file, &asked, &mut numbers);
    }
    report(count, &numbers)
}

/// A small line, with bookings or dues or without, and a timetable of it. Half of them have latest
/// arrivals that are hard to keep, so that some have no timetable; the one beside it is then no timetable of
/// it either.
fn line_to_damage(random: &mut Random) -> Planned {
    let (stations, trains) = (random.within(2, 5), random.within(1, 4));
    let draw = random.one_of(&[planned, booked_planned, due_planned]);
    let mut planned = draw(random, stations, trains, Traffic::Mixed);
    if random.below(2) == 0 {
        let draw = random.one_of(&[small_line, booked_small_line, due_small_line]);
        planned.line = draw(random, stations, trains);
    }
    planned
}

/// Now and then the file is damaged too, or is longer than a file may be.
fn damage_file(random: &mut Random, file: &mut Vec<u8>) {
    match random.below(8) {
        0 => damage_bytes(random, file, 3),
        1 => file.truncate(random.below(file.len() + 1)),
        2 if random.below(20) == 0 => file.resize(FILE_BYTES + random.below(3), b'\n'),
        _ => {}
    }
}

/// Lends the pair to export, and its file with stop times to import.
fn lend_stop_times(random: &mut Random, pair: &Pair, stop_times: &[u8], numbers: &mut Numbers) {
    let file = exactly(&pair.file);
    let timetable = exactly(&pair.timetable);
    let stop_times = exactly(stop_times);
    let room = random.below(2 * stop_times.len() + 80);
    count(
        numbers,
        written(room, |lent| gaugeviolet::export(&file, &timetable, lent)),
    );
    let room = random.below(2 * timetable.len() + 20);
    count(
        numbers,
        written(room, |lent| gaugeviolet::import(&file, &stop_times, lent)),
    );
}

/// A question about starting minutes of a line with a train: with a fault, or else a short one where its
/// searches are `short` too.
fn question_to_lend(random: &mut Random, planned: &Planned, short: bool) -> Question {
    let at = random.one_of(&StartsAt::ALL);
    let mut asked = question(random, &planned.line, at);
    if short && random.below(2) == 0 {
        asked.minutes.truncate(MINUTES);
        return asked;
    }
    let fault = random.one_of(&StartsFault::ALL);
    with_starts_fault(random, &planned.line, &asked, fault)
}

/// Lends a file, a list of minutes and entries. Refused, none of these may change; else none past the list.
fn lend_starts(file: &[u8], question: &Question, numbers: &mut Numbers) {
    let file = exactly(file);
    let minutes = question.minutes.clone().into_boxed_slice();
    let former = 0xa5a5_a5a5;
    let mut totals = vec![former; question.entries].into_boxed_slice();
    let answer = on_callers_stack::starts(&file, question.train, &minutes, &mut totals);
    let kept = &totals[answer.map_or(0, |()| minutes.len())..];
    assert!(
        kept.iter().all(|&entry| entry == former),
        "an entry past the list changed"
    );
    count(numbers, answer);
}

/// Lends the pair to every function but those of stop times and of starting minutes.
fn lend(random: &mut Random, pair: &Pair, solved: bool, numbers: &mut Numbers) {
    let file = exactly(&pair.file);
    let timetable = exactly(&pair.timetable);
    count(numbers, gaugeviolet::read(&file));
    count(numbers, gaugeviolet::check(&file, &timetable));
    let room = random.below(file.len() + 20);
    count(
        numbers,
        written(room, |lent| gaugeviolet::rewrite(&file, lent)),
    );
    if solved {
        let room = random.below(2 * timetable.len() + 20);
        count(
            numbers,
            written(room, |lent| on_callers_stack::solve(&file, lent)),
        );
        count(numbers, on_callers_stack::walk_length(&file));
    }
}

/// The same bytes in a buffer that ends where they end.
fn exactly(bytes: &[u8]) -> Box<[u8]> {
    bytes.to_vec().into_boxed_slice()
}

/// Lends so many bytes for writing. Refused, none of them may change; else none past the text.
fn written(
    room: usize,
    write: impl Fn(&mut [u8]) -> Result<usize, Refusal>,
) -> Result<usize, Refusal> {
    let former = b'-';
    let mut lent = vec![former; room].into_boxed_slice();
    let answer = write(&mut lent);
    let kept = &lent[*answer.as_ref().unwrap_or(&0)..];
    assert!(
        kept.iter().all(|&byte| byte == former),
        "a byte past the text changed"
    );
    answer
}

fn count<T>(numbers: &mut Numbers, answer: Result<T, Refusal>) {
    let number = answer.err().map_or(0, |refusal| refusal.number);
    *numbers.entry(number).or_default() += 1;
}

fn report(count: u64, numbers: &Numbers) -> ExitCode {
    let calls: u64 = numbers.values().sum();
    println!("{count} inputs, {calls} calls, by number (0: not refused) {numbers:?}");
    let missing: Vec<u32> = (1..=22)
        .filter(|number| !numbers.contains_key(number))
        .collect();
    if count < ENOUGH || missing.is_empty() {
        return ExitCode::SUCCESS;
    }
    eprintln!("damaged: no input was refused by {missing:?}");
    ExitCode::FAILURE
}

/// The byte past the end of a buffer.
#[allow(unsafe_code)]
fn byte_outside() -> u8 {
    let lent = exactly(b"lent");
    // SAFETY: none. That valgrind reports this read shows that it would report the library's.
    unsafe { std::ptr::read_volatile(lent.as_ptr().add(lent.len())) }
}
