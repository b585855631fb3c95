//! What the tests of this crate share: file A and the longest file, refusals, texts with a line replaced,
//! minutes put to the check, what the planners find, records that are not written.

use crate::afresh::walk_within;
use crate::exhaustive::{best, plan, Unplanned};
use crate::plans::Found;
use crate::rules::{weighted_delay, Minutes};
use crate::search::{plan_by_search, search};
use crate::walk::{plan_by_walk, solve};
use crate::{check, read, timetable, write, write_into, Line, Refusal, FILE_BYTES};

/// The work that suffices the exhaustive planner for the files of these tests.
const WORK: u64 = 1_000_000;

pub(crate) const FILE_A: &str = include_str!("../../../samples/a.line");
pub(crate) const TIMETABLE_A: &str = include_str!("../../../samples/a.timetable");

/// The rows of [`TIMETABLE_A`].
pub(crate) const ROWS_A: [&[u16]; 2] = [&[0, 20, 20, 40], &[0, 15, 24, 39]];

/// File A with this text behind its trains: the count of the bookings would stand on line 11.
pub(crate) fn a_and(sections: &str) -> String {
    format!("{FILE_A}{sections}")
}

/// The longest file without dues: 12 trains over the whole line, each booked at every middle station.
pub(crate) fn longest_without_dues() -> String {
    let train = |ends| format!("{ends} 2879 2879 99 {}240\n", "240 240 ".repeat(10));
    let trains = [train("1 12"), train("12 1")].concat().repeat(6);
    let bookings: String = (1..=12)
        .flat_map(|train| (2..=11).map(move |station| format!("{train} {station} 2879\n")))
        .collect();
    let track = format!("12\n{}11\n{}", "12\n".repeat(12), "S 60 60\n".repeat(11));
    format!("{track}12\n{trains}120\n{bookings}")
}

pub(crate) fn refused<T>(number: u32, place: u32) -> Result<T, Refusal> {
    Err(Refusal { number, place })
}

pub(crate) fn line(file: impl AsRef<[u8]>) -> Line {
    read(file.as_ref()).expect("a line file")
}

/// `text` with its line `place` (from 1) replaced.
pub(crate) fn with(text: &str, place: usize, replaced: &str) -> String {
    let mut lines: Vec<&str> = text.lines().collect();
    lines[place - 1] = replaced;
    lines.join("\n") + "\n"
}

pub(crate) fn minutes(file: impl AsRef<[u8]>, rows: &[&[u16]]) -> Minutes {
    let rows: Vec<Vec<u16>> = rows.iter().map(|row| row.to_vec()).collect();
    Minutes::of_rows(&line(file), &rows)
}

/// What the check says of these minutes with the lists and the total that follow from them.
pub(crate) fn minutes_checked(file: impl AsRef<[u8]>, rows: &[&[u16]]) -> Result<(), Refusal> {
    let file = file.as_ref();
    let text = timetable::write(&line(file), &minutes(file, rows));
    check(file, &text)
}

/// What the walk finds, and how many plans it takes up. The walk afresh does the same.
pub(crate) fn walked(file: impl AsRef<[u8]>) -> Found {
    let line = line(file);
    let walked = solve(&line);
    let afresh = walk_within(&line, walked.plans).expect("a walk as long");
    assert_eq!((walked.best, walked.plans), (afresh.best, afresh.plans()));
    walked
}

/// Holds that all three planners find `rows`, at this total, and that the check passes them.
pub(crate) fn plans(file: &str, total: u32, rows: &[&[u16]]) {
    let expected = minutes(file, rows);
    assert_eq!(best(&line(file), WORK), Ok(Some(expected)));
    assert_eq!(walked(file).best, Some(expected));
    assert_eq!(search(&line(file)).best, Some(expected));
    assert_eq!(weighted_delay(&line(file), &expected), total);
    let text = timetable::write(&line(file), &expected);
    assert!(text.ends_with(format!("\n{total}\n").as_bytes()));
    assert_eq!(check(file.as_bytes(), &text), Ok(()));
}

/// Holds that no planner finds a timetable.
pub(crate) fn has_none(file: &str) {
    planned_refused(file, Refusal::NO_TIMETABLE);
}

/// Holds that every planner refuses the file.
pub(crate) fn planned_refused(file: &str, refusal: Refusal) {
    let file = file.as_bytes();
    assert_eq!(plan(file, WORK), Err(Unplanned::Refused(refusal)));
    assert_eq!(plan_by_walk(file), Err(refusal));
    assert_eq!(plan_by_search(file), Err(refusal));
}

/// Holds that writing `line` is refused with the line's place, whatever is lent, and changes nothing.
pub(crate) fn writing_gives(line: &Line, number: u32, place: u32) {
    let expected = Refusal { number, place };
    assert_eq!(write(line), Err(expected));
    for lent_bytes in [0, 1, FILE_BYTES] {
        let mut lent = vec![0xA5; lent_bytes];
        assert_eq!(write_into(line, &mut lent), Err(expected));
        assert!(lent.iter().all(|&byte| byte == 0xA5));
    }
}
