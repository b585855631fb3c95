//! Examples E1 to E12 of the scope document, and that of source document 003: what the samples hold,
//! what the check says of it and of worse timetables, and what the three planners find.

use crate::exhaustive::{best, plan, Unplanned, WorkLimit};
use crate::rules::{first_breach, weighted_delay};
use crate::search::{plan_by_search, search};
use crate::test_texts::{line, minutes, minutes_checked, refused, walked};
use crate::walk::plan_by_walk;
use crate::{check, timetable, Refusal, FILE_BYTES};

const WORK: u64 = 1_000_000;

macro_rules! sample {
    ($name:literal) => {
        include_bytes!(concat!("../../../samples/", $name)) as &[u8]
    };
}

const FILE_A: &[u8] = sample!("a.line");
const TIMETABLE_A: &[u8] = b"2\n0 20 20 40\n0 15 24 39\n2\n2 1 2\n2 2 1\n18\n";

/// Holds that `rows` are the best timetable of `file` and cost `total`, that its text is that of the
/// sample, and that the check passes it.
fn plans(file: &[u8], sample: &[u8], total: u32, rows: &[&[u16]]) {
    let expected = minutes(file, rows);
    assert_eq!(best(&line(file), WORK), Ok(Some(expected)));
    assert_eq!(weighted_delay(&line(file), &expected), total);
    assert_eq!(plan(file, WORK).as_deref(), Ok(sample));
    assert_eq!(walked(file).best, Some(expected));
    assert_eq!(plan_by_walk(file).as_deref(), Ok(sample));
    assert_eq!(search(&line(file)).best, Some(expected));
    assert_eq!(plan_by_search(file).as_deref(), Ok(sample));
    assert_eq!(timetable::write(&line(file), &expected), sample);
    assert_eq!(check(file, sample), Ok(()));
}

/// Holds that `file` has no timetable and that its sample says so.
fn has_none(file: &[u8], sample: &[u8]) {
    let refusal = Refusal {
        number: 5,
        place: 0,
    };
    assert_eq!(best(&line(file), WORK), Ok(None));
    assert_eq!(plan(file, WORK), Err(Unplanned::Refused(refusal)));
    assert_eq!(walked(file).best, None);
    assert_eq!(plan_by_walk(file), Err(refusal));
    assert_eq!(search(&line(file)).best, None);
    assert_eq!(plan_by_search(file), Err(refusal));
    assert_eq!(format!("{refusal}\n").as_bytes(), sample);
}

#[test]
fn e1_file_a() {
    assert_eq!(sample!("a.timetable"), TIMETABLE_A);
    plans(
        FILE_A,
        TIMETABLE_A,
        18,
        &[&[0, 20, 20, 40], &[0, 15, 24, 39]],
    );
    // Train 2 first on segment 1 is lawful too, and costs more.
    assert_eq!(
        minutes_checked(FILE_A, &[&[34, 54, 54, 74], &[0, 15, 15, 30]]),
        Ok(())
    );
}

#[test]
fn e2_one_track() {
    let file = sample!("e2.line");
    let rows: [&[u16]; 2] = [&[34, 54, 54, 74], &[0, 15, 15, 30]];
    plans(file, sample!("e2.timetable"), 34, &rows);
    // They can no longer meet at station 2.
    assert_eq!(check(file, TIMETABLE_A), refused(15, 2));
}

#[test]
fn e3_latest_may_be_reached() {
    let rows: [&[u16]; 2] = [&[0, 20, 20, 40], &[0, 15, 24, 39]];
    plans(sample!("e3.line"), sample!("e3.timetable"), 18, &rows);
}

#[test]
fn e4_latest_a_minute_less() {
    let rows: [&[u16]; 2] = [&[34, 54, 54, 74], &[0, 15, 15, 30]];
    plans(sample!("e4.line"), sample!("e4.timetable"), 34, &rows);
    assert_eq!(check(sample!("e4.line"), TIMETABLE_A), refused(13, 2));
}

#[test]
fn e5_no_timetable() {
    has_none(sample!("e5.line"), sample!("e5.plan-refused"));
    assert_eq!(
        check(sample!("e5.line"), sample!("e2.timetable")),
        refused(13, 1)
    );
}

#[test]
fn e6_one_minute_makes_it_possible() {
    let rows: [&[u16]; 2] = [&[34, 54, 54, 74], &[0, 15, 15, 30]];
    plans(sample!("e6.line"), sample!("e6.timetable"), 34, &rows);
}

#[test]
fn e7_arrival_gap_on_f() {
    let file = sample!("e7.line");
    plans(file, sample!("e7.timetable"), 3, &[&[3, 13], &[0, 4]]);
    // The fast train behind the slow one keeps the gap at departure only.
    assert_eq!(minutes_checked(file, &[&[0, 10], &[3, 7]]), refused(14, 1));
    assert_eq!(minutes_checked(file, &[&[0, 10], &[8, 12]]), refused(14, 1));
    assert_eq!(minutes_checked(file, &[&[0, 10], &[9, 13]]), Ok(()));
    assert_eq!(minutes_checked(file, &[&[2, 12], &[0, 4]]), refused(14, 1));
}

#[test]
fn e8_equal_delay() {
    let file = sample!("e8.line");
    plans(file, sample!("e8.timetable"), 9, &[&[0, 10], &[9, 13]]);
    // The other order costs the same.
    let other = minutes(file, &[&[3, 13], &[0, 4]]);
    assert_eq!(first_breach(&line(file), &other), Ok(()));
    assert_eq!(weighted_delay(&line(file), &other), 9);
}

#[test]
fn e9_as_e7_on_s() {
    let file = sample!("e9.line");
    plans(file, sample!("e9.timetable"), 7, &[&[7, 17], &[0, 4]]);
    assert_eq!(minutes_checked(file, &[&[3, 13], &[0, 4]]), refused(14, 1));
    assert_eq!(minutes_checked(file, &[&[6, 16], &[0, 4]]), refused(14, 1));
}

#[test]
fn e10_the_last_minute_counts() {
    let file = sample!("e10.line");
    let rows: [&[u16]; 2] = [&[0, 10, 20, 30], &[1, 21, 21, 31]];
    plans(file, sample!("e10.timetable"), 1, &rows);
    // At minute 20 train 1 still stands there.
    assert_eq!(
        minutes_checked(file, &[&[0, 10, 20, 30], &[0, 20, 20, 30]]),
        refused(15, 2)
    );
}

#[test]
fn e11_no_trains() {
    plans(sample!("e11.line"), b"0\n1\n0\n0\n", 0, &[]);
    assert_eq!(sample!("e11.timetable"), b"0\n1\n0\n0\n");
}

#[test]
fn e12_one_train() {
    plans(
        sample!("e12-10.line"),
        sample!("e12-10.timetable"),
        0,
        &[&[0, 10]],
    );
    has_none(sample!("e12-9.line"), sample!("e12-9.plan-refused"));
    assert_eq!(
        check(sample!("e12-9.line"), sample!("e12-10.timetable")),
        refused(13, 1)
    );
}

/// All 69,120 orders are gone through, but for those that contradict each other half way.
#[test]
fn document_003() {
    let file = sample!("document-003.line");
    let rows: [&[u16]; 5] = [
        &[60, 80, 95, 110, 127, 142],
        &[110, 130, 140, 155],
        &[80, 100, 159, 176, 196, 216],
        &[110, 123, 123, 136, 136, 150],
        &[146, 166, 181, 198],
    ];
    plans(file, sample!("document-003.timetable"), 61, &rows);
}

/// Worked by hand: the plan without choices, and the ways out of each conflict.
#[test]
fn the_lengths_of_the_walks() {
    let length = |file| walked(file).plans;
    assert_eq!(length(FILE_A), 3);
    // Train 1 first on segment 1 (2). There train 1 leaves station 2 before train 2 arrives (3), with
    // its two orders on segment 2 (4, and 5 without least minutes), or train 2 leaves before train 1
    // arrives (6, without least minutes). Train 2 first on segment 1 (7).
    assert_eq!(length(sample!("e2.line")), 7);
    // Both orders, of which the second ends at equal delay (E8) or is the best (E7, E9).
    assert_eq!(length(sample!("e7.line")), 3);
    assert_eq!(length(sample!("e8.line")), 3);
    assert_eq!(length(sample!("e9.line")), 3);
    assert_eq!(length(sample!("e10.line")), 3);
    // No conflict, or the plan without choices is late.
    assert_eq!(length(sample!("e11.line")), 1);
    assert_eq!(length(sample!("e12-10.line")), 1);
    assert_eq!(length(sample!("e12-9.line")), 1);
}

/// Worked by hand: the plan without choices, and the ways out that are taken up.
#[test]
fn the_lengths_of_the_searches() {
    let length = |file| search(&line(file)).plans;
    // Train 1 first on segment 1 costs 18 (2); the other way, at 34, is then dead.
    assert_eq!(length(FILE_A), 2);
    // Train 1 first on segment 1 costs 18 (2). There train 1 must leave station 2 before train 2
    // arrives (3), and then go first on segment 2, for 88 (4). Train 2 first on segment 1 is alive (5).
    assert_eq!(length(sample!("e2.line")), 5);
    // Train 2 is late behind train 1: only one way is alive.
    assert_eq!(length(sample!("e4.line")), 2);
    // As E2, and behind train 1 on segment 2 train 2 is late, so that 3 ends. Train 1 is late behind
    // train 2 (E5) or is not (E6).
    assert_eq!(length(sample!("e5.line")), 3);
    assert_eq!(length(sample!("e6.line")), 4);
    // Of both orders the dearer one is dead after the cheaper (E7, E9), or costs the same (E8).
    assert_eq!(length(sample!("e7.line")), 2);
    assert_eq!(length(sample!("e8.line")), 3);
    assert_eq!(length(sample!("e9.line")), 2);
    assert_eq!(length(sample!("e10.line")), 2);
    // No conflict, or the plan without choices is late.
    assert_eq!(length(sample!("e11.line")), 1);
    assert_eq!(length(sample!("e12-10.line")), 1);
    assert_eq!(length(sample!("e12-9.line")), 1);
}

#[test]
fn the_samples_are_file_a_with_what_the_examples_change() {
    let a_with = |place: usize, from: &str, to: &str| {
        let text = String::from_utf8(FILE_A.to_vec()).unwrap();
        let mut lines: Vec<String> = text.lines().map(str::to_string).collect();
        assert!(lines[place - 1].contains(from));
        lines[place - 1] = lines[place - 1].replacen(from, to, 1);
        (lines.join("\n") + "\n").into_bytes()
    };
    assert_eq!(sample!("e2.line"), a_with(3, "2", "1"));
    assert_eq!(sample!("e3.line"), a_with(10, "200", "39"));
    assert_eq!(sample!("e4.line"), a_with(10, "200", "38"));
    let e2 = line(sample!("e2.line"));
    let with_latest = |first, second| {
        let mut line = e2;
        line.trains[0].latest = first;
        line.trains[1].latest = second;
        line
    };
    assert_eq!(line(sample!("e5.line")), with_latest(73, 73));
    assert_eq!(line(sample!("e6.line")), with_latest(74, 73));
    let e7 = line(sample!("e7.line"));
    let mut e8 = e7;
    e8.trains[0].weight = 3;
    assert_eq!(line(sample!("e8.line")), e8);
    let mut e9 = e7;
    e9.segments[0].kind = crate::Kind::S;
    assert_eq!(line(sample!("e9.line")), e9);
}

#[test]
fn the_work_limit_is_told() {
    // Two trains on two segments: the first one has one position on each, the second one two.
    assert_eq!(best(&line(FILE_A), 0), Err(WorkLimit));
    assert_eq!(best(&line(FILE_A), 3), Err(WorkLimit));
    assert_eq!(plan(FILE_A, 3), Err(Unplanned::WorkLimit));
    assert!(best(&line(FILE_A), 8).is_ok());
    // Without a train there is nothing to do.
    assert!(best(&line(sample!("e11.line")), 0).is_ok());
}

#[test]
fn a_refused_file_is_not_planned() {
    let refusal = |number, place| Err(Unplanned::Refused(Refusal { number, place }));
    assert_eq!(plan(b"", WORK), refusal(2, 1));
    assert_eq!(plan(&[b'1'; FILE_BYTES + 1], WORK), refusal(1, 0));
}
