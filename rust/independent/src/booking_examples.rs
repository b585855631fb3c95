//! Bookings in the rules, the delay and the three planners, worked by hand.

use crate::rules::free_arrival;
use crate::test_texts::{a_and, has_none, line, minutes_checked, planned_refused, plans};
use crate::test_texts::{refused, walked, with, ROWS_A, TIMETABLE_A};
use crate::walk::plan_by_walk;
use crate::{check, Refusal};

#[test]
fn a_booking_that_costs_nothing() {
    // Train 1 leaves station 2 at 20 in any case.
    for minute in [0, 1, 19, 20] {
        let file = a_and(&format!("1\n1 2 {minute}\n"));
        assert_eq!(free_arrival(&line(&file), 0), 40);
        plans(&file, 18, &ROWS_A);
        assert_eq!(
            plan_by_walk(file.as_bytes()),
            Ok(TIMETABLE_A.as_bytes().to_vec())
        );
    }
}

#[test]
fn free_arrival_waits_for_the_booking() {
    // Train 2 has to wait until 24 for train 1, and is no longer late for what it must wait anyway.
    let file = a_and("1\n2 2 24\n");
    assert_eq!(free_arrival(&line(&file), 1), 39);
    plans(&file, 0, &ROWS_A);
    assert_eq!(
        check(file.as_bytes(), TIMETABLE_A.as_bytes()),
        refused(17, 0)
    );
    plans(&a_and("1\n2 2 16\n"), 16, &ROWS_A);
    // Train 1 booked a minute later than it could leave.
    let rows: [&[u16]; 2] = [&[0, 20, 21, 41], &[0, 15, 24, 39]];
    plans(&a_and("1\n1 2 21\n"), 18, &rows);
}

#[test]
fn a_booking_moves_a_crossing_to_another_station() {
    let head = "4\n2\n2\n2\n2\n3\nS 1 1\nS 1 1\nS 1 1\n2\n";
    let file = format!("{head}1 4 0 99 2 10 0 10 0 10\n4 1 0 99 1 10 0 10 0 10\n");
    // They meet on segment 2; train 2 waits at station 3.
    let at_3: [&[u16]; 2] = [&[0, 10, 10, 20, 20, 30], &[0, 10, 21, 31, 31, 41]];
    plans(&file, 11, &at_3);
    // Train 1 has to stay at station 2, so train 2 goes through and they meet there.
    let at_2: [&[u16]; 2] = [&[0, 10, 25, 35, 35, 45], &[0, 10, 10, 20, 20, 30]];
    plans(&format!("{file}1\n1 2 25\n"), 0, &at_2);
    // At 13 it would cost train 1 16 to wait for train 2, and train 2 14 to wait for train 1. At 14 it
    // is 14 and 15.
    let at_3: [&[u16]; 2] = [&[0, 10, 13, 23, 23, 33], &[0, 10, 24, 34, 34, 44]];
    plans(&format!("{file}1\n1 2 13\n"), 14, &at_3);
    let at_2: [&[u16]; 2] = [&[0, 10, 21, 31, 31, 41], &[0, 10, 10, 20, 20, 30]];
    plans(&format!("{file}1\n1 2 14\n"), 14, &at_2);
}

#[test]
fn a_booking_that_makes_the_file_unsolvable() {
    // Train 1 has time enough to let train 2 go first.
    let late: [&[u16]; 2] = [&[34, 54, 180, 200], &[0, 15, 15, 30]];
    plans(&a_and("1\n1 2 180\n"), 0, &late);
    has_none(&a_and("1\n1 2 181\n"));
    has_none(&a_and("1\n2 2 2879\n"));
    // The last minute that a train may leave at, and the one after it.
    let file = "3\n1\n1\n1\n2\nS 1 1\nS 1 1\n1\n3 1 0 2879 9 7 0 9\n";
    plans(&format!("{file}1\n1 2 2870\n"), 0, &[&[0, 7, 2870, 2879]]);
    has_none(&format!("{file}1\n1 2 2871\n"));
    has_none(&format!("{file}1\n1 2 2879\n"));
    assert_eq!(free_arrival(&line(format!("{file}1\n1 2 2879\n")), 0), 2888);
}

#[test]
fn an_inbound_train_meets_its_bookings_in_falling_order() {
    let head = "4\n1\n1\n1\n1\n3\nS 1 1\nS 1 1\nS 1 1\n1\n4 1 5 99 1 10 2 10 0 10\n";
    let file = |section: &str| format!("{head}{section}");
    assert_eq!(free_arrival(&line(head), 0), 37);
    let both = file("2\n1 2 50\n1 3 30\n");
    plans(&both, 0, &[&[5, 15, 30, 40, 50, 60]]);
    // That of station 3 comes first, and makes that of station 2 cost nothing.
    let first = file("2\n1 2 30\n1 3 30\n");
    plans(&first, 0, &[&[5, 15, 30, 40, 40, 50]]);
    assert_eq!(
        minutes_checked(&both, &[&[5, 15, 30, 40, 49, 59]]),
        refused(18, 1)
    );
    assert_eq!(
        minutes_checked(&both, &[&[5, 15, 29, 39, 50, 60]]),
        refused(18, 1)
    );
    assert_eq!(minutes_checked(&both, &[&[30, 40, 42, 52, 52, 62]]), Ok(()));
}

#[test]
fn reading_33_free_arrival_past_the_last_minute() {
    let train = |ends| format!("{ends} 2879 2879 99 {}240\n", "240 240 ".repeat(10));
    let track = format!("12\n{}11\n{}", "1\n".repeat(12), "S 1 1\n".repeat(11));
    let file = format!("{track}2\n{}{}", train("1 12"), train("12 1"));
    for section in ["", "2\n1 2 2879\n2 11 2879\n", "2\n1 11 2879\n2 2 2879\n"] {
        let line = line(format!("{file}{section}"));
        assert_eq!([free_arrival(&line, 0), free_arrival(&line, 1)], [7919; 2]);
    }
    // From minute 0 a booking at the first stop makes the most of it, one at the last the least.
    let file = file.replace(" 2879 2879 ", " 0 2879 ");
    let free = |section: &str| free_arrival(&line(format!("{file}{section}")), 1);
    assert_eq!(free(""), 5040);
    assert_eq!(free("1\n2 11 2879\n"), 2879 + 9 * 480 + 240);
    assert_eq!(free("1\n2 2 2879\n"), 5040);
    assert_eq!(free("1\n2 7 2400\n"), 5040);
    assert_eq!(free("1\n2 7 2401\n"), 5041);
}

#[test]
fn rule_18_stands_between_12_and_13_over_all_trains() {
    let file = with(&a_and("2\n1 2 30\n2 2 40\n"), 9, "1 3 0 60 1 20 0 20");
    let checked = |first: &[u16], second: &[u16]| minutes_checked(&file, &[first, second]);
    let (right_1, right_2): (&[u16], &[u16]) = (&[0, 20, 30, 50], &[0, 15, 54, 69]);
    assert_eq!(checked(right_1, right_2), Ok(()));
    // The minute may be reached.
    assert_eq!(checked(&[0, 20, 29, 49], right_2), refused(18, 1));
    assert_eq!(checked(right_1, &[0, 15, 39, 54]), refused(18, 2));
    assert_eq!(checked(&[0, 20, 29, 49], &[0, 15, 39, 54]), refused(18, 1));
    // Train 1 breaks 18, train 2 breaks 12, 11 or 10.
    assert_eq!(checked(&[0, 20, 29, 49], &[40, 55, 54, 69]), refused(12, 2));
    assert_eq!(checked(&[0, 20, 29, 49], &[0, 15, 54, 68]), refused(11, 2));
    let early = with(&file, 10, "3 1 1 200 2 15 0 15");
    assert_eq!(
        minutes_checked(&early, &[&[0, 20, 29, 49], right_2]),
        refused(10, 2)
    );
    // Train 1 breaks 13, train 2 breaks 18; 14 is broken too.
    assert_eq!(checked(&[0, 20, 41, 61], right_2), refused(13, 1));
    assert_eq!(checked(&[0, 20, 41, 61], &[0, 15, 39, 54]), refused(18, 2));
    // A departure before both arrival plus stop and booking is 12.
    assert_eq!(checked(&[0, 20, 19, 39], right_2), refused(12, 1));
}

#[test]
fn a_refused_section_comes_before_the_timetable() {
    let bad = a_and("1\n1 1 20\n");
    assert_eq!(check(bad.as_bytes(), b""), refused(19, 12));
    let refusal = Refusal {
        number: 19,
        place: 12,
    };
    planned_refused(&bad, refusal);
}

/// Worked by hand: the plan without choices, and the ways out of each conflict.
#[test]
fn the_lengths_of_the_walks() {
    let length = |section: &str| walked(a_and(section)).plans;
    // As file A, or with the crossing booked away: train 2 stays at station 2 until train 1 is through.
    assert_eq!(length("1\n1 2 20\n"), 3);
    assert_eq!(length("1\n2 2 24\n"), 1);
    assert_eq!(length("1\n2 2 23\n"), 3);
    // Train 1 is late in the plan without choices.
    assert_eq!(length("1\n1 2 181\n"), 1);
}
