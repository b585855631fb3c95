//! Dues in the delay, the total and the three planners, worked by hand.

use crate::rules::{free_arrival, weighted_delay};
use crate::test_texts::{a_and, has_none, line, minutes, minutes_checked, planned_refused, plans};
use crate::test_texts::{refused, walked, with, FILE_A, ROWS_A, TIMETABLE_A};
use crate::{check, timetable, Refusal};

/// The other timetable of file A: train 2 goes through, and train 1 waits for it at station 1.
const ROWS_B: [&[u16]; 2] = [&[34, 54, 54, 74], &[0, 15, 15, 30]];

/// The sections of these dues and no bookings.
fn due(dues: &[(u16, u16)]) -> String {
    let lines = dues
        .iter()
        .map(|(train, minute)| format!("{train} {minute}\n"));
    format!("0\n{}\n{}", dues.len(), lines.collect::<String>())
}

fn a_due(dues: &[(u16, u16)]) -> String {
    a_and(&due(dues))
}

#[test]
fn due_at_the_free_arrival_changes_nothing() {
    plans(FILE_A, 18, &ROWS_A);
    for dues in [&[(1, 40)][..], &[(2, 30)], &[(1, 40), (2, 30)]] {
        plans(&a_due(dues), 18, &ROWS_A);
        assert_eq!(
            check(a_due(dues).as_bytes(), TIMETABLE_A.as_bytes()),
            Ok(())
        );
    }
}

#[test]
fn due_before_the_free_arrival() {
    // Train 1 is in at 40 and train 2 at 39 at best: what nothing can mend is counted too.
    plans(&a_due(&[(1, 39)]), 19, &ROWS_A);
    plans(&a_due(&[(1, 0)]), 40 + 18, &ROWS_A);
    plans(&a_due(&[(2, 29)]), 20, &ROWS_A);
    plans(&a_due(&[(2, 0)]), 78, &ROWS_A);
    plans(&a_due(&[(1, 0), (2, 0)]), 40 + 78, &ROWS_A);
}

#[test]
fn due_after_the_free_arrival() {
    // Train 2 has to wait for train 1 until 24, and is late for less of it.
    plans(&a_due(&[(2, 31)]), 16, &ROWS_A);
    plans(&a_due(&[(2, 38)]), 2, &ROWS_A);
    plans(&a_due(&[(2, 39)]), 0, &ROWS_A);
    plans(&a_due(&[(2, 2879)]), 0, &ROWS_A);
    // Train 1 waiting costs it 74 less its due minute, and train 2 waiting costs 18.
    plans(&a_due(&[(1, 55)]), 18, &ROWS_A);
    plans(&a_due(&[(1, 57)]), 17, &ROWS_B);
    plans(&a_due(&[(1, 74)]), 0, &ROWS_B);
}

#[test]
fn the_tie_rule_decides_where_both_cost_the_same() {
    // 18 both ways: train 1 sets out earlier in one of them.
    plans(&a_due(&[(1, 56)]), 18, &ROWS_A);
    // No delay either way.
    plans(&a_due(&[(1, 74), (2, 39)]), 0, &ROWS_A);
    plans(&a_due(&[(1, 2879), (2, 2879)]), 0, &ROWS_A);
    // With the trains numbered the other way round, train 1 goes through.
    let swapped = with(FILE_A, 9, "3 1 0 200 2 15 0 15");
    let swapped = with(&swapped, 10, "1 3 0 200 1 20 0 20");
    let file = format!("{swapped}{}", due(&[(1, 39), (2, 74)]));
    plans(&file, 0, &[ROWS_B[1], ROWS_B[0]]);
}

#[test]
fn early_is_not_credited() {
    // Train 1 is 60 minutes early in the one and 26 in the other, and train 2 is 9 late or in time.
    let file = a_due(&[(1, 100)]);
    plans(&file, 0, &ROWS_B);
    assert_eq!(weighted_delay(&line(&file), &minutes(&file, &ROWS_A)), 18);
    let text = timetable::write(&line(&file), &minutes(&file, &ROWS_A));
    assert_eq!(check(file.as_bytes(), &text), Ok(()));
    // What it is early takes nothing from the lateness of the other.
    let file = a_due(&[(1, 50), (2, 38)]);
    plans(&file, 2, &ROWS_A);
}

#[test]
fn number_17_by_the_due_minute() {
    let right = |total| with(TIMETABLE_A, 7, &format!("{total}"));
    let checked = |file: &str, total: u32| check(file.as_bytes(), right(total).as_bytes());
    assert_eq!(checked(FILE_A, 18), Ok(()));
    for (dues, total) in [
        (&[(2, 39)][..], 0),
        (&[(1, 39)], 19),
        (&[(1, 0), (2, 0)], 118),
        (&[(1, 41), (2, 29)], 20),
        (&[(1, 2879), (2, 2879)], 0),
    ] {
        let file = a_due(dues);
        assert_eq!(checked(&file, total), Ok(()));
        // The total by the free arrivals, and others beside it.
        for wrong in [18, total + 1, total.wrapping_sub(1)] {
            if wrong != total && wrong < 10_000_000 {
                assert_eq!(checked(&file, wrong), refused(17, 0));
            }
        }
        assert_eq!(checked(FILE_A, total), refused(17, 0));
    }
}

#[test]
fn a_train_that_is_not_listed_is_due_at_its_free_arrival_with_bookings() {
    let file = a_and("1\n2 2 24\n1\n1 40\n");
    assert_eq!(free_arrival(&line(&file), 1), 39);
    plans(&file, 0, &ROWS_A);
    // Listed, its bookings move it no further.
    plans(&a_and("1\n2 2 24\n1\n2 30\n"), 18, &ROWS_A);
    plans(&a_and("1\n2 2 24\n1\n2 39\n"), 0, &ROWS_A);
    // Booked away from its due minute: every timetable is late.
    let late: [&[u16]; 2] = [&[0, 20, 20, 40], &[0, 15, 100, 115]];
    plans(&a_and("1\n2 2 100\n1\n2 30\n"), 170, &late);
    plans(&a_and("1\n2 2 100\n"), 0, &late);
}

#[test]
fn weight_0_is_never_delayed() {
    let file = with(FILE_A, 10, "3 1 0 200 0 15 0 15");
    plans(&format!("{file}{}", due(&[(2, 0)])), 0, &ROWS_A);
    let both = with(&file, 9, "1 3 0 200 0 20 0 20");
    plans(&format!("{both}{}", due(&[(1, 0), (2, 0)])), 0, &ROWS_A);
}

#[test]
fn the_due_minute_is_no_latest() {
    // Due after latest, or at it: rule 13 counts.
    let late = with(FILE_A, 9, "1 3 0 73 1 20 0 20");
    plans(&format!("{late}{}", due(&[(1, 100)])), 18, &ROWS_A);
    let both = with(&late, 10, "3 1 0 38 2 15 0 15");
    has_none(&format!("{both}{}", due(&[(1, 2879), (2, 2879)])));
    // A timetable may be late by its due minute.
    assert_eq!(minutes_checked(a_due(&[(1, 0), (2, 0)]), &ROWS_B), Ok(()));
    assert_eq!(
        minutes_checked(a_due(&[(1, 2879)]), &[&[0, 20, 181, 201], &[0, 15, 24, 39]]),
        refused(13, 1)
    );
}

#[test]
fn free_arrival_past_the_last_minute_beside_a_due_minute() {
    let train = |ends| format!("{ends} 2879 2879 99 {}240\n", "240 240 ".repeat(10));
    let track = format!("12\n{}11\n{}", "1\n".repeat(12), "S 1 1\n".repeat(11));
    let file = format!("{track}2\n{}{}", train("1 12"), train("12 1"));
    let line = line(format!("{file}{}", due(&[(2, 0)])));
    assert_eq!((line.due_minute(0), line.due_minute(1)), (7919, 0));
    has_none(&format!("{file}{}", due(&[(2, 0)])));
}

/// Twelve trains, each alone in its lane, in with the last minute of the day and due at its first.
#[test]
fn the_greatest_total() {
    let track = format!("7\n{}6\n{}", "1\n".repeat(7), "D 1 1\n".repeat(6));
    let lanes = (1..=6).flat_map(|p| [(p, p + 1), (p + 1, p)]);
    let trains: String = lanes
        .map(|(from, to)| format!("{from} {to} 2878 2879 99 1\n"))
        .collect();
    let dues: Vec<(u16, u16)> = (1..=12).map(|train| (train, 0)).collect();
    let file = format!("{track}12\n{trains}{}", due(&dues));
    let row: &[u16] = &[2878, 2879];
    plans(&file, 3_420_252, &[row; 12]);
    assert_eq!(walked(&file).plans, 1);
}

#[test]
fn a_refused_section_comes_before_the_timetable() {
    let bad = a_due(&[(2, 10), (1, 10)]);
    assert_eq!(check(bad.as_bytes(), b""), refused(19, 14));
    let refusal = Refusal {
        number: 19,
        place: 14,
    };
    planned_refused(&bad, refusal);
}

/// Worked by hand: the plan without choices, and both ways out of its conflict.
#[test]
fn the_lengths_of_the_walks() {
    let length = |dues: &[(u16, u16)]| walked(a_due(dues)).plans;
    for dues in [&[(1, 0)][..], &[(1, 74)], &[(2, 39)], &[(1, 0), (2, 0)]] {
        assert_eq!(length(dues), 3);
    }
    // Three trains alike on one segment, all due late: no order costs anything. 1 before 2, 1 before 3 and
    // 2 before 3 is the best, and each of the three choices turned round ends there.
    let alike = "2\n1\n1\n1\nS 1 1\n3\n".to_string() + &"1 2 0 99 1 5\n".repeat(3);
    let late = format!("{alike}{}", due(&[(1, 99), (2, 99), (3, 99)]));
    plans(&late, 0, &[&[0, 5], &[6, 11], &[12, 17]]);
    assert_eq!(walked(&late).plans, 7);
}
