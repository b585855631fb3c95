//! The weighted delay from plan to plan (request K3), worked by hand: where a train's last minute rises past
//! its due minute and where it does not, and what is carried to the next way out of the same conflict.

use crate::afresh::{walk_within, PlanKind};
use crate::test_texts::{line, plans, walked};

/// Holds that the plans of the walk have these weighted delays, in order, and that there are so many of each of
/// these kinds.
fn has_plans(file: &str, delays: &[Option<u32>], kinds: &[(PlanKind, u64)]) {
    let afresh = walk_within(&line(file), 1000).expect("a short walk");
    assert_eq!(afresh.delays, delays);
    assert_eq!(walked(file).plans, delays.len() as u64);
    for &(kind, times) in kinds {
        assert_eq!(afresh.kinds.of(kind), times, "{kind:?}");
    }
}

/// In the plan without choices (1) train 3 is 10 minutes late, for 10. All three trains stand at station 2 at
/// minute 50. The ways out of that, and what comes of them:
///
/// - Train 1 leaves before train 2 comes (2), and train 2 is in at 111, 1 late, for 11. On segment 2 train 1
///   goes first (3), and train 2 is in at 144, for 44, the best so far. Train 2 goes first (4): then train 1
///   has not left when it comes.
/// - Train 1 leaves before train 3 comes (5), which is in at 111, for 41. On segment 1 train 2 goes first (6),
///   and train 3 is in at 115, for 45. Train 3 goes first (7), and train 2 is in at 126, for 57.
/// - Train 2 leaves before train 1 comes (8), which is in at 131, for 133.
/// - Train 2 leaves before train 3 comes (9), which is in at 141, for 71.
/// - Train 3 leaves before train 1 comes (10), which is in at 111, for 73.
/// - Train 3 leaves before train 2 comes (11), which is in at 121, 11 late, for 21. On segment 2 train 1 goes
///   first (12), which is the best so far again. Train 2 goes first (13), and train 1 is in at 95, 5 late,
///   for 36.
#[test]
fn the_sample_of_the_growing_total() {
    let file = include_str!("../../../samples/growing-total.line");
    let rows: [&[u16]; 3] = [&[20, 40, 75, 95], &[61, 71, 111, 121], &[20, 30, 70, 80]];
    plans(file, 36, &rows);
    let first = [10, 11, 44].map(Some);
    let others = [41, 45, 57, 133, 71, 73, 21, 44, 36].map(Some);
    let kinds = [
        (PlanKind::FirstCosts, 1),
        (PlanKind::WithoutMinutes, 1),
        (PlanKind::Dearer, 5),
        (PlanKind::NotEarlier, 1),
        // Train 2 in 2, 7 and 11, train 1 in 8, 10 and 13.
        (PlanKind::Overdue, 6),
        (PlanKind::OverdueAtTheEnd, 3),
        // Train 1 in 10, train 2 in 11.
        (PlanKind::OverdueAgain, 2),
        // All ways out of the first conflict but the first, and the second ones of 5 and 11.
        (PlanKind::PutBack, 7),
    ];
    has_plans(file, &[&first[..], &[None], &others].concat(), &kinds);
}

/// Two trains on one segment, the second due at this minute.
fn second_due(minute: u16) -> String {
    format!("2\n1\n1\n1\nS 1 1\n2\n1 2 0 99 2 10\n1 2 0 99 3 10\n0\n1\n2 {minute}\n")
}

/// The second train waits for the first and is in at 21.
#[test]
fn up_to_the_due_minute_and_past_it() {
    let rows: [&[u16]; 2] = [&[0, 10], &[11, 21]];
    for (minute, total) in [(22, 0), (21, 0), (20, 3), (19, 6), (15, 18)] {
        plans(&second_due(minute), total, &rows);
        let delays = [0, total, 22].map(Some);
        let late = u64::from(minute < 21);
        let kinds = [
            (PlanKind::FirstCosts, 0),
            (PlanKind::Overdue, late),
            (PlanKind::LaterInTime, 1 - late),
            (PlanKind::Dearer, 1),
        ];
        has_plans(&second_due(minute), &delays, &kinds);
    }
}

/// Due when the train is in alone, it is not early; due before that, the plan without choices costs something.
#[test]
fn due_at_the_free_arrival_and_before_it() {
    let first: [&[u16]; 2] = [&[11, 21], &[0, 10]];
    for (minute, total) in [(10, 22), (9, 25), (0, 52)] {
        plans(&second_due(minute), total, &first);
        let alone = total - 22;
        let delays = [alone, alone + 33, total].map(Some);
        let kinds = [
            (PlanKind::FirstCosts, u64::from(minute < 10)),
            (PlanKind::Overdue, 0),
            (PlanKind::PutBack, 1),
        ];
        has_plans(&second_due(minute), &delays, &kinds);
    }
}
