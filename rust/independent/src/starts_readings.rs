//! Totals for many starting minutes worked by hand, and the settled readings of the request's open points.

use crate::exhaustive::best;
use crate::rules::weighted_delay;
use crate::starts::{starts, starts_into, with_earliest, MOST_MINUTES, NO_TIMETABLE};
use crate::test_texts::{a_and, line, refused, FILE_A};
use crate::{Refusal, FILE_BYTES};

/// What the entries of a test hold before the call.
const FORMER: u32 = 0xA5A5_A5A5;

/// One train with a stop, which it leaves at 30 as booked, and which is due at 40.
const BOOKED_AND_DUE: &str =
    "3\n2\n2\n2\n2\nS 5 4\nS 5 4\n1\n1 3 0 200 1 20 0 20\n1\n1 2 30\n1\n1 40\n";

/// Holds these totals for minutes of a train: `None` stands for no timetable. Trying every order gives the
/// same, and so does lending entries, of which one more keeps what it held.
fn totals(file: &str, train: u32, expected: &[(u16, Option<u32>)]) {
    let (minutes, totals): (Vec<u16>, Vec<Option<u32>>) = expected.iter().copied().unzip();
    assert_eq!(
        starts(file.as_bytes(), train, &minutes),
        Ok(totals.clone()),
        "{minutes:?}"
    );
    for &(minute, total) in expected {
        let altered = with_earliest(&line(file), train as usize - 1, minute);
        let best = best(&altered, 1_000_000).expect("a small line");
        assert_eq!(best.map(|best| weighted_delay(&altered, &best)), total);
    }
    let mut lent = vec![FORMER; minutes.len() + 1];
    let answer = starts_into(file.as_bytes(), train, &minutes, &mut lent);
    assert_eq!(answer, Ok(()));
    let filled = totals.iter().map(|total| total.unwrap_or(NO_TIMETABLE));
    assert_eq!(lent, filled.chain([FORMER]).collect::<Vec<u32>>());
}

/// Holds that a question is refused, whatever is lent, and that no entry changes.
fn refuses(file: &str, train: u32, minutes: &[u16], number: u32, place: u32) {
    let file = file.as_bytes();
    assert_eq!(starts(file, train, minutes), refused(number, place));
    for entries in [0, 1, minutes.len(), minutes.len() + 1, 40] {
        refuses_lent(file, train, minutes, entries, Refusal { number, place });
    }
}

fn refuses_lent(file: &[u8], train: u32, minutes: &[u16], entries: usize, refusal: Refusal) {
    let mut lent = vec![FORMER; entries];
    let answer = starts_into(file, train, minutes, &mut lent);
    assert_eq!(answer, Err(refusal), "{minutes:?} into {entries}");
    assert!(lent.iter().all(|&entry| entry == FORMER));
}

/// So many minutes, one after another from this one.
fn from(minute: u16, count: u16) -> Vec<u16> {
    (minute..minute + count).collect()
}

/// Up to 9 train 2 waits for train 1 at station 2; from 2 on train 1 waits there too, until from 30 on it goes
/// through first. After 170 train 2 is not in by its latest.
#[test]
fn file_a_with_other_starts_of_train_2() {
    let before = [(0, 18), (1, 16), (2, 15), (3, 14), (9, 8), (10, 9)];
    let after = [(29, 28), (30, 28), (43, 2), (44, 0), (45, 0), (170, 0)];
    let without = [(171, None), (200, None), (201, None), (2879, None)];
    let with = before.into_iter().chain(after);
    let with = with.map(|(minute, total)| (minute, Some(total)));
    totals(FILE_A, 2, &with.chain(without).collect::<Vec<_>>());
}

/// Train 2 waits for train 1 up to 5, then train 1 for train 2.
#[test]
fn file_a_with_other_starts_of_train_1() {
    let expected = [(0, 18), (5, 28), (6, 28), (33, 1), (34, 0), (160, 0)];
    let expected = expected.map(|(minute, total)| (minute, Some(total)));
    totals(FILE_A, 1, &expected);
    totals(FILE_A, 1, &[(160, Some(0)), (161, None)]);
}

/// Each entry by itself: a list of one minute gives what it gives in a longer list.
#[test]
fn reading_44a_lists_of_1_and_24_minutes() {
    let long = starts(FILE_A.as_bytes(), 2, &from(0, 24)).expect("a list of 24");
    assert_eq!(long.len(), MOST_MINUTES);
    for (minute, total) in (0..24).zip(long) {
        totals(FILE_A, 2, &[(minute, total)]);
    }
    totals(FILE_A, 2, &[(0, Some(18))]);
}

/// The free arrival of train 2 moves with its start where it is not listed, and the listed minute does not.
#[test]
fn reading_44b_a_listed_due_minute_stands() {
    let listed = a_and("0\n1\n2 30\n");
    let before = [(0, 18), (1, 18), (2, 19), (9, 26), (10, 29), (29, 86)];
    let after = [(30, 88), (44, 88), (45, 90), (170, 340)];
    let expected = before.into_iter().chain(after);
    let expected = expected.map(|(minute, total)| (minute, Some(total)));
    totals(&listed, 2, &expected.collect::<Vec<_>>());
    // Train 1 is not listed there, so its own moves.
    totals(&listed, 1, &[(0, Some(18)), (5, Some(28)), (34, Some(0))]);
    // At its first minute it would be there before it is due.
    let late = a_and("0\n1\n2 39\n");
    totals(&late, 2, &[(0, Some(0)), (1, Some(0)), (2, Some(1))]);
}

#[test]
fn reading_44b_bookings_stand() {
    // Up to 10 the train is at its stop by 30.
    let expected = [(0, 10), (5, 10), (10, 10), (11, 11), (20, 20), (160, 160)];
    let expected = expected.map(|(minute, total)| (minute, Some(total)));
    totals(BOOKED_AND_DUE, 1, &expected);
    totals(BOOKED_AND_DUE, 1, &[(161, None)]);
    // Not listed, it is due when it would be there alone, with its booking.
    let expected = [(0, 0), (1, 0), (2, 1), (9, 8), (10, 9)];
    let expected = expected.map(|(minute, total)| (minute, Some(total)));
    totals(&a_and("1\n2 2 24\n"), 2, &expected);
}

/// With its booking at 186 train 2 is not in by 200, whatever its start, and the entries say so.
#[test]
fn no_timetable_is_no_refusal() {
    let late = a_and("1\n2 2 186\n");
    totals(&late, 2, &[(0, None), (1, None), (2879, None)]);
    totals(&late, 1, &[(0, None)]);
    // A file without one may have one with another minute.
    let starts_late = FILE_A.replace("3 1 0 200", "3 1 171 200");
    totals(&starts_late, 2, &[(170, Some(0)), (171, None)]);
    totals(&starts_late, 1, &[(0, None), (160, None)]);
}

#[test]
fn reading_44a_the_list() {
    refuses(FILE_A, 1, &[], 22, 0);
    for count in [25, 26, 48, 256, 280] {
        refuses(FILE_A, 1, &from(0, count), 22, 0);
    }
    refuses(FILE_A, 1, &from(0, 2880), 22, 0);
    // Strictly rising, up to the last.
    for list in [
        &[5, 5][..],
        &[5, 4],
        &[0, 0],
        &[1, 2, 2],
        &[1, 3, 2],
        &[2, 1, 3],
    ] {
        refuses(FILE_A, 1, list, 22, 0);
    }
    for at in 1..24 {
        let mut list = from(100, 24);
        list[at] = list[at - 1];
        refuses(FILE_A, 1, &list, 22, 0);
        list[at] = 0;
        refuses(FILE_A, 1, &list, 22, 0);
    }
    for list in [
        &[2880][..],
        &[0, 2880],
        &[2879, 2880],
        &[65535],
        &[1, 2, 65535],
    ] {
        refuses(FILE_A, 1, list, 22, 0);
    }
    totals(FILE_A, 1, &[(2879, None)]);
}

#[test]
fn reading_44a_the_train() {
    for train in [0, 3, 13, 256, 257, 258, 65_536, 65_537, u32::MAX] {
        refuses(FILE_A, train, &[0], 22, 0);
    }
    let no_trains = "2\n1\n1\n1\nS 1 1\n0\n";
    for train in [0, 1, 12] {
        refuses(no_trains, train, &[0], 22, 0);
    }
}

#[test]
fn reading_44a_too_few_entries_are_22() {
    let refusal = Refusal {
        number: 22,
        place: 0,
    };
    for count in [1, 2, 24] {
        for entries in [0, usize::from(count) / 2, usize::from(count) - 1] {
            refuses_lent(FILE_A.as_bytes(), 2, &from(0, count), entries, refusal);
        }
    }
    // Not 5 either, where no minute has a timetable.
    refuses_lent(FILE_A.as_bytes(), 2, &[2000, 2001], 1, refusal);
}

/// The file is judged first, whatever else is wrong.
#[test]
fn reading_44a_the_files_own_numbers_come_first() {
    let files = [
        ("0".repeat(FILE_BYTES + 1), 1, 0),
        (String::new(), 2, 1),
        (FILE_A.replace("S 5 4", "S 61 4"), 3, 6),
        (FILE_A.replace("3 1 0", "3 3 0"), 4, 10),
        (a_and("1\n1 1 5\n"), 19, 12),
        (a_and("0\n2\n2 5\n1 5\n"), 19, 14),
    ];
    for (file, number, place) in &files {
        for (train, list) in [
            (1, &[0][..]),
            (0, &[0]),
            (1, &[]),
            (3, &[2, 1]),
            (1, &[2880]),
        ] {
            refuses(file, train, list, *number, *place);
        }
    }
}
