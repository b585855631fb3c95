//! The timetable text field by field, and the settled readings of its open points, one by one.

use crate::rules::{free_arrival, is_order_list, lists, order_list, weighted_delay, Minutes};
use crate::test_texts::{line, minutes_checked, refused, with};
use crate::{check, timetable, Refusal, FILE_BYTES};

const FILE_A: &str = include_str!("../../../samples/a.line");
const TIMETABLE_A: &str = include_str!("../../../samples/a.timetable");

fn checked(file: &str, timetable: &str) -> Result<(), Refusal> {
    check(file.as_bytes(), timetable.as_bytes())
}

/// What the check says of the printed timetable of file A with one line replaced.
fn a_with(place: usize, replaced: &str) -> Result<(), Refusal> {
    checked(FILE_A, &with(TIMETABLE_A, place, replaced))
}

#[test]
fn the_printed_timetable_of_file_a_passes() {
    assert_eq!(checked(FILE_A, TIMETABLE_A), Ok(()));
    let read = timetable::read(&line(FILE_A), TIMETABLE_A.as_bytes()).unwrap();
    assert_eq!(
        read.minutes.rows(&line(FILE_A)),
        [[0, 20, 20, 40], [0, 15, 24, 39]]
    );
    assert_eq!(read.lists[0].used_trains(), [1, 2]);
    assert_eq!(read.lists[1].used_trains(), [2, 1]);
    assert_eq!(read.lists[2].used_trains(), []);
    assert_eq!(read.total, 18);
    assert_eq!(
        timetable::write(&line(FILE_A), &read.minutes),
        TIMETABLE_A.as_bytes()
    );
}

#[test]
fn number_7_length() {
    let mut long = TIMETABLE_A.as_bytes().to_vec();
    long.resize(FILE_BYTES, b'\n');
    assert_eq!(check(FILE_A.as_bytes(), &long), refused(8, 8));
    long.push(b'\n');
    assert_eq!(check(FILE_A.as_bytes(), &long), refused(7, 0));
    for byte in [0, b'1', b'\n'] {
        let bytes = [byte; FILE_BYTES + 1];
        assert_eq!(check(FILE_A.as_bytes(), &bytes), refused(7, 0));
        assert_eq!(check(FILE_A.as_bytes(), &bytes[1..]), refused(8, 1));
    }
}

#[test]
fn number_8_form_and_the_byte_after() {
    assert_eq!(checked(FILE_A, ""), refused(8, 1));
    assert_eq!(checked(FILE_A, "2"), refused(8, 1));
    assert_eq!(checked(FILE_A, "2\n"), refused(8, 2));
    assert_eq!(a_with(1, "02"), refused(8, 1));
    assert_eq!(a_with(1, "2 "), refused(8, 1));
    assert_eq!(a_with(2, "0 20 20"), refused(8, 2));
    assert_eq!(a_with(2, "0 20 20 40 40"), refused(8, 2));
    assert_eq!(a_with(2, "0 20  20 40"), refused(8, 2));
    assert_eq!(a_with(3, "0 015 24 39"), refused(8, 3));
    assert_eq!(a_with(3, "00015 15 24 39"), refused(8, 3));
    assert_eq!(a_with(3, "0 15 24 10000"), refused(8, 3));
    assert_eq!(a_with(3, "x"), refused(8, 3));
    assert_eq!(a_with(4, ""), refused(8, 4));
    assert_eq!(a_with(5, "2 1"), refused(8, 5));
    assert_eq!(a_with(5, "2 1 2 "), refused(8, 5));
    assert_eq!(a_with(7, "-18"), refused(8, 7));
    assert_eq!(checked(FILE_A, TIMETABLE_A.trim_end()), refused(8, 7));
    assert_eq!(checked(FILE_A, &format!("{TIMETABLE_A}\n")), refused(8, 8));
    assert_eq!(
        checked(FILE_A, &TIMETABLE_A.replace('\n', "\r\n")),
        refused(8, 1)
    );
}

#[test]
fn number_9_range() {
    for other in ["0", "1", "3", "9999"] {
        assert_eq!(a_with(1, other), refused(9, 1));
        assert_eq!(a_with(4, other), refused(9, 4));
    }
    assert_eq!(a_with(2, "2880 20 20 40"), refused(9, 2));
    assert_eq!(a_with(2, "0 20 20 2880"), refused(9, 2));
    assert_eq!(a_with(3, "9999 x"), refused(9, 3));
    assert_eq!(a_with(5, "2 0 2"), refused(9, 5));
    assert_eq!(a_with(6, "2 2 3"), refused(9, 6));
    assert_eq!(a_with(6, "3 2 1"), refused(9, 6));
    // Before the range comes the byte after, and before both the field in front.
    assert_eq!(a_with(2, "0 2880 x"), refused(9, 2));
    assert_eq!(a_with(2, "0 2880x"), refused(8, 2));
    assert_eq!(a_with(2, "x 2880"), refused(8, 2));
}

#[test]
fn the_numbers_of_the_file_come_first() {
    let long = "1".repeat(FILE_BYTES + 1);
    assert_eq!(checked("", &long), refused(2, 1));
    assert_eq!(checked(&long, &long), refused(1, 0));
    assert_eq!(checked(&with(FILE_A, 6, "S 61 4"), &long), refused(3, 6));
    let same = with(FILE_A, 9, "1 1 0 200 1 20 0 20");
    assert_eq!(checked(&same, &long), refused(4, 9));
    assert_eq!(checked(FILE_A, &long), refused(7, 0));
}

#[test]
fn rules_10_to_13_at_their_limits() {
    let file = with(FILE_A, 9, "1 3 10 60 1 20 5 20");
    let file = with(&file, 10, "3 1 100 200 2 15 0 15");
    let second: &[u16] = &[100, 115, 115, 130];
    let first = |row: &[u16]| minutes_checked(&file, &[row, second]);
    assert_eq!(first(&[10, 30, 35, 55]), Ok(()));
    assert_eq!(first(&[9, 29, 35, 55]), refused(10, 1));
    assert_eq!(first(&[10, 29, 35, 55]), refused(11, 1));
    assert_eq!(first(&[10, 30, 35, 56]), refused(11, 1));
    assert_eq!(first(&[30, 10, 35, 55]), refused(11, 1));
    assert_eq!(first(&[10, 30, 34, 54]), refused(12, 1));
    assert_eq!(first(&[10, 30, 40, 60]), Ok(()));
    assert_eq!(first(&[10, 30, 41, 61]), refused(13, 1));
}

/// The train's departures on segment 2 of three stations, behind or before train 1 (0 to 10).
fn second_on(segment: &str, same: bool, departure: u16, run: u16) -> Result<(), Refusal> {
    let path = if same { "2 3" } else { "3 2" };
    let file =
        format!("3\n1\n1\n1\n2\nS 1 1\n{segment}\n2\n2 3 100 2879 1 10\n{path} 0 2879 1 {run}\n");
    minutes_checked(&file, &[&[100, 110], &[departure, departure + run]])
}

#[test]
fn rule_14_each_kind_and_direction_at_its_limits() {
    let broken = refused(14, 2);
    // One train at a time: behind 110 by the gap, or ahead of 100 by it.
    for (segment, same) in [("S 7 60", true), ("S 60 7", false), ("F 60 7", false)] {
        assert_eq!(second_on(segment, same, 117, 20), Ok(()));
        assert_eq!(second_on(segment, same, 116, 20), broken);
        assert_eq!(second_on(segment, same, 73, 20), Ok(()));
        assert_eq!(second_on(segment, same, 74, 20), broken);
        assert_eq!(second_on(segment, same, 100, 20), broken);
    }
    for segment in ["F 7 60", "D 7 60"] {
        // Slower: the departures decide behind, the arrivals ahead.
        assert_eq!(second_on(segment, true, 107, 20), Ok(()));
        assert_eq!(second_on(segment, true, 106, 20), broken);
        assert_eq!(second_on(segment, true, 83, 20), Ok(()));
        assert_eq!(second_on(segment, true, 84, 20), broken);
        // Faster: the other way round.
        assert_eq!(second_on(segment, true, 113, 4), Ok(()));
        assert_eq!(second_on(segment, true, 112, 4), broken);
        assert_eq!(second_on(segment, true, 93, 4), Ok(()));
        assert_eq!(second_on(segment, true, 94, 4), broken);
    }
    for departure in [80, 90, 100, 110] {
        assert_eq!(second_on("D 60 60", false, departure, 20), Ok(()));
    }
}

#[test]
fn rule_14_lowest_segment() {
    // On both segments train 2 is a minute too early; inbound trains meet segment 2 first.
    let follow = |ends: &str| {
        let train = format!("{ends} 0 2879 1 5 0 5\n");
        format!("3\n2\n2\n2\n2\nS 3 1\nS 3 1\n2\n{train}{train}")
    };
    let rows: [&[u16]; 2] = [&[0, 5, 5, 10], &[7, 12, 12, 17]];
    assert_eq!(minutes_checked(follow("1 3"), &rows), refused(14, 1));
    assert_eq!(minutes_checked(follow("3 1"), &rows), refused(14, 1));
    let later: [&[u16]; 2] = [&[0, 5, 5, 10], &[7, 12, 13, 18]];
    assert_eq!(minutes_checked(follow("1 3"), &later), refused(14, 1));
    assert_eq!(minutes_checked(follow("3 1"), &later), refused(14, 2));
}

#[test]
fn reading_16_each_rule_over_all_trains() {
    // Train 1 breaks 12, train 2 breaks 11.
    assert_eq!(
        minutes_checked(FILE_A, &[&[0, 20, 19, 39], &[0, 16, 24, 39]]),
        refused(11, 2)
    );
    // Train 1 breaks 11, train 2 breaks 10.
    let late = with(FILE_A, 10, "3 1 1 200 2 15 0 15");
    assert_eq!(
        minutes_checked(&late, &[&[0, 21, 21, 41], &[0, 15, 24, 39]]),
        refused(10, 2)
    );
    // Train 1 breaks 13, train 2 breaks 12; 14 is broken too.
    let short = with(FILE_A, 9, "1 3 0 30 1 20 0 20");
    assert_eq!(
        minutes_checked(&short, &[&[0, 20, 20, 40], &[0, 15, 14, 29]]),
        refused(12, 2)
    );
    // Both break 11.
    assert_eq!(
        minutes_checked(FILE_A, &[&[0, 21, 21, 40], &[0, 16, 24, 39]]),
        refused(11, 1)
    );
    // Station 2 is overfull, and on segment 2 they run into each other.
    let narrow = with(FILE_A, 3, "1");
    assert_eq!(
        minutes_checked(&narrow, &[&[0, 20, 20, 40], &[6, 21, 24, 39]]),
        refused(14, 2)
    );
}

#[test]
fn reading_17_all_pairs_and_not_neighbours_alone() {
    let file = "2\n1\n1\n1\nS 60 1\n3\n1 2 0 2879 1 1\n2 1 0 2879 1 1\n1 2 0 2879 1 1\n";
    assert_eq!(
        minutes_checked(file, &[&[0, 1], &[2, 3], &[4, 5]]),
        refused(14, 1)
    );
    assert_eq!(
        minutes_checked(file, &[&[0, 1], &[2, 3], &[61, 62]]),
        Ok(())
    );
    assert_eq!(
        minutes_checked(file, &[&[0, 1], &[2, 3], &[60, 61]]),
        refused(14, 1)
    );
}

#[test]
fn reading_18_standing_in_the_middle_of_the_path_only() {
    // One track everywhere, all at minute 10 at station 2: one passes, one starts, one ends.
    let file = "3\n1\n1\n1\n2\nD 1 1\nD 1 1\n3\n1 3 0 99 1 10 0 10\n2 1 0 99 1 5\n3 2 0 99 1 10\n";
    assert_eq!(
        minutes_checked(file, &[&[0, 10, 10, 20], &[10, 15], &[0, 10]]),
        Ok(())
    );
    // A second one that passes takes a track for its one minute.
    let second = with(file, 10, "3 1 0 99 1 10 0 10");
    let rows = |departure: u16| -> Result<(), Refusal> {
        let d = departure;
        let passing = [d, d + 10, d + 10, d + 20];
        minutes_checked(&second, &[&[0, 10, 12, 22], &passing, &[30, 40]])
    };
    for (departure, broken) in [(0, true), (1, true), (2, true), (3, false)] {
        let expected = if broken { refused(15, 2) } else { Ok(()) };
        assert_eq!(rows(departure), expected, "train 2 at {departure}");
    }
}

#[test]
fn reading_18_three_on_two_tracks_and_the_lowest_station() {
    let mut file = "4\n1\n2\n2\n1\n3\nD 1 1\nD 1 1\nD 1 1\n3\n".to_string();
    file += &"1 4 0 99 1 5 0 5 0 5\n".repeat(3);
    let lawful: [&[u16]; 3] = [
        &[0, 5, 10, 15, 20, 25],
        &[1, 6, 11, 16, 21, 26],
        &[6, 11, 17, 22, 23, 28],
    ];
    // Minute 11 has train 2 leaving and train 3 arriving at station 2, and train 1 gone.
    assert_eq!(minutes_checked(&file, &lawful), Ok(()));
    let mut earlier = lawful;
    earlier[2] = &[5, 10, 17, 22, 23, 28];
    assert_eq!(minutes_checked(&file, &earlier), refused(15, 2));
    let mut longer = lawful;
    longer[0] = &[0, 5, 10, 15, 22, 27];
    longer[1] = &[1, 6, 11, 16, 23, 28];
    longer[2] = &[6, 11, 17, 22, 24, 29];
    assert_eq!(minutes_checked(&file, &longer), refused(15, 3));
}

#[test]
fn reading_19_free_arrival_past_the_last_minute() {
    let file = format!(
        "12\n{}11\n{}1\n1 12 2879 2879 99 {}240\n",
        "1\n".repeat(12),
        "S 1 1\n".repeat(11),
        "240 240 ".repeat(10)
    );
    let line = line(&file);
    assert_eq!(free_arrival(&line, 0), 7919);
    // Such a timetable breaks a rule, so its delay is never asked for; it is 0.
    assert_eq!(weighted_delay(&line, &Minutes::default()), 0);
    assert_eq!(minutes_checked(&file, &[&[0; 22]]), refused(10, 1));
}

#[test]
fn reading_20_the_whole_text_is_read_before_the_rules() {
    // Train 1 breaks rule 11; the fault of form or range stands further down.
    let broken = with(TIMETABLE_A, 2, "0 21 21 40");
    assert_eq!(checked(FILE_A, &broken), refused(11, 1));
    assert_eq!(checked(FILE_A, &with(&broken, 6, "2 2 3")), refused(9, 6));
    assert_eq!(checked(FILE_A, &with(&broken, 7, "018")), refused(8, 7));
    assert_eq!(checked(FILE_A, &format!("{broken}0")), refused(8, 8));
}

#[test]
fn reading_21_byte_after_the_count_of_a_list() {
    assert_eq!(a_with(5, "5"), refused(8, 5));
    assert_eq!(a_with(5, "5 1 2"), refused(9, 5));
    assert_eq!(a_with(5, "5 "), refused(9, 5));
    assert_eq!(a_with(5, "2"), refused(8, 5));
    assert_eq!(a_with(5, "0 1 2"), refused(8, 5));
    assert_eq!(a_with(5, "0"), refused(16, 1));
    assert_eq!(a_with(5, "0 "), refused(8, 5));
    assert_eq!(a_with(5, "9999"), refused(8, 5));
    assert_eq!(a_with(5, "9999 "), refused(9, 5));
    assert_eq!(a_with(5, "1 1 2"), refused(8, 5));
    assert_eq!(a_with(5, "00"), refused(8, 5));
}

#[test]
fn reading_22_a_count_over_the_trains_of_the_line() {
    // Train 2 is on segment 1 alone: three trains are known, so a list may name three.
    let file = with(FILE_A, 8, "3");
    let file = with(&file, 10, "2 1 0 200 2 15") + "3 1 100 200 0 15 0 15\n";
    let right = "3\n0 20 20 40\n24 39\n100 115 115 130\n2\n3 1 2 3\n2 1 3\n48\n";
    assert_eq!(checked(&file, right), Ok(()));
    let list_2 = |list: &str| checked(&file, &with(right, 7, list));
    assert_eq!(list_2("3 1 2 3"), refused(16, 2));
    assert_eq!(list_2("3 1 3 3"), refused(16, 2));
    assert_eq!(list_2("2 1 1"), refused(16, 2));
    assert_eq!(list_2("2 1 2"), refused(16, 2));
    assert_eq!(list_2("2 3 1"), refused(16, 2));
    assert_eq!(list_2("1 1"), refused(16, 2));
    assert_eq!(list_2("0"), refused(16, 2));
    assert_eq!(list_2("4 1 3 1 3"), refused(9, 7));
    assert_eq!(list_2("2 1 4"), refused(9, 7));
    assert_eq!(checked(&file, &with(right, 6, "2 1 2")), refused(16, 1));
}

#[test]
fn reading_23_total() {
    for wrong in ["0", "17", "19", "180", "9999", "10018", "9999999"] {
        assert_eq!(a_with(7, wrong), refused(17, 0));
    }
    for form in [
        "0018", "018", "12345678", "99999999", "", "18 ", "1x", "+18",
    ] {
        assert_eq!(a_with(7, form), refused(8, 7));
    }
    // The greatest that a lawful timetable has; it needs seven digits.
    let file = format!("2\n1\n1\n1\nD 1 1\n12\n{}", "1 2 0 2879 99 1\n".repeat(12));
    let rows: Vec<Vec<u16>> = (0..12).map(|late| vec![2878 - late, 2879 - late]).collect();
    let minutes = Minutes::of_rows(&line(&file), &rows);
    let text = timetable::write(&line(&file), &minutes);
    assert_eq!(weighted_delay(&line(&file), &minutes), 3_412_530);
    assert!(text.ends_with(b"\n3412530\n"));
    assert_eq!(check(file.as_bytes(), &text), Ok(()));
}

#[test]
fn reading_24_equal_departures() {
    // They break rule 14, so 16 is not reached; written, the lower number comes first.
    let file = "2\n1\n1\n1\nF 1 1\n3\n1 2 0 99 1 5\n1 2 0 99 1 5\n1 2 0 99 1 5\n";
    let rows = [vec![7, 12], vec![7, 12], vec![0, 5]];
    let minutes = Minutes::of_rows(&line(file), &rows);
    let text = timetable::write(&line(file), &minutes);
    assert_eq!(text, b"3\n7 12\n7 12\n0 5\n1\n3 3 1 2\n14\n");
    for list in ["3 3 1 2", "3 3 2 1", "3 1 1 1", "0"] {
        let text = with(std::str::from_utf8(&text).unwrap(), 6, list);
        assert_eq!(checked(file, &text), refused(14, 1));
    }
}

#[test]
fn reading_25_lists_are_counted_over_all_segments() {
    let mut file = "4\n2\n2\n2\n2\n3\nD 1 1\nS 1 1\nD 1 1\n2\n".to_string();
    file += "1 4 0 99 1 5 0 5 0 5\n4 1 50 99 1 5 0 5 0 5\n";
    let right = "2\n0 5 5 10 10 15\n50 55 55 60 60 65\n5\n1 1\n1 2\n2 1 2\n1 1\n1 2\n0\n";
    assert_eq!(checked(&file, right), Ok(()));
    let replaced = [(1, "0"), (2, "1 1"), (3, "2 2 1"), (4, "1 2"), (5, "2 1 2")];
    for (list, wrong) in replaced {
        let place = 4 + list;
        assert_eq!(
            checked(&file, &with(right, place, wrong)),
            refused(16, list as u32)
        );
    }
    // The lowest of several, and before the total.
    let all = replaced
        .iter()
        .rev()
        .fold(right.to_string(), |text, &(list, wrong)| {
            let text = with(&with(&text, 4 + list, wrong), 10, "7");
            assert_eq!(checked(&file, &text), refused(16, list as u32));
            text
        });
    assert_ne!(all, right);
    // Outbound and inbound exchanged.
    let swapped = with(&with(right, 5, "1 2"), 6, "1 1");
    assert_eq!(checked(&file, &swapped), refused(16, 1));
}

#[test]
fn writing_with_too_few_lent_bytes() {
    let line = line(FILE_A);
    let minutes = timetable::read(&line, TIMETABLE_A.as_bytes())
        .unwrap()
        .minutes;
    let length = TIMETABLE_A.len();
    for lent_bytes in [0, 1, length - 1] {
        let mut lent = vec![0xA5; lent_bytes];
        let too_few = Err(Refusal {
            number: 6,
            place: 0,
        });
        assert_eq!(timetable::write_into(&line, &minutes, &mut lent), too_few);
        assert!(lent.iter().all(|&byte| byte == 0xA5));
    }
    for lent_bytes in [length, length + 1, FILE_BYTES] {
        let mut lent = vec![0xA5; lent_bytes];
        let written = timetable::write_into(&line, &minutes, &mut lent);
        assert_eq!(written, Ok(length));
        assert_eq!(&lent[..length], TIMETABLE_A.as_bytes());
        assert!(lent[length..].iter().all(|&byte| byte == 0xA5));
    }
}

#[test]
fn the_longest_timetable() {
    let train = format!("1 12 0 2879 99 {}1\n", "1 0 ".repeat(10));
    let file = format!(
        "12\n{}11\n{}12\n{}",
        "12\n".repeat(12),
        "D 60 60\n".repeat(11),
        train.repeat(12)
    );
    let rows = vec![vec![2879; 22]; 12];
    let minutes = Minutes::of_rows(&line(&file), &rows);
    let text = timetable::write(&line(&file), &minutes);
    assert_eq!(text.len(), 1686);
    assert_eq!(
        timetable::read(&line(&file), &text).map(|read| read.minutes),
        Ok(minutes)
    );
}

#[test]
fn an_order_list_is_known_without_sorting() {
    let line = line(FILE_A);
    let minutes = timetable::read(&line, TIMETABLE_A.as_bytes())
        .unwrap()
        .minutes;
    let all: Vec<_> = lists(&line).collect();
    for &(p, lane) in &all {
        for &(other, _) in &all {
            let list = order_list(&line, &minutes, other, lane);
            assert_eq!(is_order_list(&line, &minutes, p, lane, &list), p == other);
        }
    }
}
