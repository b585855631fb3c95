//! The section of bookings and the settled readings of its open points, one by one.

use crate::test_texts::{a_and, line, longest_without_dues, refused, with, writing_gives, FILE_A};
use crate::{read, rewrite, write, write_into, Booking, Line, Refusal, FILE_BYTES};

/// What reading says of file A with this text behind its trains.
fn a_read_with(section: &str) -> Result<Line, Refusal> {
    read(a_and(section).as_bytes())
}

/// A line of six stations with a train each way over stations 2 to 5: the count stands on line 17.
fn six_and(section: &str) -> Result<Line, Refusal> {
    read(six(section).as_bytes())
}

fn six(section: &str) -> String {
    let head = format!("6\n{}5\n{}2\n", "2\n".repeat(6), "S 5 4\n".repeat(5));
    let trains = "2 5 0 200 1 9 0 9 0 9\n5 2 0 200 1 9 0 9 0 9\n";
    format!("{head}{trains}{section}")
}

fn booking(train: u16, station: u16, minute: u16) -> Booking {
    Booking {
        train,
        station,
        minute,
    }
}

/// File A with these bookings.
fn a_with(bookings: &[Booking]) -> Line {
    let mut line = line(FILE_A);
    line.booking_count = bookings.len() as u16;
    line.bookings[..bookings.len()].copy_from_slice(bookings);
    line
}

#[test]
fn reading_29_a_list_of_bookings() {
    let file = format!("{FILE_A}2\n1 2 0\n2 2 2879\n");
    let line = line(&file);
    assert_eq!(line, a_with(&[booking(1, 2, 0), booking(2, 2, 2879)]));
    assert_eq!(line.used_bookings().len(), 2);
    assert_eq!(line.bookings[2], Booking::default());
    // Minute 0 is a booking, and is written.
    assert_eq!(write(&line), Ok(file.into_bytes()));
}

#[test]
fn reading_30_the_section_is_left_off_without_bookings() {
    let mut line = line(FILE_A);
    assert_eq!(line.booking_count, 0);
    // What is beyond the count is ignored, however bad.
    line.bookings[0] = booking(9999, 9999, 9999);
    assert_eq!(write(&line), Ok(FILE_A.into()));
    line.booking_count = 1;
    line.bookings = a_with(&[booking(1, 2, 7), booking(9999, 0, 9999)]).bookings;
    assert_eq!(write(&line), Ok(format!("{FILE_A}1\n1 2 7\n").into()));
    // What was read has 0 there.
    assert_ne!(line, a_with(&[booking(1, 2, 7)]));
    assert_eq!(
        read(&write(&line).unwrap()),
        Ok(a_with(&[booking(1, 2, 7)]))
    );
}

#[test]
fn reading_31_the_fields_of_a_booking_in_order() {
    // Train, station, then its order and place, then the minute.
    assert_eq!(a_read_with("1\n0 9 x\n"), refused(3, 12));
    assert_eq!(a_read_with("1\n3 2 5\n"), refused(3, 12));
    assert_eq!(a_read_with("1\n3x2 5\n"), refused(2, 12));
    assert_eq!(a_read_with("1\n1 0 x\n"), refused(3, 12));
    assert_eq!(a_read_with("1\n1 4 x\n"), refused(3, 12));
    assert_eq!(a_read_with("1\n1 4x5\n"), refused(2, 12));
    assert_eq!(a_read_with("1\n1 3 x\n"), refused(19, 12));
    assert_eq!(a_read_with("1\n1 3 2880\n"), refused(19, 12));
    assert_eq!(a_read_with("1\n1 3x5\n"), refused(2, 12));
    assert_eq!(a_read_with("1\n1 2 2880\n"), refused(3, 12));
    assert_eq!(a_read_with("1\n1 2 2880"), refused(2, 12));
    assert_eq!(a_read_with("1\n1 2 05\n"), refused(2, 12));
    // A lower train is not refused at its own field.
    assert_eq!(a_read_with("2\n2 2 30\n1 4 30\n"), refused(3, 13));
    assert_eq!(a_read_with("2\n2 2 30\n1 2 3000\n"), refused(19, 13));
    assert_eq!(a_read_with("2\n2 2 30\n1 x\n"), refused(2, 13));
    // The first bad line counts.
    assert_eq!(a_read_with("2\n1 1 30\n1 9 30\n"), refused(19, 12));
}

#[test]
fn number_19_out_of_order() {
    assert_eq!(a_read_with("2\n2 2 30\n1 2 30\n"), refused(19, 13));
    assert_eq!(a_read_with("2\n1 2 30\n1 2 30\n"), refused(19, 13));
    assert_eq!(a_read_with("2\n1 2 30\n1 2 31\n"), refused(19, 13));
    assert_eq!(six_and("2\n1 4 30\n1 3 40\n"), refused(19, 19));
    // Stations rise for an inbound train too, and a next train begins anew.
    assert_eq!(six_and("2\n2 4 30\n2 3 40\n"), refused(19, 19));
    assert!(six_and("4\n1 3 30\n1 4 20\n2 3 40\n2 4 30\n").is_ok());
    assert_eq!(
        six_and("4\n1 3 30\n1 4 20\n2 3 40\n1 4 30\n"),
        refused(19, 21)
    );
}

#[test]
fn number_19_not_in_the_middle() {
    // Origin and destination of each train, and stations past them.
    for train in [1, 2] {
        for station in [1, 2, 5, 6] {
            let section = format!("1\n{train} {station} 30\n");
            assert_eq!(six_and(&section), refused(19, 18));
        }
        for station in [3, 4] {
            assert!(six_and(&format!("1\n{train} {station} 30\n")).is_ok());
        }
        for station in [0, 7] {
            let section = format!("1\n{train} {station} 30\n");
            assert_eq!(six_and(&section), refused(3, 18));
        }
    }
    // A train over one segment has no middle station.
    let short = with(FILE_A, 9, "1 2 0 200 1 20");
    for station in 1..=3 {
        let file = format!("{short}1\n1 {station} 30\n");
        assert_eq!(read(file.as_bytes()), refused(19, 12));
    }
}

#[test]
fn reading_32_the_count() {
    for over in ["121", "122", "255", "256", "9999"] {
        assert_eq!(a_read_with(&format!("{over}\n1 2 30\n")), refused(3, 11));
    }
    assert_eq!(a_read_with("10000\n1 2 30\n"), refused(2, 11));
    // The trains do not bound it.
    let none = "2\n1\n1\n1\nS 1 1\n0\n";
    assert_eq!(read(format!("{none}1\n").as_bytes()), refused(2, 8));
    assert_eq!(read(format!("{none}1\n1 1 0\n").as_bytes()), refused(3, 8));
    assert_eq!(read(format!("{none}0\n").as_bytes()), refused(3, 7));
    // More are said than there are, or fewer.
    assert_eq!(a_read_with("120\n1 2 30\n2 2 30\n"), refused(2, 14));
    assert_eq!(a_read_with("2\n1 2 30\n"), refused(2, 13));
    assert_eq!(a_read_with("1\n1 2 30\n2 2 30\n"), refused(2, 13));
}

#[test]
fn reading_33a_and_34_an_empty_last_section() {
    assert_eq!(a_read_with("0\n"), refused(3, 11));
    // Something follows, which then is no booking: the count of the dues would stand there.
    assert_eq!(a_read_with("0\n1 2 30\n"), refused(2, 12));
    for form in ["0", "0 \n", "00\n", "\n", " \n", "x\n", "01\n", "1 \n", "1"] {
        assert_eq!(a_read_with(form), refused(2, 11));
    }
}

#[test]
fn bytes_after_and_early_ends() {
    let section = "2\n1 2 30\n2 2 30\n";
    assert!(a_read_with(section).is_ok());
    // The count of the dues would stand there.
    for more in ["\n", "1 \n", "x", "2 2 31\n", "\0"] {
        assert_eq!(a_read_with(&format!("{section}{more}")), refused(2, 14));
    }
    // Past a line feed it is the next line.
    for end in 1..section.len() {
        let place = 11 + section[..end].matches('\n').count();
        assert_eq!(a_read_with(&section[..end]), refused(2, place as u32));
    }
    assert_eq!(a_read_with("1\n1 2\n"), refused(2, 12));
    assert_eq!(a_read_with("1\n1 2 30 \n"), refused(2, 12));
    assert_eq!(a_read_with("1\n1  2 30\n"), refused(2, 12));
    assert_eq!(a_read_with("1\r\n1 2 30\n"), refused(2, 11));
}

#[test]
fn reading_30a_writing_a_bad_record() {
    let first = |first| a_with(&[first, booking(2, 2, 30)]);
    let second = |second| a_with(&[booking(1, 2, 30), second]);
    for train in [0, 3, 65535] {
        writing_gives(&first(booking(train, 9, 2880)), 3, 12);
        writing_gives(&second(booking(train, 9, 2880)), 3, 13);
    }
    for station in [0, 4, 65535] {
        writing_gives(&first(booking(1, station, 2880)), 3, 12);
        writing_gives(&second(booking(1, station, 2880)), 3, 13);
    }
    for station in [1, 3] {
        writing_gives(&first(booking(1, station, 2880)), 19, 12);
        writing_gives(&second(booking(2, station, 30)), 19, 13);
    }
    for minute in [2880, 65535] {
        writing_gives(&first(booking(1, 2, minute)), 3, 12);
        writing_gives(&second(booking(2, 2, minute)), 3, 13);
    }
    writing_gives(&second(booking(1, 2, 31)), 19, 13);
    writing_gives(&a_with(&[booking(2, 2, 30), booking(1, 2, 2880)]), 19, 13);
    writing_gives(&a_with(&[booking(2, 2, 30), booking(1, 4, 30)]), 3, 13);
    // A fault of the first three sections comes first.
    let mut both = first(booking(1, 1, 30));
    both.trains[1].weight = 100;
    writing_gives(&both, 3, 10);
}

#[test]
fn writing_a_count_over_120() {
    for booking_count in [121, 255, 65535] {
        let line = Line {
            booking_count,
            ..line(FILE_A)
        };
        writing_gives(&line, 3, 11);
    }
    // All 120 are looked at.
    let mut line = line(longest_without_dues());
    line.bookings[119].minute = 2880;
    writing_gives(&line, 3, 159);
    line.bookings[119] = line.bookings[118];
    writing_gives(&line, 19, 159);
}

#[test]
fn reading_10_the_longest_file_with_120_bookings() {
    let longest = longest_without_dues();
    assert_eq!((longest.len(), longest.lines().count()), (2495, 159));
    let line = line(&longest);
    assert_eq!(line.used_bookings().len(), 120);
    let mut lent = [0xA5; FILE_BYTES];
    assert_eq!(rewrite(longest.as_bytes(), &mut lent), Ok(2495));
    assert_eq!(&lent[..2495], longest.as_bytes());
    assert!(lent[2495..].iter().all(|&byte| byte == 0xA5));
    // One more line is one too many.
    let over = longest.replacen("\n120\n", "\n121\n", 1);
    assert_eq!(read(format!("{over}12 12 0\n").as_bytes()), refused(3, 39));
    assert_eq!(
        read(format!("{longest}12 12 0\n").as_bytes()),
        refused(2, 160)
    );
}

#[test]
fn reading_13_too_few_lent_bytes_come_last() {
    let line = a_with(&[booking(1, 2, 30), booking(2, 2, 30)]);
    let length = write(&line).unwrap().len();
    for lent_bytes in [0, FILE_A.len(), length - 1] {
        let mut lent = vec![0xA5; lent_bytes];
        assert_eq!(write_into(&line, &mut lent), refused(6, 0));
        assert!(lent.iter().all(|&byte| byte == 0xA5));
    }
    assert_eq!(write_into(&line, &mut vec![0; length]), Ok(length));
    let bad = format!("{FILE_A}1\n1 3 30\n");
    assert_eq!(rewrite(bad.as_bytes(), &mut []), refused(19, 12));
}
