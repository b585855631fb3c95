//! The section of dues and the settled readings of its open points, one by one.

use crate::test_texts::{a_and, line, longest_without_dues, refused, writing_gives, FILE_A};
use crate::{read, rewrite, write, write_into, Booking, Due, Line, Refusal, FILE_BYTES};

/// What reading says of file A with an empty section of bookings and this text behind it: the count of the
/// dues would stand on line 12.
fn a_read_with(section: &str) -> Result<Line, Refusal> {
    read(a_and(&format!("0\n{section}")).as_bytes())
}

/// File A with two bookings and this text behind them: the count of the dues would stand on line 14.
fn booked_and(section: &str) -> String {
    a_and(&format!("2\n1 2 30\n2 2 40\n{section}"))
}

fn booked_read_with(section: &str) -> Result<Line, Refusal> {
    read(booked_and(section).as_bytes())
}

fn due(train: u16, minute: u16) -> Due {
    Due { train, minute }
}

/// The line of a file with these dues.
fn with_dues(file: &str, dues: &[Due]) -> Line {
    let mut line = line(file);
    line.due_count = dues.len() as u16;
    line.dues[..dues.len()].copy_from_slice(dues);
    line
}

#[test]
fn reading_35_a_list_of_dues() {
    let file = a_and("0\n2\n1 0\n2 2879\n");
    let read = line(&file);
    assert_eq!(read, with_dues(FILE_A, &[due(1, 0), due(2, 2879)]));
    assert_eq!(read.used_dues().len(), 2);
    assert_eq!(read.dues[2], Due::default());
    // Minute 0 is a due minute, and is written.
    assert_eq!(write(&read), Ok(file.into_bytes()));
    let file = booked_and("1\n2 0\n");
    assert_eq!(line(&file), with_dues(&booked_and(""), &[due(2, 0)]));
    assert_eq!(write(&line(&file)), Ok(file.into_bytes()));
}

#[test]
fn reading_35_a_due_minute_of_0_is_listed() {
    let line = line(a_and("0\n1\n2 0\n"));
    assert_eq!((line.listed_due(0), line.listed_due(1)), (None, Some(0)));
    assert_eq!((line.due_minute(0), line.due_minute(1)), (40, 0));
    // Its free arrival with its bookings.
    let line = crate::test_texts::line(a_and("1\n1 2 100\n1\n2 31\n"));
    assert_eq!((line.due_minute(0), line.due_minute(1)), (120, 31));
}

#[test]
fn reading_30_which_sections_are_written() {
    let mut line = with_dues(FILE_A, &[]);
    // What is beyond the count is ignored, however bad.
    line.dues[0] = due(9999, 9999);
    assert_eq!(write(&line), Ok(FILE_A.into()));
    line.due_count = 1;
    line.dues[..2].copy_from_slice(&[due(1, 7), due(9999, 9999)]);
    assert_eq!(write(&line), Ok(a_and("0\n1\n1 7\n").into()));
    // What was read has 0 there.
    assert_ne!(line, with_dues(FILE_A, &[due(1, 7)]));
    let again = read(&write(&line).unwrap());
    assert_eq!(again, Ok(with_dues(FILE_A, &[due(1, 7)])));
    let mut booked = line;
    booked.booking_count = 1;
    booked.bookings[0] = Booking {
        train: 2,
        station: 2,
        minute: 0,
    };
    assert_eq!(write(&booked), Ok(a_and("1\n2 2 0\n1\n1 7\n").into()));
    booked.due_count = 0;
    assert_eq!(write(&booked), Ok(a_and("1\n2 2 0\n").into()));
}

#[test]
fn reading_37_the_fields_of_a_due_in_order() {
    // Train, then its order, then the minute.
    assert_eq!(a_read_with("1\n0 x\n"), refused(3, 13));
    assert_eq!(a_read_with("1\n3 x\n"), refused(3, 13));
    assert_eq!(a_read_with("1\n9999 2880\n"), refused(3, 13));
    assert_eq!(a_read_with("1\n3x5\n"), refused(2, 13));
    assert_eq!(a_read_with("1\n3\n"), refused(2, 13));
    assert_eq!(a_read_with("1\n1 x\n"), refused(2, 13));
    assert_eq!(a_read_with("1\n1 2880\n"), refused(3, 13));
    assert_eq!(a_read_with("1\n1 2880"), refused(2, 13));
    assert_eq!(a_read_with("1\n1 2880 \n"), refused(2, 13));
    assert_eq!(a_read_with("1\n1 05\n"), refused(2, 13));
    assert_eq!(a_read_with("1\n1 2 5\n"), refused(2, 13));
    assert!(a_read_with("1\n1 2879\n").is_ok() && a_read_with("1\n2 0\n").is_ok());
    // A train that is not above the one before is refused at its own field, before the minute.
    assert_eq!(a_read_with("2\n2 10\n1 x\n"), refused(19, 14));
    assert_eq!(a_read_with("2\n2 10\n1 "), refused(19, 14));
    assert_eq!(a_read_with("2\n2 10\n1 2880\n"), refused(19, 14));
    assert_eq!(a_read_with("2\n2 10\n1\n"), refused(2, 14));
    assert_eq!(a_read_with("2\n2 10\n1x9\n"), refused(2, 14));
    assert_eq!(a_read_with("2\n2 10\n01 9\n"), refused(2, 14));
    assert_eq!(a_read_with("2\n2 10\n0 9\n"), refused(3, 14));
    assert_eq!(a_read_with("2\n2 10\n3 9\n"), refused(3, 14));
    // The first bad line counts.
    assert_eq!(a_read_with("2\n2 2880\n1 9\n"), refused(3, 13));
}

#[test]
fn number_19_a_train_twice_or_out_of_order() {
    assert_eq!(a_read_with("2\n1 10\n1 10\n"), refused(19, 14));
    assert_eq!(a_read_with("2\n1 10\n1 11\n"), refused(19, 14));
    assert_eq!(a_read_with("2\n2 10\n2 9\n"), refused(19, 14));
    assert_eq!(a_read_with("2\n2 10\n1 10\n"), refused(19, 14));
    assert_eq!(booked_read_with("2\n2 10\n1 10\n"), refused(19, 16));
    // The minutes need not rise.
    assert!(a_read_with("2\n1 10\n2 9\n").is_ok());
    // Each due is held to the one before it alone.
    let dues = |trains: &[u16]| {
        let all: String = trains.iter().map(|train| format!("{train} 5\n")).collect();
        read(format!("{}{}\n{all}", longest_without_dues(), trains.len()).as_bytes())
    };
    assert!(dues(&[1, 3, 4, 9, 12]).is_ok());
    assert_eq!(dues(&[1, 3, 2, 9, 12]), refused(19, 163));
    assert_eq!(dues(&[1, 3, 4, 12, 12]), refused(19, 165));
    assert_eq!(dues(&[2, 10, 9]), refused(19, 163));
    assert_eq!(dues(&[13, 10, 9]), refused(3, 161));
}

#[test]
fn reading_37_the_count() {
    // 0, the trains, one more, and far more: before any byte after it.
    assert_eq!(a_read_with("0\n"), refused(3, 12));
    assert_eq!(a_read_with("0\n1 5\n"), refused(3, 12));
    assert!(a_read_with("2\n1 5\n2 5\n").is_ok());
    for over in ["3", "12", "13", "120", "255", "256", "9999"] {
        assert_eq!(a_read_with(&format!("{over}\n")), refused(3, 12));
        assert_eq!(
            a_read_with(&format!("{over}\n1 5\n2 5\n3 5\n")),
            refused(3, 12)
        );
        assert_eq!(booked_read_with(&format!("{over}\nx")), refused(3, 14));
    }
    assert_eq!(a_read_with("10000\n1 5\n"), refused(2, 12));
    for form in [
        "0", "3", "0 \n", "00\n", "\n", " \n", "x\n", "01\n", "1 \n", "1",
    ] {
        assert_eq!(a_read_with(form), refused(2, 12));
        assert_eq!(booked_read_with(form), refused(2, 14));
    }
    // More are said than there are, or fewer.
    assert_eq!(a_read_with("2\n1 5\n"), refused(2, 14));
    assert_eq!(a_read_with("1\n1 5\n2 5\n"), refused(2, 14));
}

#[test]
fn without_trains_every_count_is_refused() {
    let none = "2\n1\n1\n1\nS 1 1\n0\n";
    for count in ["0", "1", "12", "9999"] {
        let file = format!("{none}0\n{count}\n1 5\n");
        assert_eq!(read(file.as_bytes()), refused(3, 8));
    }
    assert_eq!(read(format!("{none}0\nx\n").as_bytes()), refused(2, 8));
    assert_eq!(read(format!("{none}0\n").as_bytes()), refused(3, 7));
    writing_gives(&with_dues(none, &[due(1, 5)]), 3, 8);
}

#[test]
fn reading_33a_an_empty_section_of_bookings() {
    // It is there only where another section follows, whatever is in that.
    assert_eq!(read(a_and("0\n").as_bytes()), refused(3, 11));
    assert_eq!(a_read_with("\n"), refused(2, 12));
    assert_eq!(a_read_with("\0"), refused(2, 12));
    assert!(a_read_with("1\n1 5\n").is_ok());
    for form in ["0", "0 \n", "00\n"] {
        assert_eq!(read(a_and(form).as_bytes()), refused(2, 11));
        assert_eq!(
            read(a_and(&format!("{form}1\n1 5\n")).as_bytes()),
            refused(2, 11)
        );
    }
    // A count over 120 is refused before what follows.
    assert_eq!(read(a_and("121\n1\n1 5\n").as_bytes()), refused(3, 11));
}

#[test]
fn bytes_after_and_early_ends() {
    for (front, first) in [(a_and("0\n"), 12), (booked_and(""), 14)] {
        let section = "2\n1 30\n2 2879\n";
        assert!(read(format!("{front}{section}").as_bytes()).is_ok());
        for more in ["\n", "0\n", "1\n", "x", "2 31\n", "\0", "1\n1 5\n"] {
            let file = format!("{front}{section}{more}");
            assert_eq!(read(file.as_bytes()), refused(2, first + 3));
        }
        // Past a line feed it is the next line.
        for end in 1..section.len() {
            let place = first + section[..end].matches('\n').count() as u32;
            let file = format!("{front}{}", &section[..end]);
            assert_eq!(read(file.as_bytes()), refused(2, place));
        }
    }
    assert_eq!(a_read_with("1\n1  30\n"), refused(2, 13));
    assert_eq!(a_read_with("1\n1 30 \n"), refused(2, 13));
    assert_eq!(a_read_with("1\n 1 30\n"), refused(2, 13));
    assert_eq!(a_read_with("1\r\n1 30\n"), refused(2, 12));
}

/// At every byte: accepted where the sections before are whole and not empty at the end, else a refusal on
/// the line of the end.
#[test]
fn cut_short_at_every_byte() {
    let whole = booked_and("2\n1 30\n2 2879\n");
    let accepted = [FILE_A.len(), booked_and("").len()];
    for end in 0..whole.len() {
        let part = &whole[..end];
        let place = 1 + part.matches('\n').count() as u32;
        match accepted.contains(&end) {
            true => assert!(read(part.as_bytes()).is_ok()),
            false => assert_eq!(read(part.as_bytes()), refused(2, place)),
        }
    }
    let whole = a_and("0\n1\n1 30\n");
    let empty = FILE_A.len() + 2;
    for end in FILE_A.len() + 1..whole.len() {
        let place = 1 + whole[..end].matches('\n').count() as u32;
        let expected = match end == empty {
            true => refused(3, 11),
            false => refused(2, place),
        };
        assert_eq!(read(&whole.as_bytes()[..end]), expected);
    }
}

#[test]
fn reading_30a_writing_a_bad_record() {
    for (file, first) in [(FILE_A.to_string(), 13), (booked_and(""), 15)] {
        let second = first + 1;
        for train in [0, 3, 65535] {
            writing_gives(&with_dues(&file, &[due(train, 2880)]), 3, first);
            writing_gives(&with_dues(&file, &[due(1, 5), due(train, 2880)]), 3, second);
        }
        for minute in [2880, 65535] {
            writing_gives(&with_dues(&file, &[due(1, minute), due(2, 5)]), 3, first);
            writing_gives(&with_dues(&file, &[due(1, 5), due(2, minute)]), 3, second);
            writing_gives(&with_dues(&file, &[due(2, 5), due(1, minute)]), 19, second);
            writing_gives(&with_dues(&file, &[due(1, 5), due(1, minute)]), 19, second);
        }
        writing_gives(&with_dues(&file, &[due(2, 2880), due(1, 5)]), 3, first);
        writing_gives(&with_dues(&file, &[due(1, 5), due(1, 5)]), 19, second);
        for due_count in [3, 12, 13, 255, 65535] {
            let line = Line {
                due_count,
                ..with_dues(&file, &[due(1, 5), due(2, 5)])
            };
            writing_gives(&line, 3, first - 1);
        }
    }
}

#[test]
fn faults_of_the_other_sections_come_first_in_writing() {
    let mut line = with_dues(&booked_and(""), &[due(3, 2880)]);
    line.due_count = 13;
    line.bookings[1].minute = 2880;
    writing_gives(&line, 3, 13);
    line.bookings[1] = line.bookings[0];
    writing_gives(&line, 19, 13);
    line.booking_count = 121;
    writing_gives(&line, 3, 11);
    line.trains[1].weight = 100;
    writing_gives(&line, 3, 10);
}

/// The longest file: a due for each train too.
fn longest() -> String {
    let dues: String = (1..=12).map(|train| format!("{train} 2879\n")).collect();
    format!("{}12\n{dues}", longest_without_dues())
}

#[test]
fn reading_10_the_longest_file_with_12_dues() {
    let longest = longest();
    assert_eq!((longest.len(), longest.lines().count()), (2585, 172));
    let mut line = line(&longest);
    assert_eq!(line.used_dues().len(), 12);
    let mut lent = [0xA5; FILE_BYTES];
    assert_eq!(rewrite(longest.as_bytes(), &mut lent), Ok(2585));
    assert_eq!(&lent[..2585], longest.as_bytes());
    assert!(lent[2585..].iter().all(|&byte| byte == 0xA5));
    // All 12 are looked at.
    line.dues[11].minute = 2880;
    writing_gives(&line, 3, 172);
    line.dues[11] = line.dues[10];
    writing_gives(&line, 19, 172);
    let over = longest.replacen("\n12\n1 2879", "\n13\n1 2879", 1);
    assert_ne!(over, longest);
    assert_eq!(read(over.as_bytes()), refused(3, 160));
    assert_eq!(read(format!("{longest}12 0\n").as_bytes()), refused(2, 173));
}

#[test]
fn reading_13_too_few_lent_bytes_come_last() {
    let line = with_dues(FILE_A, &[due(1, 30), due(2, 30)]);
    let length = write(&line).unwrap().len();
    for lent_bytes in [0, 1, FILE_A.len(), length - 1] {
        let mut lent = vec![0xA5; lent_bytes];
        assert_eq!(write_into(&line, &mut lent), refused(6, 0));
        assert!(lent.iter().all(|&byte| byte == 0xA5));
    }
    assert_eq!(write_into(&line, &mut vec![0; length]), Ok(length));
    let bad = a_and("0\n2\n1 30\n1 30\n");
    assert_eq!(rewrite(bad.as_bytes(), &mut []), refused(19, 14));
}
