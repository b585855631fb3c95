//! The examples of the scope document and the settled readings of its open points, one by one.

use crate::test_texts::{refused, with, writing_gives};
use crate::{read, rewrite, write, write_into, Kind, Line, Refusal, Segment, FILE_BYTES};

const FILE_A: &str = include_str!("../../../samples/a.line");

fn of(text: &str) -> Result<Line, Refusal> {
    read(text.as_bytes())
}

fn line_a() -> Line {
    of(FILE_A).expect("file A is a line file")
}

/// File A with its line `place` (from 1) replaced.
fn a_with(place: usize, replaced: &str) -> String {
    with(FILE_A, place, replaced)
}

#[test]
fn file_a_is_read() {
    let line = line_a();
    assert_eq!(line.station_count, 3);
    assert_eq!(line.tracks[..4], [2, 2, 2, 0]);
    let segment = Segment {
        kind: Kind::S,
        following: 5,
        opposing: 4,
    };
    assert_eq!(line.segments[..3], [segment, segment, Segment::default()]);
    assert_eq!(line.train_count, 2);
    let [first, second, third, ..] = line.trains;
    assert_eq!((first.origin, first.destination), (1, 3));
    assert_eq!((first.earliest, first.latest, first.weight), (0, 200, 1));
    assert_eq!(
        (first.runs[..3].to_vec(), first.stops[0]),
        (vec![20, 20, 0], 0)
    );
    assert_eq!((second.origin, second.destination), (3, 1));
    assert_eq!((second.earliest, second.latest, second.weight), (0, 200, 2));
    assert_eq!(
        (second.runs[..3].to_vec(), second.stops[0]),
        (vec![15, 15, 0], 0)
    );
    assert_eq!(third, Default::default());
}

#[test]
fn file_a_is_written_again() {
    assert_eq!(write(&line_a()), Ok(FILE_A.as_bytes().to_vec()));
}

#[test]
fn e13_first_line() {
    assert_eq!(of(""), refused(2, 1));
    for rest in ["\n", "\n2\n2\n"] {
        assert_eq!(of(&format!("01{rest}")), refused(2, 1));
        assert_eq!(of(&format!("13{rest}")), refused(3, 1));
    }
    assert_eq!(of(&a_with(1, "01")), refused(2, 1));
    assert_eq!(of(&a_with(1, "13")), refused(3, 1));
}

#[test]
fn e14_length() {
    for byte in [0, b'1', b'\n'] {
        assert_eq!(read(&[byte; FILE_BYTES + 1]), refused(1, 0));
        assert_eq!(read(&[byte; FILE_BYTES]), refused(2, 1));
    }
    let mut long = FILE_A.as_bytes().to_vec();
    long.resize(FILE_BYTES, b'\n');
    assert_eq!(read(&long), refused(2, 11));
    long.push(b'\n');
    assert_eq!(read(&long), refused(1, 0));
}

#[test]
fn reading_1_place_of_a_fault_at_and_past_a_line_feed() {
    assert_eq!(of("3\n2\n2\n2\n2\nS 5\n"), refused(2, 6));
    assert_eq!(of("2\n2\n2\n1\nS 5\n"), refused(2, 5));
    assert_eq!(of("3\n"), refused(2, 2));
    assert_eq!(of("3\n\n"), refused(2, 2));
    assert_eq!(of(&format!("{FILE_A}\n")), refused(2, 11));
    assert_eq!(of(&format!("{FILE_A}x\n")), refused(2, 11));
    assert_eq!(of(FILE_A.trim_end()), refused(2, 10));
    assert_eq!(of(&FILE_A[..FILE_A.len() - 20]), refused(2, 10));
}

#[test]
fn reading_2_range_fault_at_the_end_of_a_line() {
    assert_eq!(of(&a_with(2, "13")), refused(3, 2));
    assert_eq!(of(&a_with(6, "S 5 61")), refused(3, 6));
    assert_eq!(of(&a_with(10, "3 1 0 200 2 15 0 241")), refused(3, 10));
}

#[test]
fn reading_3_range_after_the_byte_after() {
    assert_eq!(of("13"), refused(2, 1));
    assert_eq!(of("13\n"), refused(3, 1));
    assert_eq!(of("13 \n"), refused(2, 1));
    assert_eq!(of(&a_with(6, "S 61 4x")), refused(3, 6));
    assert_eq!(of(&a_with(6, "S 61x4")), refused(2, 6));
}

#[test]
fn reading_4_five_digits() {
    for long in [
        "12345",
        "99999",
        "65538",
        "00000",
        "123456789012345678901234567890",
    ] {
        assert_eq!(of(&a_with(1, long)), refused(2, 1));
        assert_eq!(
            of(&a_with(9, &format!("1 3 {long} 200 1 20 0 20"))),
            refused(2, 9)
        );
    }
    assert_eq!(of(&a_with(9, "1 3 9999 200 1 20 0 20")), refused(3, 9));
}

#[test]
fn reading_5_opposing_gap_on_d() {
    assert_eq!(of(&a_with(6, "D 5 61")), refused(3, 6));
    assert_eq!(of(&a_with(6, "D 5 0")), refused(3, 6));
    assert_eq!(of(&a_with(6, "D 5")), refused(2, 6));
    let text = a_with(6, "D 5 60");
    let line = of(&text).unwrap();
    assert_eq!(line.segments[0].opposing, 60);
    assert_eq!(write(&line), Ok(text.into_bytes()));
}

#[test]
fn reading_6_segment_count() {
    for other in ["0", "1", "3", "9999"] {
        assert_eq!(of(&a_with(5, other)), refused(3, 5));
    }
    assert_eq!(of(&a_with(5, "02")), refused(2, 5));
    assert_eq!(of("2\n1\n1\n2\n"), refused(3, 4));
}

#[test]
fn reading_7_kind() {
    for wrong in [
        "SS 5 4", "s 5 4", "X 5 4", " 5 4", "5 4", "S5 4", "", "0 5 4",
    ] {
        assert_eq!(of(&a_with(7, wrong)), refused(2, 7));
    }
    for (letter, kind) in [("S", Kind::S), ("F", Kind::F), ("D", Kind::D)] {
        let line = of(&a_with(7, &format!("{letter} 5 4"))).unwrap();
        assert_eq!(line.segments[1].kind, kind);
    }
}

#[test]
fn reading_8_destination() {
    assert_eq!(of(&a_with(9, "1 1 0 3000 1 20 0 20")), refused(4, 9));
    assert_eq!(of(&a_with(9, "1 1 x")), refused(4, 9));
    assert_eq!(of(&a_with(9, "1 1")), refused(2, 9));
    assert_eq!(of(&a_with(9, "1 01 0 200 1 20 0 20")), refused(2, 9));
    assert_eq!(of(&a_with(9, "4 4 0 200 1 20 0 20")), refused(3, 9));
    assert_eq!(of(&a_with(9, "1 4 0 200 1 20 0 20")), refused(3, 9));
    assert_eq!(of(&a_with(9, "0 1 0 200 1 20 0 20")), refused(3, 9));
}

#[test]
fn reading_9_earliest_later_than_latest() {
    let text = a_with(9, "1 3 2879 0 1 20 0 20");
    let line = of(&text).unwrap();
    assert_eq!((line.trains[0].earliest, line.trains[0].latest), (2879, 0));
    assert_eq!(write(&line), Ok(text.into_bytes()));
}

#[test]
fn reading_10_every_line_within_the_limits() {
    let train = format!("1 12 2879 2879 99 {}240\n", "240 240 ".repeat(10));
    let longest = format!(
        "12\n{}11\n{}12\n{}",
        "12\n".repeat(12),
        "S 60 60\n".repeat(11),
        train.repeat(12)
    );
    assert_eq!(longest.len(), 1357);
    assert_eq!(write(&of(&longest).unwrap()), Ok(longest.into_bytes()));
    let shortest = "2\n1\n1\n1\nS 1 1\n0\n";
    assert_eq!(write(&of(shortest).unwrap()), Ok(shortest.into()));
}

#[test]
fn reading_11_the_same_line() {
    // What is beyond a count is not written.
    let mut line = line_a();
    line.tracks[3] = 7;
    line.segments[2].following = 99;
    line.trains[0].runs[2] = 5000;
    line.trains[0].stops[1] = 5000;
    line.trains[2].origin = 5000;
    assert_eq!(write(&line), Ok(FILE_A.into()));
    // What was read has 0 and S there.
    assert_ne!(line, line_a());
    assert_eq!(read(&write(&line).unwrap()), Ok(line_a()));
}

#[test]
fn reading_12_writing_a_bad_record_stations_and_segments() {
    for (station_count, place) in [(0, 1), (1, 1), (13, 1), (65535, 1)] {
        let line = Line {
            station_count,
            train_count: 13,
            ..line_a()
        };
        writing_gives(&line, 3, place);
    }
    let mut line = line_a();
    line.train_count = 65535;
    writing_gives(&line, 3, 8);
    line.segments[1].opposing = 61;
    writing_gives(&line, 3, 7);
    line.segments[0].following = 0;
    writing_gives(&line, 3, 6);
    line.tracks[2] = 13;
    writing_gives(&line, 3, 4);
    line.tracks[0] = 0;
    writing_gives(&line, 3, 2);
}

#[test]
fn reading_12_writing_a_bad_record_trains() {
    let mut line = line_a();
    line.trains[1].stops[0] = 241;
    writing_gives(&line, 3, 10);
    line.trains[0].runs[1] = 0;
    writing_gives(&line, 3, 9);
    line.trains[0] = line_a().trains[0];
    line.trains[0].weight = 100;
    writing_gives(&line, 3, 9);
    line.trains[0].destination = 1;
    line.trains[0].earliest = 2880;
    writing_gives(&line, 4, 9);
    line.trains[0].destination = 4;
    line.trains[0].origin = 4;
    writing_gives(&line, 3, 9);
    let mut late = line_a();
    late.trains[1].latest = 2880;
    writing_gives(&late, 3, 10);
}

#[test]
fn reading_13_too_few_lent_bytes_come_last() {
    let length = FILE_A.len();
    for lent_bytes in [0, 1, length - 1] {
        let mut lent = vec![0xA5; lent_bytes];
        let too_few = Err(Refusal {
            number: 6,
            place: 0,
        });
        assert_eq!(write_into(&line_a(), &mut lent), too_few);
        assert_eq!(rewrite(FILE_A.as_bytes(), &mut lent), too_few);
        assert!(lent.iter().all(|&byte| byte == 0xA5));
    }
    let bad = a_with(9, "1 1 0 200 1 20 0 20");
    let same = Err(Refusal {
        number: 4,
        place: 9,
    });
    assert_eq!(rewrite(bad.as_bytes(), &mut []), same);
}

#[test]
fn reading_14_success_is_the_length_and_the_rest_stays() {
    let length = FILE_A.len();
    for lent_bytes in [length, length + 1, FILE_BYTES] {
        let mut lent = vec![0xA5; lent_bytes];
        assert_eq!(rewrite(FILE_A.as_bytes(), &mut lent), Ok(length));
        assert_eq!(&lent[..length], FILE_A.as_bytes());
        assert!(lent[length..].iter().all(|&byte| byte == 0xA5));
    }
}

#[test]
fn reading_15_length_is_looked_at_before_any_byte() {
    assert_eq!(read(&[b'x'; FILE_BYTES + 1]), refused(1, 0));
    assert_eq!(read(&[b'x'; 3 * FILE_BYTES]), refused(1, 0));
}
