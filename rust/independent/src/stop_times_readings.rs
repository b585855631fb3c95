//! Stop times line by line, and the settled readings of their open points, one by one.

use crate::rules::Minutes;
use crate::stop_times::{export, export_into, import, import_into, read, write, HEADER};
use crate::test_texts::{a_and, line, minutes, refused, with};
use crate::test_texts::{longest_without_dues, FILE_A, ROWS_A, TIMETABLE_A};
use crate::{timetable, Refusal, FILE_BYTES};

/// What is exported of [`TIMETABLE_A`]: train 2 is inbound.
const STOPS_A: &str = "trip_id,arrival_time,departure_time,stop_id,stop_sequence
T1,00:00:00,00:00:00,1,1
T1,00:20:00,00:20:00,2,2
T1,00:40:00,00:40:00,3,3
T2,00:00:00,00:00:00,3,1
T2,00:15:00,00:24:00,2,2
T2,00:39:00,00:39:00,1,3
";

/// Two stations, and a train each way.
const TWO_STATIONS: &str = "2\n1\n1\n1\nS 1 1\n2\n1 2 0 99 1 5\n2 1 0 99 1 5\n";

const NO_TRAINS: &str = "2\n1\n1\n1\nS 1 1\n0\n";

fn exported(file: &str, timetable: &str) -> Result<String, Refusal> {
    let text = export(file.as_bytes(), timetable.as_bytes())?;
    Ok(String::from_utf8(text).expect("a text of ASCII bytes"))
}

fn imported(file: &str, stop_times: &str) -> Result<Minutes, Refusal> {
    import(file.as_bytes(), stop_times.as_bytes())
}

/// What import says of the stop times of file A with one line replaced.
fn a_with(place: usize, replaced: &str) -> Result<Minutes, Refusal> {
    imported(FILE_A, &with(STOPS_A, place, replaced))
}

/// The minutes of file A with these rows.
fn minutes_a(first: [u16; 4], second: [u16; 4]) -> Result<Minutes, Refusal> {
    Ok(minutes(FILE_A, &[&first, &second]))
}

#[test]
fn file_a_there_and_back() {
    assert_eq!(exported(FILE_A, TIMETABLE_A), Ok(STOPS_A.to_string()));
    assert_eq!(imported(FILE_A, STOPS_A), Ok(minutes(FILE_A, &ROWS_A)));
    let mut lent = [b'-'; 40];
    let length = import_into(FILE_A.as_bytes(), STOPS_A.as_bytes(), &mut lent);
    assert_eq!(length, Ok(24));
    assert_eq!(&lent, b"2\n0 20 20 40\n0 15 24 39\n----------------");
}

#[test]
fn reading_39_no_trains_give_the_header_alone() {
    let header = format!("{HEADER}\n");
    assert_eq!(exported(NO_TRAINS, "0\n1\n0\n0\n"), Ok(header.clone()));
    assert_eq!(imported(NO_TRAINS, &header), Ok(Minutes::default()));
    let mut lent = *b"---";
    let length = import_into(NO_TRAINS.as_bytes(), header.as_bytes(), &mut lent);
    assert_eq!((length, &lent), (Ok(2), b"0\n-"));
    assert_eq!(imported(NO_TRAINS, ""), refused(20, 1));
    assert_eq!(imported(NO_TRAINS, HEADER), refused(20, 1));
    for more in ["\n", "x", "T1,00:00:00,00:00:00,1,1\n"] {
        assert_eq!(
            imported(NO_TRAINS, &format!("{header}{more}")),
            refused(20, 2)
        );
    }
}

#[test]
fn trains_of_one_leg() {
    let text =
        format!("{HEADER}\nT1,01:02:00,01:02:00,1,1\nT1,01:07:00,01:07:00,2,2\nT2,02:00:00,02:00:00,2,1\nT2,02:05:00,02:05:00,1,2\n");
    let timetable = "2\n62 67\n120 125\n1\n2 1 2\n9\n";
    assert_eq!(exported(TWO_STATIONS, timetable), Ok(text.clone()));
    let expected = minutes(TWO_STATIONS, &[&[62, 67], &[120, 125]]);
    assert_eq!(imported(TWO_STATIONS, &text), Ok(expected));
    // Both stations are ends of both.
    for place in 2..=5 {
        let fields: Vec<&str> = text.lines().nth(place - 1).unwrap().split(',').collect();
        let late = format!(
            "{},{},02:06:00,{},{}",
            fields[0], fields[1], fields[3], fields[4]
        );
        let text = with(&text, place, &late);
        assert_eq!(imported(TWO_STATIONS, &text), refused(20, place as u32));
    }
}

/// A part of a longer line, both ways, with stations of two digits: stop and sequence are not the same.
#[test]
fn trains_over_a_part_of_the_line() {
    let track = format!("12\n{}11\n{}", "2\n".repeat(12), "S 1 1\n".repeat(11));
    let file = format!("{track}2\n9 12 0 2879 1 5 0 5 0 5\n11 9 0 2879 1 5 0 5\n");
    let rows: [&[u16]; 2] = [&[1, 2, 3, 4, 5, 6], &[1440, 1500, 2000, 2879]];
    let timetable = timetable::write(&line(&file), &minutes(&file, &rows));
    let text = format!(
        "{HEADER}\nT1,00:01:00,00:01:00,9,1\nT1,00:02:00,00:03:00,10,2\nT1,00:04:00,00:05:00,11,3\n\
         T1,00:06:00,00:06:00,12,4\nT2,24:00:00,24:00:00,11,1\nT2,25:00:00,33:20:00,10,2\n\
         T2,47:59:00,47:59:00,9,3\n"
    );
    assert_eq!(
        export(file.as_bytes(), &timetable),
        Ok(text.clone().into_bytes())
    );
    let read = imported(&file, &text).unwrap();
    assert_eq!(read, minutes(&file, &rows));
    assert_eq!(read.rows(&line(&file)), rows);
    // Segments that no train uses have minute 0.
    assert_eq!((read.departures[0], read.arrivals[0]), ([0; 12], [0; 12]));
    assert_eq!(read.departures[8][2..], [0; 10]);
}

#[test]
fn reading_39_the_header() {
    for header in [
        "",
        "x",
        "trip_id",
        "trip_id,arrival_time,departure_time,stop_id,stop_sequenc",
        "trip_id,arrival_time,departure_time,stop_id,stop_sequence,",
        "trip_id,arrival_time,departure_time,stop_id,stop_sequence ",
        "trip_id,arrival_time,departure_time,stop_id,stop_sequence\r",
        " trip_id,arrival_time,departure_time,stop_id,stop_sequence",
        "\u{feff}trip_id,arrival_time,departure_time,stop_id,stop_sequence",
        "\"trip_id\",arrival_time,departure_time,stop_id,stop_sequence",
        "trip_id, arrival_time, departure_time, stop_id, stop_sequence",
        "Trip_id,arrival_time,departure_time,stop_id,stop_sequence",
        "trip_id,departure_time,arrival_time,stop_id,stop_sequence",
        "trip_id,arrival_time,departure_time,stop_sequence,stop_id",
        "trip_id,arrival_time,departure_time,stop_id",
        "T1,00:00:00,00:00:00,1,1",
    ] {
        assert_eq!(a_with(1, header), refused(20, 1), "{header:?}");
    }
    let (_, stops) = STOPS_A.split_once('\n').unwrap();
    assert_eq!(imported(FILE_A, stops), refused(20, 1));
    // Twice: the second is no line of a stop.
    assert_eq!(
        imported(FILE_A, &format!("{HEADER}\n{STOPS_A}")),
        refused(20, 2)
    );
    assert_eq!(imported(FILE_A, &format!("\n{STOPS_A}")), refused(20, 1));
}

#[test]
fn reading_39_times() {
    let no_times = [
        "0:20:00",
        "00:60:00",
        "00:20:30",
        "00:20:01",
        "48:00:00",
        "47:60:00",
        "00:99:00",
        "99:00:00",
        "99:99:00",
        "100:20:00",
        "000:20:00",
        "00:2:00",
        "00:020:00",
        "00:20:0",
        "00:20:000",
        "00:20",
        "00:20:",
        "00:20:60",
        "00:20:99",
        "0020:00",
        "00:2000",
        "002000",
        "00-20-00",
        "00.20.00",
        "00 20 00",
        "20",
        "",
        " 00:20:00",
        "00:20:00 ",
        "0 :20:00",
        "\"00:20:00\"",
        "-0:20:00",
        "+0:20:00",
        "0x:20:00",
        "00:x0:00",
        "00:0x:00",
        "00:20:x0",
        "00:20:0x",
        "00:20:00Z",
        "/0:20:00",
        ":0:20:00",
        "00::0:00",
        "00:2/:00",
        "xx:xx:xx",
    ];
    for time in no_times {
        // Line 3 is a middle station, where two minutes may differ.
        let arrival = a_with(3, &format!("T1,{time},00:20:00,2,2"));
        assert_eq!(arrival, refused(20, 3), "{time:?}");
        let departure = a_with(3, &format!("T1,00:20:00,{time},2,2"));
        assert_eq!(departure, refused(20, 3), "{time:?}");
        let both = a_with(7, &format!("T2,{time},{time},1,3"));
        assert_eq!(both, refused(20, 7), "{time:?}");
    }
    let times = [
        ("00:00:00", 0),
        ("00:59:00", 59),
        ("01:00:00", 60),
        ("09:59:00", 599),
        ("10:00:00", 600),
        ("19:09:00", 1149),
        ("23:59:00", 1439),
        ("24:00:00", 1440),
        ("47:58:00", 2878),
        ("47:59:00", 2879),
    ];
    for (time, minute) in times {
        assert_eq!(
            a_with(3, &format!("T1,{time},00:20:00,2,2")),
            minutes_a([0, minute, 20, 40], [0, 15, 24, 39])
        );
        assert_eq!(
            a_with(7, &format!("T2,{time},{time},1,3")),
            minutes_a([0, 20, 20, 40], [0, 15, 24, minute])
        );
        let timetable = TIMETABLE_A.replace("24 39", &format!("24 {minute}"));
        let text = exported(FILE_A, &timetable).unwrap();
        assert_eq!(text, with(STOPS_A, 7, &format!("T2,{time},{time},1,3")));
    }
}

#[test]
fn reading_39_trip_stop_and_sequence() {
    let no_numbers = [
        "",
        "01",
        "00",
        "001",
        "0000",
        "10000",
        "99999",
        "65538",
        "4294967298",
        "-1",
        "+2",
        " 2",
        "2 ",
        "2.0",
        "2x",
        "x",
        "\"2\"",
        "\u{ff12}",
        "\t2",
        "2\r",
        "2\0",
    ];
    for number in no_numbers {
        let lines = [
            format!("T{number},00:20:00,00:20:00,2,2"),
            format!("T1,00:20:00,00:20:00,{number},2"),
            format!("T1,00:20:00,00:20:00,2,{number}"),
        ];
        for replaced in lines {
            assert_eq!(a_with(3, &replaced), refused(20, 3), "{replaced:?}");
        }
    }
    for trip in [
        "t1", "1", "TT1", "T 1", "\"T1\"", " T1", "T1 ", "X1", "T-1", "T1T",
    ] {
        let replaced = format!("{trip},00:20:00,00:20:00,2,2");
        assert_eq!(a_with(3, &replaced), refused(20, 3), "{replaced:?}");
    }
    // Of the form, and not next.
    for number in [0, 3, 9, 10, 12, 13, 99, 100, 255, 256, 258, 1000, 9999] {
        let lines = [
            format!("T{number},00:20:00,00:20:00,2,2"),
            format!("T1,00:20:00,00:20:00,{number},2"),
            format!("T1,00:20:00,00:20:00,2,{number}"),
        ];
        for replaced in lines {
            assert_eq!(a_with(3, &replaced), refused(21, 3), "{replaced:?}");
        }
    }
}

#[test]
fn reading_39_commas_spaces_and_line_ends() {
    let lines = [
        "",
        ",",
        ",,,,",
        "T1,00:20:00,00:20:00,2",
        "T1,00:20:00,00:20:00,2,",
        "T1,00:20:00,00:20:00,2,2,",
        "T1,00:20:00,00:20:00,2,2,0",
        ",T1,00:20:00,00:20:00,2,2",
        "T1,,00:20:00,00:20:00,2,2",
        "T1,00:20:00,2,2",
        "T1,,,2,2",
        "T1,00:20:00,00:20:00,,2,2",
        "T1, 00:20:00,00:20:00,2,2",
        "T1;00:20:00;00:20:00;2;2",
        "T1 00:20:00 00:20:00 2 2",
        "T1\t00:20:00\t00:20:00\t2\t2",
        "T1,00:20:00,00:20:00,2,2 ",
        "T1,00:20:00,00:20:00,2,2\r",
        " T1,00:20:00,00:20:00,2,2",
        "T1,00:20:00,00:20:00,2 2",
        "T1,00:20:00,00:20:00,2,2\0",
        "00:20:00,00:20:00,T1,2,2",
    ];
    for replaced in lines {
        assert_eq!(a_with(3, replaced), refused(20, 3), "{replaced:?}");
    }
    // Every line so: the first counts.
    let all = STOPS_A.replace('\n', "\r\n");
    assert_eq!(imported(FILE_A, &all), refused(20, 1));
    let all = STOPS_A.replace('\n', "\r");
    assert_eq!(imported(FILE_A, &all), refused(20, 1));
    // A line in two, and two in one.
    let parted = STOPS_A.replace("T1,00:20:00,", "T1,00:20:00\n");
    assert_eq!(imported(FILE_A, &parted), refused(20, 3));
    let joined = STOPS_A.replace("1,1\nT1", "1,1T1");
    assert_eq!(imported(FILE_A, &joined), refused(20, 2));
}

#[test]
fn reading_40_a_minute_repeated_where_the_path_ends() {
    // Origins and destinations, of an outbound train and of an inbound one.
    for (place, unequal) in [
        (2, "T1,00:00:00,00:01:00,1,1"),
        (2, "T1,00:01:00,00:00:00,1,1"),
        (4, "T1,00:40:00,00:41:00,3,3"),
        (5, "T2,00:00:00,00:01:00,3,1"),
        (7, "T2,00:39:00,00:38:00,1,3"),
        (7, "T2,00:00:00,47:59:00,1,3"),
    ] {
        assert_eq!(a_with(place, unequal), refused(20, place as u32));
    }
    // An end by the path, a middle station by the number written: 20, also with a wrong trip or sequence.
    assert_eq!(a_with(4, "T1,00:40:00,00:41:00,2,3"), refused(20, 4));
    assert_eq!(a_with(4, "T1,00:40:00,00:41:00,2,2"), refused(20, 4));
    assert_eq!(a_with(4, "T2,00:40:00,00:41:00,2,2"), refused(20, 4));
    assert_eq!(a_with(2, "T9,00:40:00,00:41:00,2,2"), refused(20, 2));
    assert_eq!(a_with(4, "T1,00:40:00,00:40:00,2,3"), refused(21, 4));
    // A middle station by the path, an end by the number written: 21.
    assert_eq!(a_with(3, "T1,00:20:00,00:30:00,1,2"), refused(21, 3));
    assert_eq!(a_with(3, "T1,00:20:00,00:30:00,3,2"), refused(21, 3));
    assert_eq!(a_with(3, "T1,00:20:00,00:30:00,3,3"), refused(21, 3));
    assert_eq!(a_with(3, "T1,00:20:00,00:30:00,1,1"), refused(21, 3));
    assert_eq!(a_with(6, "T2,00:20:00,00:30:00,3,1"), refused(21, 6));
    // Repeated, it may be any minute.
    assert_eq!(
        a_with(2, "T1,47:59:00,47:59:00,1,1"),
        minutes_a([2879, 20, 20, 40], [0, 15, 24, 39])
    );
}

#[test]
fn reading_41_any_two_minutes_at_a_middle_station() {
    let middle = [
        ("T2,00:15:00,00:14:00,2,2", 15, 14),
        ("T2,47:59:00,00:00:00,2,2", 2879, 0),
        ("T2,00:00:00,47:59:00,2,2", 0, 2879),
        ("T2,24:00:00,23:59:00,2,2", 1440, 1439),
    ];
    for (replaced, arrival, departure) in middle {
        assert_eq!(
            a_with(6, replaced),
            minutes_a([0, 20, 20, 40], [0, arrival, departure, 39])
        );
        let rows = format!("0 {arrival} {departure} 39");
        let timetable = TIMETABLE_A.replace("0 15 24 39", &rows);
        assert_eq!(exported(FILE_A, &timetable), Ok(with(STOPS_A, 6, replaced)));
    }
}

#[test]
fn number_21_not_next() {
    // Stops exchanged, a train exchanged with the other, a stop left out, a stop twice.
    let lines: Vec<&str> = STOPS_A.lines().collect();
    let of = |places: &[usize]| {
        let chosen = places
            .iter()
            .map(|&place| format!("{}\n", lines[place - 1]));
        imported(FILE_A, &chosen.collect::<String>())
    };
    assert_eq!(of(&[1, 3, 2, 4, 5, 6, 7]), refused(21, 2));
    assert_eq!(of(&[1, 2, 4, 3, 5, 6, 7]), refused(21, 3));
    assert_eq!(of(&[1, 5, 6, 7, 2, 3, 4]), refused(21, 2));
    assert_eq!(of(&[1, 2, 3, 4, 7, 6, 5]), refused(21, 5));
    assert_eq!(of(&[1, 2, 4, 5, 6, 7]), refused(21, 3));
    assert_eq!(of(&[1, 2, 3, 5, 6, 7]), refused(21, 4));
    assert_eq!(of(&[1, 3, 4, 5, 6, 7]), refused(21, 2));
    assert_eq!(of(&[1, 2, 2, 3, 4, 5, 6, 7]), refused(21, 3));
    assert_eq!(of(&[1, 2, 3, 4, 4, 5, 6, 7]), refused(21, 5));
    // Line 6 has two minutes, and a train's origin is due there.
    assert_eq!(of(&[1, 2, 3, 4, 6, 5, 7]), refused(20, 5));
    // The stop of an inbound train is the lower station; the trips follow the trains.
    assert_eq!(a_with(5, "T2,00:00:00,00:00:00,1,1"), refused(21, 5));
    assert_eq!(a_with(5, "T1,00:00:00,00:00:00,3,1"), refused(21, 5));
    assert_eq!(a_with(5, "T3,00:00:00,00:00:00,3,1"), refused(21, 5));
    // The sequence begins with 1 for each trip.
    assert_eq!(a_with(2, "T1,00:00:00,00:00:00,1,0"), refused(21, 2));
    assert_eq!(a_with(5, "T2,00:00:00,00:00:00,3,4"), refused(21, 5));
    assert_eq!(a_with(5, "T2,00:00:00,00:00:00,3,0"), refused(21, 5));
}

#[test]
fn reading_43_20_before_21_on_one_line() {
    for (replaced, number) in [
        ("T2,00:20:00,00:20:00,2,2", 21),
        ("T2,0:20:00,00:20:00,2,2", 20),
        ("T2,00:20:00,48:00:00,2,2", 20),
        ("T1,00:20:00,00:20:01,9,2", 20),
        ("T0,00:20:00,00:20:00,0,0", 21),
        ("T0,00:20:00,00:20:00,0,00", 20),
        ("T9,00:20:00,00:20:00,9,", 20),
        ("T9,00:20:00,00:20:00,9,9,", 20),
        ("T9,00:20:00,00:20:00,9,9\r", 20),
        ("T9", 20),
    ] {
        assert_eq!(a_with(3, replaced), refused(number, 3), "{replaced:?}");
    }
    // An early end on a line that is not next.
    let cut = format!("{HEADER}\nT2,00:00:00,00:00:00,1,1");
    assert_eq!(imported(FILE_A, &cut), refused(20, 2));
    assert_eq!(imported(FILE_A, &format!("{cut}\n")), refused(21, 2));
}

#[test]
fn reading_43_the_first_bad_line_counts() {
    let bad_21 = with(STOPS_A, 3, "T1,00:20:00,00:20:00,3,2");
    assert_eq!(imported(FILE_A, &bad_21), refused(21, 3));
    assert_eq!(imported(FILE_A, &with(&bad_21, 4, "x")), refused(21, 3));
    assert_eq!(imported(FILE_A, &with(&bad_21, 2, "x")), refused(20, 2));
    assert_eq!(imported(FILE_A, &with(&bad_21, 1, "x")), refused(20, 1));
    let bad_20 = with(STOPS_A, 3, "T1,00:20:00,0:20:00,2,2");
    let other_21 = with(&bad_20, 2, "T1,00:00:00,00:00:00,2,1");
    assert_eq!(imported(FILE_A, &other_21), refused(21, 2));
    // Bytes after the end come last.
    let last = with(STOPS_A, 7, "T2,00:39:00,00:39:00,1,4") + "x";
    assert_eq!(imported(FILE_A, &last), refused(21, 7));
}

#[test]
fn reading_43_early_ends_at_every_byte() {
    for end in 0..STOPS_A.len() {
        // Past a line feed it is the next line.
        let place = 1 + STOPS_A[..end].matches('\n').count() as u32;
        assert_eq!(imported(FILE_A, &STOPS_A[..end]), refused(20, place));
    }
    // The last line feed is due too.
    let end = STOPS_A.len() - 1;
    assert_eq!(imported(FILE_A, &STOPS_A[..end]), refused(20, 7));
}

#[test]
fn reading_43_bytes_after_the_end() {
    for more in [
        "\n",
        "x",
        "\0",
        " ",
        "T2,00:39:00,00:39:00,1,3\n",
        "T3,00:00:00,00:00:00,1,1\n",
        "T1,00:00:00,00:00:00,1,1",
        "\n\n\n",
    ] {
        let text = format!("{STOPS_A}{more}");
        assert_eq!(imported(FILE_A, &text), refused(20, 8), "{more:?}");
    }
    assert_eq!(
        imported(FILE_A, &format!("{STOPS_A}{STOPS_A}")),
        refused(20, 8)
    );
}

/// There is no number for the length.
#[test]
fn reading_43_long_texts() {
    for length in [FILE_BYTES, FILE_BYTES + 1, 65_536, 65_536 + STOPS_A.len()] {
        let mut text = STOPS_A.as_bytes().to_vec();
        text.resize(length, b'\n');
        assert_eq!(import(FILE_A.as_bytes(), &text), refused(20, 8));
        for byte in [0, b'\n', b'T', b','] {
            let text = vec![byte; length];
            assert_eq!(import(FILE_A.as_bytes(), &text), refused(20, 1));
        }
        let mut text = format!("{HEADER}\nT1,").into_bytes();
        text.resize(length, b'0');
        assert_eq!(import(FILE_A.as_bytes(), &text), refused(20, 2));
    }
    // The last line that a text can have is 145.
    let longest = longest();
    let more = [&longest.1[..], b"\n"].concat();
    assert_eq!(import(longest.0.as_bytes(), &more), refused(20, 146));
}

/// A file of 12 trains over 12 stations, and the longest stop times of it.
fn longest() -> (String, Vec<u8>) {
    let file = longest_without_dues();
    let rows = vec![vec![2879; 22]; 12];
    let minutes = Minutes::of_rows(&line(&file), &rows);
    let text = write(&line(&file), &minutes);
    assert_eq!(read(&line(&file), &text), Ok(minutes));
    (file, text)
}

#[test]
fn reading_39_the_longest_text() {
    let (file, text) = longest();
    assert_eq!(text.len(), 3766);
    assert_eq!(text.iter().filter(|&&byte| byte == b'\n').count(), 145);
    assert!(text.ends_with(b"T12,47:59:00,47:59:00,1,12\n"));
    let timetable = timetable::write(&line(&file), &import(file.as_bytes(), &text).unwrap());
    assert_eq!(export(file.as_bytes(), &timetable), Ok(text.clone()));
    let mut lent = [b'-'; FILE_BYTES];
    let length = import_into(file.as_bytes(), &text, &mut lent).unwrap();
    assert_eq!(length, 3 + 12 * 110);
    assert_eq!(lent[..length], timetable[..length]);
}

#[test]
fn the_line_files_own_faults_come_first() {
    let faults = [
        ("x".to_string(), 2, 1),
        (FILE_A.replace("S 5 4", "S 61 4"), 3, 6),
        (FILE_A.replace("3 1 0", "3 3 0"), 4, 10),
        (a_and("1\n1 3 30\n"), 19, 12),
        (a_and("0\n2\n2 10\n1 10\n"), 19, 14),
        ("1".repeat(FILE_BYTES + 1), 1, 0),
    ];
    for (file, number, place) in faults {
        for text in ["", "x", STOPS_A, TIMETABLE_A, &"x".repeat(FILE_BYTES + 1)] {
            assert_eq!(exported(&file, text), refused(number, place));
            assert_eq!(imported(&file, text), refused(number, place));
            let (file, text) = (file.as_bytes(), text.as_bytes());
            assert_eq!(export_into(file, text, &mut []), refused(number, place));
            assert_eq!(import_into(file, text, &mut []), refused(number, place));
        }
    }
}

/// Bookings and due minutes do not show in stop times.
#[test]
fn later_sections_of_the_line_file() {
    for sections in ["1\n1 2 30\n", "0\n1\n2 5\n", "2\n1 2 9\n2 2 2879\n1\n1 0\n"] {
        let file = a_and(sections);
        assert_eq!(exported(&file, TIMETABLE_A), Ok(STOPS_A.to_string()));
        assert_eq!(imported(&file, STOPS_A), Ok(minutes(FILE_A, &ROWS_A)));
    }
}

#[test]
fn reading_42_the_whole_timetable_is_read_and_not_judged() {
    // Form and range, up to the total and past it.
    let a_exported_with = |place, replaced| exported(FILE_A, &with(TIMETABLE_A, place, replaced));
    assert_eq!(exported(FILE_A, ""), refused(8, 1));
    assert_eq!(a_exported_with(1, "3"), refused(9, 1));
    assert_eq!(a_exported_with(2, "0 20 20 2880"), refused(9, 2));
    assert_eq!(a_exported_with(3, "0 15 24"), refused(8, 3));
    assert_eq!(a_exported_with(4, "3"), refused(9, 4));
    assert_eq!(a_exported_with(5, "3 1 2 1"), refused(9, 5));
    assert_eq!(a_exported_with(6, "2 2 3"), refused(9, 6));
    assert_eq!(a_exported_with(6, "2 2 0"), refused(9, 6));
    assert_eq!(a_exported_with(6, "2 2"), refused(8, 6));
    assert_eq!(a_exported_with(7, "12345678"), refused(8, 7));
    assert_eq!(a_exported_with(7, ""), refused(8, 7));
    assert_eq!(exported(FILE_A, &format!("{TIMETABLE_A}\n")), refused(8, 8));
    let lines_alone = "2\n0 20 20 40\n0 15 24 39\n";
    assert_eq!(exported(FILE_A, lines_alone), refused(8, 4));
    let long = "x".repeat(FILE_BYTES + 1);
    assert_eq!(exported(FILE_A, &long), refused(7, 0));
    assert_eq!(exported(FILE_A, &long[1..]), refused(8, 1));
    // Wrong lists and a wrong total, which the check refuses by 16 and 17.
    for (place, replaced) in [
        (5, "2 2 1"),
        (5, "0"),
        (5, "2 1 1"),
        (6, "1 2"),
        (7, "0"),
        (7, "9999999"),
    ] {
        assert_eq!(a_exported_with(place, replaced), Ok(STOPS_A.to_string()));
    }
    // Rules 10 to 15 broken: before its earliest, too short, too late, both at once.
    let any = "2\n2879 0 2879 0\n7 7 7 7\n2\n0\n0\n5\n";
    let text = exported(FILE_A, any).unwrap();
    assert_eq!(
        imported(FILE_A, &text),
        minutes_a([2879, 0, 2879, 0], [7, 7, 7, 7])
    );
    assert_eq!(text.lines().nth(2), Some("T1,00:00:00,47:59:00,2,2"));
}

#[test]
fn number_6_comes_last() {
    let (file, timetable) = (FILE_A.as_bytes(), TIMETABLE_A.as_bytes());
    let minutes_text = b"2\n0 20 20 40\n0 15 24 39\n";
    for (text, import) in [(STOPS_A.as_bytes(), false), (&minutes_text[..], true)] {
        let write = |lent: &mut [u8]| match import {
            true => import_into(file, STOPS_A.as_bytes(), lent),
            false => export_into(file, timetable, lent),
        };
        for few in [0, 1, text.len() - 1] {
            let mut lent = vec![0xA5; few];
            assert_eq!(write(&mut lent), refused(6, 0));
            assert!(lent.iter().all(|&byte| byte == 0xA5));
        }
        for more in [0, 1, 200] {
            let mut lent = vec![0xA5; text.len() + more];
            assert_eq!(write(&mut lent), Ok(text.len()));
            assert_eq!(&lent[..text.len()], text);
            assert!(lent[text.len()..].iter().all(|&byte| byte == 0xA5));
        }
    }
    assert_eq!(export_into(file, b"2\n0", &mut []), refused(8, 2));
    let not_next = with(STOPS_A, 7, "T2,00:39:00,00:39:00,1,2");
    assert_eq!(
        import_into(file, not_next.as_bytes(), &mut []),
        refused(21, 7)
    );
    let after = format!("{STOPS_A}\n");
    assert_eq!(import_into(file, after.as_bytes(), &mut []), refused(20, 8));
}

/// Every minute of the day there and back, at a middle station and at an end.
#[test]
fn every_minute() {
    let line = line(FILE_A);
    for minute in 0..2880 {
        let rows = [vec![minute, 1, 2, 3], vec![4, minute, 2879 - minute, 5]];
        let minutes = Minutes::of_rows(&line, &rows);
        let text = write(&line, &minutes);
        let time = format!("{:02}:{:02}:00", minute / 60, minute % 60);
        let first = format!("T1,{time},{time},1,1");
        let text_lines = String::from_utf8(text.clone()).unwrap();
        assert_eq!(text_lines.lines().nth(1), Some(&first[..]));
        assert_eq!(read(&line, &text), Ok(minutes));
    }
}
