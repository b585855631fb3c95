//! What explanations say in words: hints for the mistakes that people make, what was found, and each rule
//! that a timetable breaks.

mod refused;

use gaugeviolet::{check, import, read, Explanation};
use refused::{explained, FILE, STOP_TIMES, TIMETABLE};

/// Holds that an explanation gives exactly these hints, each told by some of its words.
fn hold_hints(explanation: &Explanation, hints: &[&str]) {
    let told = &explanation.hints;
    let right = told
        .iter()
        .zip(hints)
        .all(|(told, hint)| told.contains(hint));
    assert!(
        right && told.len() == hints.len(),
        "{told:?}, not {hints:?}"
    );
}

/// The file with something else in it, which is then refused with these hints.
fn hinted(from: &str, to: &str, hints: &[&str]) {
    hinted_bytes(FILE.replacen(from, to, 1).as_bytes(), hints);
}

fn hinted_bytes(file: &[u8], hints: &[&str]) {
    let refusal = read(file).expect_err("a mistake");
    hold_hints(&explained(refusal, file, None), hints);
}

/// The same for the timetable.
fn hinted_in_timetable(from: &str, to: &str, hints: &[&str]) {
    let timetable = TIMETABLE.replacen(from, to, 1);
    let refusal = check(FILE.as_bytes(), timetable.as_bytes()).expect_err(to);
    let explanation = explained(refusal, FILE.as_bytes(), Some(timetable.as_bytes()));
    hold_hints(&explanation, hints);
}

/// The same for the stop times.
fn hinted_in_stop_times(from: &str, to: &str, hints: &[&str]) {
    let text = STOP_TIMES.replacen(from, to, 1);
    hold_hints(&stop_times_explained(text.as_bytes()), hints);
}

fn stop_times_explained(text: &[u8]) -> Explanation {
    let refusal = import(FILE.as_bytes(), text, &mut []).expect_err("a mistake");
    explained(refusal, FILE.as_bytes(), Some(text))
}

#[test]
fn how_people_save() {
    let segments = "line 1 says 3 stations, so line 5 is the number of segments";
    hinted("3\n", "3\r\n", &["CR LF"]);
    hinted("S 5 4\n", "S 5 4\r\n", &["CR LF"]);
    hinted("2\n2\nS", "2\n2\r\nS", &["CR LF", segments]);
    hinted_bytes(
        FILE.replace('\n', "\r").as_bytes(),
        &["carriage returns alone"],
    );
    hinted("3\n", "\u{feff}3\n", &["byte-order mark"]);
    let wide = |first: &[u8], order: fn(u16) -> [u8; 2]| {
        let bytes = FILE.encode_utf16().flat_map(order);
        first.iter().copied().chain(bytes).collect::<Vec<u8>>()
    };
    hinted_bytes(&wide(b"\xff\xfe", u16::to_le_bytes), &["UTF-16"]);
    hinted_bytes(&wide(b"\xfe\xff", u16::to_be_bytes), &["UTF-16"]);
    hinted_bytes(&wide(b"", u16::to_le_bytes), &["UTF-16"]);
    hinted_bytes(&wide(b"", u16::to_be_bytes), &["UTF-16"]);
    hinted_bytes(&[0; 100], &["cannot be printed"]);
    hinted_bytes(b"", &["the file is empty"]);
    hinted_bytes(b"refused 5 0\n", &["a refusal"]);
    hinted("15 0 15\n", "15 0 15", &["press Enter"]);
    hinted("15 0 15\n", "15 0 15\r", &["cannot be printed"]);
    let end = "line 8 says 2 trains, so the file ends after line 10";
    hinted("15 0 15\n", "15 0 15\n\n", &["blank line at the end", end]);
    hinted(
        "15 0 15\n",
        "15 0 15\n \r\n",
        &["blank line at the end", end],
    );
    hinted("20 0 20\n", "20 0 20\n\n", &["the line is empty"]);
}

#[test]
fn what_people_type_between_fields() {
    hinted("1 3 0", "1\t3 0", &["there is a tab; fields"]);
    hinted("S 5 4\n", "S 5 4\t\n", &["a tab at the end of the line"]);
    hinted("5 4\nD", "5  4\nD", &["two spaces"]);
    hinted("S 5 4", "S 5 4 ", &["space at the end"]);
    hinted("S 5 4\n", "S 5 4 \r\n", &["space at the end"]);
    hinted("15 0 15", "15 0 15  ", &["space at the end"]);
    hinted("200 1 20", " 200 1 20", &["two spaces"]);
    let segment = "line 1 says 3 stations, so line 6 is segment 1";
    hinted("S 5 4", " S 5 4", &["space at the beginning", segment]);
    hinted("3 0 200", "3 0,200", &["there is a comma"]);
    hinted("3 0 200", "3 0 1,200", &["there is a comma"]);
    hinted("3 0 200", "3 0; 200", &["there is a semicolon"]);
    hinted("3 0 200", "3 0\t200", &["there is a tab; fields"]);
    hinted("20 0 20", "20\u{a0}0 20", &["not ASCII"]);
    hinted("20 0 20", "2\u{0}0 0 20", &["cannot be printed"]);
    hinted("20 0 20", "20\u{b}0 20", &["cannot be printed"]);
}

#[test]
fn times_as_people_type_them() {
    let midnight = "times are minutes from midnight; ";
    for (typed, meant) in [
        ("6:00", 360),
        ("06:30", 390),
        ("6.30", 390),
        ("25h10", 1510),
    ] {
        let hint = format!("{midnight}write {meant}");
        hinted("3 0 200", &format!("3 {typed} 200"), &[&hint]);
        hinted_in_timetable("24 39", &format!("{typed} 39"), &[&hint]);
    }
    for typed in ["6:5", "6:00am", "49:00", "6:60", ":", "6am", "630PM"] {
        let hint = format!("{midnight}6:00 is written 360");
        hinted("3 0 200", &format!("3 {typed} 200"), &[&hint]);
    }
    // As a number it would be another time.
    let hint = "no leading zero; if a time of day is meant, write 390";
    hinted("3 0 200", "3 0630 700", &[hint]);
    hinted(
        "3 0 200",
        "3 0 3000",
        &["minutes from midnight; those of the second day"],
    );
    hinted("20 0 20", "0:20 0 20", &["times are minutes; write 20"]);
    hinted("20 0 20", "20.00 0 20", &["numbers are whole"]);
    // A weight is no time.
    hinted("200 1 20", "200 1:00 20", &[]);
}

#[test]
fn what_people_type_for_a_field() {
    hinted("20 0 20", "020 0 20", &["leading zero"]);
    hinted("3 0 200", "3 00 200", &["leading zero"]);
    hinted("20 0 20", "20000 0 20", &["too many digits"]);
    hinted("20 0 20", "20 0 -20", &["no sign"]);
    hinted("20 0 20", "20 O 20", &["a letter that looks like a digit"]);
    hinted("1 3 0", "l 3 0", &["a letter that looks like a digit"]);
    hinted("1 3 0", "Ascot 3 0", &[]);
    hinted("1 3 0", "# 1 3 0", &["comments"]);
    let segment = |line: u32, segment: u32| {
        format!("line 1 says 3 stations, so line {line} is segment {segment}")
    };
    hinted("S 5", "s 5", &["capital letter", &segment(6, 1)]);
    hinted(
        "S 5",
        "X 5",
        &["a segment's line is its kind", &segment(6, 1)],
    );
    hinted(
        "D 5 4\n",
        "",
        &["a segment's line is its kind", &segment(7, 2)],
    );
    hinted("S 5 4", "S 5", &["fewer fields"]);
    hinted("S 5 4", "S 5 4 3", &["more fields"]);
}

#[test]
fn too_many_and_too_few() {
    let fields = |has: u32| {
        format!("needs 2 runs and 1 stop after its weight (run stop run .. run), 8 fields in all; the line has {has}")
    };
    hinted("20 0 20", "20 0", &["fewer fields", &fields(7)]);
    hinted("20 0 20", "20 0 20 0 20", &["more fields", &fields(10)]);
    hinted("20 0 20", "", &["fewer fields", &fields(5)]);
    // Where the weight was left out a stop is taken for a run.
    hinted("200 1 20 0 20", "200 20 0 20", &[&fields(7)]);
    hinted(
        "3 1 0 200 2 15 0 15\n",
        "3 1 0",
        &["the text ends within", &fields(3)],
    );
    let before = "the text ends before the field `train 2: latest`";
    hinted("3 1 0 200 2 15 0 15\n", "3 1 0 ", &[before, &fields(3)]);
    hinted("3\n2", "4\n2", &["line 1 says 4 stations, so line 6"]);
    let before = "the text ends before the field `train 3: origin`";
    hinted(
        "4\n2\n1",
        "4\n3\n1",
        &[before, "line 8 says 3 trains, and there are only 2"],
    );
    let end = "line 8 says 1 train, so the file ends after line 9";
    hinted("4\n2\n1", "4\n1\n1", &["more fields", end]);
}

/// The file with more sections, which is then refused so: number, line, field, what is allowed and the
/// hints.
fn refused_after(sections: &str, refused: (u32, u32), field: &str, allowed: &str, hints: &[&str]) {
    let file = FILE.to_string() + sections;
    let refusal = read(file.as_bytes()).expect_err(sections);
    assert_eq!((refusal.number, refusal.place), refused, "{sections}");
    let explanation = explained(refusal, file.as_bytes(), None);
    let told = explanation.field.expect("a field").to_string();
    assert_eq!((&told[..], &explanation.allowed[..]), (field, allowed));
    hold_hints(&explanation, hints);
}

#[test]
fn bookings_out_of_place() {
    let station = "booking 1: station";
    let middle = "2, the middle station of train 1";
    let origin = "station 1 is the origin of train 1; its earliest minute says when";
    refused_after("1\n1 1 5\n", (19, 12), station, middle, &[origin]);
    let destination = "station 3 is the destination of train 1, which does not leave it";
    refused_after("1\n1 3 5\n", (19, 12), station, middle, &[destination]);
    let station = "booking 2: station";
    let after = "a booking that comes after train 2 at station 2";
    let rising = "bookings stand in rising order of train, and of station for one train";
    refused_after("2\n2 2 5\n1 2 5\n", (19, 13), station, after, &[rising]);
    let twice = "train 2 is booked twice at station 2";
    refused_after("2\n2 2 5\n2 2 6\n", (19, 13), station, after, &[twice]);
    let short = "5\n1\n1\n1\n1\n1\n4\nS 5 4\nS 5 4\nS 5 4\nS 5 4\n2\n2 3 0 9 1 5\n\
                 4 1 0 99 1 5 0 5 0 5\n1\n";
    let explanation = |booking: &str| {
        let file = format!("{short}{booking}\n");
        let refusal = read(file.as_bytes()).expect_err(booking);
        assert_eq!((refusal.number, refusal.place), (19, 16));
        explained(refusal, file.as_bytes(), None)
    };
    let told = explanation("1 3 5");
    assert_eq!(told.allowed, "none: train 1 has no middle station");
    let told = explanation("2 5 5");
    assert_eq!(
        told.allowed,
        "a number from 2 to 3, the middle stations of train 2"
    );
    let off = "train 2 goes from station 4 to station 1 and does not come to station 5";
    hold_hints(&told, &[off]);
}

#[test]
fn bookings_in_wrong_numbers() {
    let numbers = "a number from 1 to 120";
    let off = "without bookings and due minutes their sections are left off; take the line away";
    refused_after("0\n", (3, 11), "number of bookings", numbers, &[off]);
    let ends = "line 8 says 2 trains, so the file ends after line 10 or goes on with the number";
    refused_after("121\n", (3, 11), "number of bookings", numbers, &[ends]);
    let two = "a number from 1 to 2";
    let train = "booking 1: train";
    refused_after("1\n3 2 5\n", (3, 12), train, two, &["line 8 says 2 trains"]);
    let station = "a number from 1 to 3";
    refused_after("1\n2 4 5\n", (3, 12), "booking 1: station", station, &[]);
    let time = "a number from 0 to 2879";
    let minute = "booking 1: minute";
    let day = "those of the second day go on from 1440";
    refused_after("1\n2 2 2880\n", (3, 12), minute, time, &[day]);
    let write = "times are minutes from midnight; write 365";
    refused_after("1\n2 2 6:05\n", (2, 12), minute, time, &[write]);
    let only = [
        "the text ends before the field `booking 2: train`",
        "line 11 says 2 bookings, and there are only 1",
    ];
    refused_after("2\n1 2 5\n", (2, 13), "booking 2: train", two, &only);
    let end = [
        "there is a blank line at the end",
        "line 11 says 1 booking, so the file ends after line 12 or goes on with the number of due",
    ];
    refused_after("1\n1 2 5\n\n", (2, 13), "number of due minutes", two, &end);
    // Where there is no train nothing can be booked.
    let file = "2\n1\n1\n1\nS 5 4\n0\n1\n1 2 5\n";
    let refusal = read(file.as_bytes()).expect_err("no train");
    assert_eq!((refusal.number, refusal.place), (3, 8));
    let explanation = explained(refusal, file.as_bytes(), None);
    assert_eq!(explanation.allowed, "no number");
    hold_hints(&explanation, &["line 6 says 0 trains"]);
}

#[test]
fn due_minutes_out_of_order() {
    let (first, second) = ("due 1: train", "due 2: train");
    let rising = "due minutes stand in rising order of train";
    let last = "none: train 2 is the last";
    refused_after("0\n2\n2 10\n1 10\n", (19, 14), second, last, &[rising]);
    // The order is looked at before the minute.
    refused_after("0\n2\n2 10\n1 x\n", (19, 14), second, last, &[rising]);
    let twice = "train 1 has two due minutes; take one of them away";
    let next = "the number 2, a train after the one before";
    refused_after("0\n2\n1 10\n1 20\n", (19, 14), second, next, &[twice]);
    let two = "a number from 1 to 2";
    let trains = "line 8 says 2 trains";
    refused_after("0\n1\n3 10\n", (3, 13), first, two, &[trains]);
    refused_after("0\n1\n0 10\n", (3, 13), first, two, &[trains]);
    refused_after("1\n1 2 5\n2\n1 9\n3 9\n", (3, 15), second, two, &[trains]);
    let four = "2\n1\n1\n1\nS 5 4\n4\n".to_string() + &"1 2 0 99 1 9\n".repeat(4);
    let file = four + "0\n2\n2 10\n1 10\n";
    let refusal = read(file.as_bytes()).expect_err("out of order");
    let told = explained(refusal, file.as_bytes(), None);
    assert_eq!(
        told.allowed,
        "a number from 3 to 4, a train after the one before"
    );
}

#[test]
fn due_minutes_in_wrong_numbers() {
    let (count, numbers) = ("number of due minutes", "a number from 1 to 2");
    let off = "without due minutes their section is left off; take the line away";
    refused_after("1\n1 2 5\n0\n", (3, 13), count, numbers, &[off]);
    let both =
        "without bookings and due minutes their sections are left off; take line 11 away too";
    refused_after("0\n0\n", (3, 12), count, numbers, &[both]);
    let trains = "line 8 says 2 trains";
    refused_after("0\n3\n", (3, 12), count, numbers, &[trains]);
    let only = [
        "the text ends before the field `due 2: train`",
        "line 12 says 2 due minutes, and there are only 1",
    ];
    refused_after("0\n2\n1 40\n", (2, 14), "due 2: train", numbers, &only);
    let end = [
        "there is a blank line at the end",
        "line 13 says 1 due minute, so the file ends after line 14",
    ];
    let (text, nothing) = ("end of the text", "nothing more");
    refused_after("1\n1 2 5\n1\n1 40\n\n", (2, 15), text, nothing, &end);
    // The line `0` alone does not end a file.
    let ends = [
        "there is a blank line at the end",
        "line 11 says 0 bookings, so line 12 is the number of due minutes; without any, take line 11",
    ];
    refused_after("0\n\n", (2, 12), count, numbers, &ends);
    // One booking more than their count says.
    let more = [
        "the line has more fields",
        "line 11 says 1 booking, so the file ends after line 12 or goes on with the number of due",
    ];
    let line_feed = "the end of the line (a line feed) after it";
    refused_after("1\n1 2 5\n2 2 6\n", (2, 13), count, line_feed, &more);
}

#[test]
fn due_minutes_without_trains() {
    let file = "2\n1\n1\n1\nS 5 4\n0\n0\n1\n1 5\n";
    let refusal = read(file.as_bytes()).expect_err("no train");
    assert_eq!((refusal.number, refusal.place), (3, 8));
    let explanation = explained(refusal, file.as_bytes(), None);
    assert_eq!(explanation.allowed, "no number");
    hold_hints(&explanation, &["line 6 says 0 trains"]);
}

#[test]
fn what_people_type_for_due_minutes() {
    let (minute, time) = ("due 1: minute", "a number from 0 to 2879");
    let write = "times are minutes from midnight; write 700";
    refused_after("0\n1\n2 11:40\n", (2, 13), minute, time, &[write]);
    let day = "those of the second day go on from 1440";
    refused_after("0\n1\n2 2880\n", (3, 13), minute, time, &[day]);
    let line_feed = "the end of the line (a line feed) after it";
    let fields = [
        "the line has more fields",
        "here a line is a train and its due minute; bookings are the section before",
    ];
    refused_after("0\n1\n2 2 30\n", (2, 13), minute, line_feed, &fields);
    let space = "a space and the next field after it";
    let fewer = "the line has fewer fields";
    refused_after("0\n1\n2\n", (2, 13), "due 1: train", space, &[fewer]);
    // Due minutes where bookings are due.
    let missing = "if this is a due minute, the line `0` for no bookings is missing before line 11";
    let station = "booking 1: station";
    refused_after("1\n2 40\n", (2, 12), station, space, &[fewer, missing]);
    let three = "a number from 1 to 3";
    refused_after("1\n2 11:40\n", (2, 12), station, three, &[missing]);
}

/// The total of a line with due minutes.
#[test]
fn a_wrong_total_with_due_minutes() {
    let file = FILE.to_string() + "0\n1\n2 30\n";
    let timetable = TIMETABLE.replace("18\n", "17\n");
    let refusal = check(file.as_bytes(), timetable.as_bytes()).expect_err("another total");
    assert_eq!((refusal.number, refusal.place), (17, 0));
    let told = explained(refusal, file.as_bytes(), Some(timetable.as_bytes()));
    let sum =
        "18, the sum of weight times delay from the due minute, which is 0 for an early train";
    assert_eq!(told.allowed, sum);
}

/// A departure before its booking: the booked minute and station are told.
#[test]
fn a_departure_before_its_booking() {
    let file = CLOSE.to_string() + "2\n1 2 36\n3 2 79\n";
    let refusal = check(file.as_bytes(), KEPT.as_bytes()).expect_err("too early");
    assert_eq!((refusal.number, refusal.place), (18, 1));
    let told = explained(refusal, file.as_bytes(), Some(KEPT.as_bytes()));
    assert_eq!(told.found, "minute 35 (00:35)");
    let allowed = "at or after minute 36 (00:36): booked at station 2";
    assert_eq!(told.allowed, allowed);
    let field = told.field.expect("a field").to_string();
    assert_eq!(field, "train 1: departure on segment 2");
}

#[test]
fn what_people_type_in_a_timetable() {
    let times =
        |has: u32| format!("a departure and an arrival for each, 4 numbers; the line has {has}");
    hinted_in_timetable("20 40\n", "20 40\r\n", &["CR LF"]);
    hinted_in_timetable("20 40", "20", &["fewer fields", &times(3)]);
    hinted_in_timetable("20 40", "20 40 50", &["more fields", &times(5)]);
    hinted_in_timetable("2\n0", "3\n0", &["the line file has 2 trains"]);
    hinted_in_timetable("\n3\n", "\n2\n", &["a list for each segment, on D two"]);
    let list = "line 6 is the list of segment 2, outbound";
    hinted_in_timetable("1 1\n", "2 1\n", &["fewer fields", list]);
    hinted_in_timetable("1 1\n", "1 1 2\n", &["more fields", list]);
    hinted_in_timetable("1 1\n", "1 3\n", &[list]);
    hinted_in_timetable("18\n", "1,018\n", &["there is a comma"]);
    hinted_in_timetable("18\n", "18", &["press Enter"]);
    hinted_in_timetable("18\n", "18\n\n", &["blank line at the end"]);
}

/// A line with one track at station 2, and a timetable for it that keeps every rule.
const CLOSE: &str = "3\n2\n1\n2\n2\nS 5 4\nD 6 4\n3\n1 3 10 200 1 20 5 20\n3 1 10 200 2 15 0 15\n\
                     1 3 10 300 1 20 0 20\n";
const KEPT: &str = "3\n10 30 35 55\n25 40 40 55\n59 79 79 99\n3\n3 1 2 3\n2 1 3\n1 2\n79\n";

/// Holds what is said of that timetable with something else in it: number and place, then the line, the
/// marked bytes, what was found and what is allowed.
fn broken(from: &str, to: &str, refused: (u32, u32), marked: (usize, &str), told: [&str; 2]) {
    let timetable = KEPT.replacen(from, to, 1);
    let refusal = check(CLOSE.as_bytes(), timetable.as_bytes()).expect_err(to);
    assert_eq!((refusal.number, refusal.place), refused, "{to}");
    let explanation = explained(refusal, CLOSE.as_bytes(), Some(timetable.as_bytes()));
    let quotation = explanation.quotation.as_ref().expect("a line");
    let begin = quotation.column - 1;
    let part = &quotation.bytes[begin..begin + quotation.width];
    assert_eq!(
        (quotation.line, part),
        (marked.0, marked.1.as_bytes()),
        "{to}"
    );
    assert_eq!([&explanation.found[..], &explanation.allowed], told, "{to}");
    hold_hints(&explanation, &[]);
}

#[test]
fn broken_rules_of_a_train() {
    assert_eq!(check(CLOSE.as_bytes(), KEPT.as_bytes()), Ok(()));
    let told = ["minute 9 (00:09)", "at or after minute 10 (00:10)"];
    broken("10 30", "9 29", (10, 1), (2, "9"), told);
    let told = [
        "minute 98 (01:38)",
        "minute 99 (01:39): departure plus the run of 20 minutes",
    ];
    broken("79 99", "79 98", (11, 3), (4, "98"), told);
    let told = [
        "minute 34 (00:34)",
        "at or after minute 35 (00:35): arrival plus the stop of 5",
    ];
    broken("35 55", "34 54", (12, 1), (2, "34"), told);
    let told = ["minute 201 (03:21)", "at or before minute 200 (03:20)"];
    broken("40 55", "186 201", (13, 2), (3, "201"), told);
}

#[test]
fn broken_rules_between_trains() {
    let told = [
        "on segment 1 train 1 from 00:10 to 00:30 and train 3 from 00:34 to 00:54",
        "one departs 5 minutes or more after the other's arrival",
    ];
    broken("59 79 79 99", "34 54 54 74", (14, 1), (4, "34"), told);
    // The train that departs later is marked, although its number is the lower.
    let told = [
        "on segment 1 train 1 from 00:58 to 01:18 and train 2 from 00:40 to 00:55",
        "one departs 4 minutes or more after the other's arrival",
    ];
    broken("10 30 35 55", "58 78 83 103", (14, 1), (2, "58"), told);
    let told = [
        "on segment 2 train 1 from 01:15 to 01:35 and train 3 from 01:19 to 01:39",
        "one departs and arrives 6 minutes or more after the other",
    ];
    broken("35 55", "75 95", (14, 2), (4, "79"), told);
    let told = [
        "at minute 38 (00:38) trains 1, 2 stand at station 2",
        "1 train, as the station has 1 track",
    ];
    broken("35 55\n25 40", "38 58\n23 38", (15, 2), (3, "38"), told);
}

#[test]
fn wrong_lists_and_totals() {
    let told = [
        "trains 2, 1, 3",
        "trains 1, 2, 3, by departure on segment 1",
    ];
    broken("3 1 2 3", "3 2 1 3", (16, 1), (6, "2"), told);
    let told = [
        "train 1",
        "trains 1, 3, by departure on segment 2, outbound",
    ];
    broken("2 1 3", "1 1", (16, 2), (7, "1"), told);
    let told = ["no train", "train 2, by departure on segment 2, inbound"];
    broken("1 2\n79", "0\n79", (16, 3), (8, "0"), told);
    let told = ["78", "79, the sum of weight times delay"];
    broken("79\n", "78\n", (17, 0), (9, "78"), told);
}

/// What was found is told with an escape for what cannot be printed, and is cut where it is long.
#[test]
fn what_was_found() {
    let found = |to: &str| {
        let file = FILE.replacen("20 0 20", to, 1);
        let refusal = read(file.as_bytes()).expect_err(to);
        explained(refusal, file.as_bytes(), None).found
    };
    assert_eq!(found("20\t0 20"), "`20\\t0`");
    assert_eq!(found("2\u{0}0 0 20"), "`2\\x000`");
    assert_eq!(found("\"20\" 0 20"), "`\"20\"`");
    assert_eq!(found(&"7".repeat(40)), format!("`{}`", "7".repeat(40)));
    assert_eq!(found(&"7".repeat(41)), format!("`{}...`", "7".repeat(40)));
    assert_eq!(found("20 0"), "the end of the line");
    assert_eq!(found(""), "the end of the line");
    assert_eq!(found(" 20 0 20"), "a space");
}

#[test]
fn a_long_line_is_cut_around_the_mark() {
    let file = format!("{}x\n", "1 ".repeat(200));
    let refusal = read(file.as_bytes()).expect_err("no number of stations");
    let told = explained(refusal, file.as_bytes(), None).to_string();
    assert!(told.lines().all(|line| line.len() <= 90), "{told}");
    let file = "7".repeat(3000);
    let refusal = read(file.as_bytes()).expect_err("no number of stations");
    let told = explained(refusal, file.as_bytes(), None).to_string();
    assert!(told.lines().all(|line| line.len() <= 90), "{told}");
    let row = format!("2\n1\n1\n1\nS 5 4\n1\n1 2 0 9 1 {}\n", "10 ".repeat(60));
    let refusal = read(row.as_bytes()).expect_err("too many runs");
    let explanation = explained(refusal, row.as_bytes(), None);
    let told = explanation.to_string();
    let (quoted, mark) = (told.lines().nth(1).unwrap(), told.lines().nth(2).unwrap());
    assert!(quoted.ends_with("...") && mark.ends_with('^'), "{told}");
    assert_eq!(
        quoted.as_bytes()[mark.len() - 1],
        b' ',
        "the mark is under a space: {told}"
    );
}

#[test]
fn how_programs_save_stop_times() {
    hinted_in_stop_times("e\nT1", "e\r\nT1", &["CR LF"]);
    hinted_in_stop_times("1,1\n", "1,1\r\n", &["CR LF"]);
    hinted_in_stop_times("trip_id", "\u{feff}trip_id", &["byte-order mark"]);
    hinted_in_stop_times("trip_id", "\"trip_id\"", &["without quotes"]);
    hinted_in_stop_times("T1", "\"T1\"", &["without quotes"]);
    hinted_in_stop_times(
        "T1,",
        "T1, ",
        &["a space; fields are separated by one comma"],
    );
    hinted_in_stop_times("1,1\n", "1, 1\n", &["a space"]);
    hinted_in_stop_times("1,1\n", "1,1 \n", &["a space"]);
    hinted_in_stop_times("T1,", "T1;", &["a semicolon"]);
    hinted_in_stop_times("T1,", "T1\t", &["a tab"]);
    hinted_in_stop_times("T1,", "T\u{661},", &["not ASCII"]);
    hinted_in_stop_times("T1,", "T1\0,", &["cannot be printed"]);
    hold_hints(&stop_times_explained(b""), &["the file is empty"]);
    hold_hints(&stop_times_explained(b"refused 20 1\n"), &["is a refusal"]);
}

#[test]
fn headers_of_other_programs() {
    let five = "these five in this order";
    hinted_in_stop_times("trip_id", "Trip_ID", &["small letters"]);
    hinted_in_stop_times(
        "arrival_time,departure_time",
        "departure_time,arrival_time",
        &[five],
    );
    hinted_in_stop_times("stop_id,stop_sequence", "stop_sequence,stop_id", &[five]);
    hinted_in_stop_times("sequence\n", "sequence,pickup_type\n", &["more fields"]);
    hinted_in_stop_times(",stop_sequence", "", &["fewer fields"]);
    let header = STOP_TIMES.split_inclusive('\n').next().expect("a header");
    let missing = format!("the header is missing; line 1 is {}", header.trim_end());
    hinted_in_stop_times(header, "", &[&missing]);
}

#[test]
fn what_people_type_in_stop_times() {
    let digits = "hours, minutes and seconds have two digits each; write 00:20:00";
    hinted_in_stop_times("00:20:00", "0:20:00", &[digits]);
    hinted_in_stop_times("00:20:00", "00:20:0", &[digits]);
    hinted_in_stop_times(
        "00:20:00",
        "00:20",
        &["seconds too, always 00; write 00:20:00"],
    );
    hinted_in_stop_times("00:20:00", "00:20:30", &["whole minutes"]);
    hinted_in_stop_times("00:20:00", "00:60:00", &["minutes go from 00 to 59"]);
    hinted_in_stop_times("00:20:00", "20", &["minute 20 is 00:20:00"]);
    hinted_in_stop_times("00:20:00", "1440", &["minute 1440 is 24:00:00"]);
    hinted_in_stop_times("00:20:00", "48:00:00", &["the second day ends at 47:59:00"]);
    hinted_in_stop_times("00:20:00", "72:0", &["the second day ends at 47:59:00"]);
    hinted_in_stop_times("00:20:00", "", &["the field is empty"]);
    hinted_in_stop_times("00:20:00", "noon", &[]);
    hinted_in_stop_times("T1", "T01", &["no leading zero"]);
    hinted_in_stop_times("T1", "T10000", &["too many digits"]);
    let trip = "that of train 1 is T1";
    for other in ["1", "t1", "T", "train1", "T-1"] {
        hinted_in_stop_times("T1", other, &[trip]);
    }
    hinted_in_stop_times(",1,1\n", ",01,1\n", &["no leading zero"]);
    hinted_in_stop_times(",1,1\n", ",10000,1\n", &["too many digits"]);
    hinted_in_stop_times(",1,1\n", ",Ascot,1\n", &["the numbers of the stations"]);
    hinted_in_stop_times(",1,1\n", ",1,first\n", &["1, 2, 3 and so on"]);
    hinted_in_stop_times(",1,1\n", ",1,\n", &["fewer fields"]);
    hinted_in_stop_times(",1,1\n", ",1,1,0\n", &["more fields"]);
    hinted_in_stop_times(",1,1\n", ",1\n", &["fewer fields"]);
    // The hours of the second day are right, and so is a departure before the arrival.
    let text = STOP_TIMES.replacen("00:20:00", "24:20:00", 1);
    assert!(import(FILE.as_bytes(), text.as_bytes(), &mut [0; 99]).is_ok());
}

#[test]
fn minutes_that_are_not_repeated() {
    let once = "one minute for both";
    hinted_in_stop_times("T1,00:00:00", "T1,00:01:00", &[once]);
    let text = STOP_TIMES.replace("T1,00:00:00", "T1,00:01:00");
    let explanation = stop_times_explained(text.as_bytes());
    let told = (&explanation.found[..], &explanation.allowed[..]);
    assert_eq!(told, ("00:01:00", "00:00:00, as its departure_time"));
    let text = STOP_TIMES.replace("00:40:00,3", "00:41:00,9");
    let explanation = stop_times_explained(text.as_bytes());
    hold_hints(&explanation, &[once]);
    let told = (&explanation.found[..], &explanation.allowed[..]);
    assert_eq!(told, ("00:41:00", "00:40:00, as its arrival_time"));
}

#[test]
fn stops_that_are_not_next() {
    let due = "train 1 goes from station 1 to station 3, so line 3 is T1,HH:MM:00,HH:MM:00,2,2";
    hinted_in_stop_times("2,2\n", "3,2\n", &[due]);
    hinted_in_stop_times(
        "2,2\n",
        "2,3\n",
        &["from 1 on each trip, without gaps", due],
    );
    let by_number = "T2 before T10";
    hinted_in_stop_times("T1,00:20", "T2,00:20", &[by_number, due]);
    hinted_in_stop_times("T1,00:20:00,00:20:00,2,2\n", "", &["train 1 goes"]);
    let rows: Vec<&str> = STOP_TIMES.split_inclusive('\n').collect();
    let inbound = "train 2 goes from station 3 to station 1, so line 6 is T2,HH:MM:00,HH:MM:00,2,2";
    let ends = "the text ends before the field `train 2 at station 2: trip_id`";
    hold_hints(
        &stop_times_explained(rows[..5].concat().as_bytes()),
        &[ends, inbound],
    );
    let ends = "the line file has 2 trains, so the text ends after line 7";
    let twice = STOP_TIMES.to_string() + rows[6];
    hold_hints(&stop_times_explained(twice.as_bytes()), &[ends]);
    let blank = STOP_TIMES.to_string() + "\n";
    hold_hints(
        &stop_times_explained(blank.as_bytes()),
        &["blank line at the end", ends],
    );
    let cut = STOP_TIMES.trim_end();
    hold_hints(
        &stop_times_explained(cut.as_bytes()),
        &["press Enter", "line 7 is T2"],
    );
}
