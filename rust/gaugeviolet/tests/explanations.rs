//! Explanations held to the library: over damaged inputs each refusal has one, on the line that the
//! library names, with a field that is really due there and a mark that stands on it.

mod refused;

use std::collections::{BTreeMap, BTreeSet};

use gaugeviolet::{check, import, plan, read};
use gaugeviolet::{Cause, Explanation, Field, Line, Quotation, Refusal, Text};
use inputs::{
    any_minutes, booked_planned, damage_bytes, damage_lines, damaged, due_planned, planned, sizes,
    walk_line, with_bookings, with_dues, with_every_field_altered, with_one_byte_damaged,
    with_stop_times_fault,
};
use inputs::{shown, Booked, Damage, DueAt, Fields, Random, Shape, StopTimesFault, Traffic};
use refused::{explained, FILE, STOP_TIMES, TIMETABLE};

/// The lines of a text, without their line feeds. After the last one there may be an empty one.
fn rows(text: &[u8]) -> Vec<&[u8]> {
    text.split(|&byte| byte == b'\n').collect()
}

/// The number that a row of an accepted or half accepted text begins with.
fn leading(rows: &[&[u8]], row: usize) -> u32 {
    let digits = rows[row].split(|&byte| byte == b' ').next();
    let text = std::str::from_utf8(digits.expect("a field")).expect("ASCII");
    text.parse().expect("a number that was read before")
}

/// The name of the field that is due on a line of a line file, by how many fields stand before it.
fn due_in_file(file: &[u8], line: usize, before: usize) -> String {
    let rows = rows(file);
    if line == 1 {
        return "number of stations".into();
    }
    let stations = leading(&rows, 0) as usize;
    if line <= stations + 1 {
        return format!("station {}: tracks", line - 1);
    }
    if line == stations + 2 {
        return "number of segments".into();
    }
    if line <= 2 * stations + 1 {
        let part = ["kind", "following gap", "opposing gap"][before.min(2)];
        return format!("segment {}: {part}", line - stations - 2);
    }
    if line == 2 * stations + 2 {
        return "number of trains".into();
    }
    let train = line - 2 * stations - 2;
    let trains = leading(&rows, 2 * stations + 1) as usize;
    if train > trains {
        let count = 2 * stations + 3 + trains;
        return due_of_booking(&rows, count, line, before);
    }
    due_of_train(&rows, line, train, before)
}

/// The same after the trains, where the line `count` is the number of bookings.
fn due_of_booking(rows: &[&[u8]], count: usize, line: usize, before: usize) -> String {
    if line == count {
        return "number of bookings".into();
    }
    let (booking, bookings) = (line - count, leading(rows, count - 1) as usize);
    if booking > bookings {
        return due_of_due(rows, count + bookings + 1, line, before);
    }
    let part = ["train", "station", "minute"][before.min(2)];
    format!("booking {booking}: {part}")
}

/// The same after the bookings, where the line `count` is the number of due minutes.
fn due_of_due(rows: &[&[u8]], count: usize, line: usize, before: usize) -> String {
    if line == count {
        return "number of due minutes".into();
    }
    let due = line - count;
    if due > leading(rows, count - 1) as usize {
        return "end of the text".into();
    }
    let part = ["train", "minute"][before.min(1)];
    format!("due {due}: {part}")
}

fn due_of_train(rows: &[&[u8]], line: usize, train: usize, before: usize) -> String {
    let head = ["origin", "destination", "earliest", "latest", "weight"];
    if let Some(name) = head.get(before) {
        return format!("train {train}: {name}");
    }
    let row = String::from_utf8_lossy(rows[line - 1]);
    let fields: Vec<&str> = row.split(' ').collect();
    let path = |at: usize| fields[at].parse::<usize>().expect("it was read before");
    let (origin, destination) = (path(0), path(1));
    let last = 2 * origin.abs_diff(destination) + 3;
    let at = before.min(last) - 5;
    let passed = at / 2;
    let outbound = origin < destination;
    let station = |legs: usize| {
        if outbound {
            origin + legs
        } else {
            origin - legs
        }
    };
    match at % 2 {
        0 => {
            let segment = station(passed).min(station(passed + 1));
            format!("train {train}: run over segment {segment}")
        }
        _ => format!("train {train}: stop at station {}", station(passed + 1)),
    }
}

/// The same for a timetable of an accepted line.
fn due_in_timetable(line: &independent::Line, text: &[u8], row: usize, before: usize) -> String {
    let trains = usize::from(line.train_count);
    let lists: Vec<_> = independent::rules::lists(line).collect();
    if row == 1 {
        return "number of trains".into();
    }
    if row <= trains + 1 {
        let train = &line.trains[row - 2];
        let at = before.min(2 * train.legs() - 1);
        let what = ["departure", "arrival"][at % 2];
        let segment = train.segment(at / 2) + 1;
        return format!("train {}: {what} on segment {segment}", row - 1);
    }
    if row == trains + 2 {
        return "number of order lists".into();
    }
    let list = row - trains - 2;
    if list > lists.len() {
        return ["total", "end of the text"][usize::from(list > lists.len() + 1)].into();
    }
    if before == 0 {
        return format!("order list {list}: number of its trains");
    }
    let count = leading(&rows(text), row - 1) as usize;
    match before.min(count) {
        0 => format!("order list {list}: number of its trains"),
        place => format!("order list {list}: train {place} of the list"),
    }
}

/// The same for stop times of an accepted line.
fn due_in_stop_times(line: &independent::Line, row: usize, before: usize) -> String {
    if row == 1 {
        return format!("header: name of column {}", before.min(4) + 1);
    }
    let trains = line.trains[..usize::from(line.train_count)].iter();
    let stops = trains.zip(1..).flat_map(|(train, number)| {
        let (origin, destination) = (train.origin, train.destination);
        let passed = 0..=origin.abs_diff(destination);
        passed.map(move |legs| match origin < destination {
            true => (number, origin + legs),
            false => (number, origin - legs),
        })
    });
    let Some((train, station)) = stops.into_iter().nth(row - 2) else {
        return "end of the text".into();
    };
    let columns = [
        "trip_id",
        "arrival_time",
        "departure_time",
        "stop_id",
        "stop_sequence",
    ];
    format!(
        "train {train} at station {station}: {}",
        columns[before.min(4)]
    )
}

/// How many fields stand before the marked part. A part that is the separator or the end after a field is
/// about that field.
fn fields_before(quotation: &Quotation, explanation: &Explanation) -> usize {
    let between = match quotation.text {
        Text::StopTimes => b',',
        _ => b' ',
    };
    let before = &quotation.bytes[..quotation.column - 1];
    let separators = before.iter().filter(|&&byte| byte == between).count();
    let after_field = explanation.allowed.ends_with("after it");
    assert!(!after_field || !before.is_empty() && before.last() != Some(&between));
    separators
}

/// Holds what every quotation has: it is that line of its text, and the mark is on it.
fn hold_quotation(quotation: &Quotation, text: &[u8]) {
    assert_eq!(quotation.bytes, rows(text)[quotation.line - 1]);
    let end = quotation.column - 1 + quotation.width;
    assert!(quotation.column >= 1 && quotation.width >= 1);
    // Only a mark under something that is missing stands after the line.
    assert!(end <= quotation.bytes.len().max(quotation.column));
    hold_mark(quotation);
}

/// Holds that the mark is shown under the part that it is about.
fn hold_mark(quotation: &Quotation) {
    let shown = quotation.to_string();
    let (quoted, mark) = shown.split_once('\n').expect("two rows");
    let at = mark.find('^').expect("a mark");
    let expected = quotation.bytes.get(quotation.column - 1);
    let visible = |byte: u8| match byte.is_ascii_graphic() || byte == b' ' {
        true => byte,
        false => b'?',
    };
    let under = quoted.as_bytes().get(at).copied();
    assert_eq!(under, expected.map(|&byte| visible(byte)), "{shown}");
    assert!(quoted.len() <= 90 && mark.trim_end().len() <= 90, "{shown}");
}

/// What has been explained so far: how often each number, and which fields.
#[derive(Default)]
struct Seen {
    numbers: BTreeMap<u32, usize>,
    fields: BTreeSet<String>,
}

impl Seen {
    fn file(&mut self, file: &[u8]) {
        let Err(refusal) = read(file) else { return };
        let explanation = explained(refusal, file, None);
        self.count(refusal, &explanation);
        if refusal.cause() == Some(Cause::FileLength) {
            assert_eq!(explanation.quotation, None);
            return;
        }
        let quotation = explanation.quotation.as_ref().expect("a line");
        assert_eq!(quotation.text, Text::LineFile);
        assert_eq!(quotation.line, refusal.place as usize, "{}", shown(file));
        hold_quotation(quotation, file);
        let before = fields_before(quotation, &explanation);
        let due = due_in_file(file, quotation.line, before);
        let field = explanation.field.expect("a field").to_string();
        assert_eq!(field, due, "{}", shown(file));
    }

    fn pair(&mut self, file: &[u8], timetable: &[u8]) {
        let Err(refusal) = check(file, timetable) else {
            return;
        };
        if refusal.number < 7 || refusal.number == 19 {
            return self.file(file);
        }
        let explanation = explained(refusal, file, Some(timetable));
        self.count(refusal, &explanation);
        hold_no_other(refusal, file, timetable);
        let Some(quotation) = explanation.quotation.as_ref() else {
            assert_eq!(refusal.cause(), Some(Cause::TimetableLength));
            return;
        };
        assert_eq!(quotation.text, Text::Timetable);
        hold_quotation(quotation, timetable);
        let line = independent::read(file).expect("an accepted file");
        let before = fields_before(quotation, &explanation);
        let due = due_in_timetable(&line, timetable, quotation.line, before);
        let field = explanation.field.expect("a field");
        assert_eq!(field.to_string(), due, "{}", shown(timetable));
        let place = refusal.place as usize;
        let trains = usize::from(line.train_count);
        match refusal.number {
            8 | 9 => assert_eq!(quotation.line, place),
            10..=13 | 18 => assert_eq!(quotation.line, place + 1),
            14 => assert!(due.ends_with(&format!("departure on segment {place}"))),
            15 => assert!(is_arrival_at(&line, field, place), "{due} at {place}"),
            16 => assert_eq!(quotation.line, trains + 2 + place),
            _ => assert_eq!(field, Field::Total),
        }
    }

    fn stop_times(&mut self, file: &[u8], text: &[u8]) {
        let Err(refusal) = import(file, text, &mut [0; 4096]) else {
            return;
        };
        let explanation = explained(refusal, file, Some(text));
        self.count(refusal, &explanation);
        for number in [20, 21] {
            for place in [refusal.place - 1, refusal.place, refusal.place + 1] {
                let other = Refusal { number, place };
                let told = other.explanation(file, Some(text)).is_some();
                assert_eq!(told, other == refusal, "{}", shown(text));
            }
        }
        let quotation = explanation.quotation.as_ref().expect("a line");
        assert_eq!(quotation.text, Text::StopTimes);
        assert_eq!(quotation.line, refusal.place as usize, "{}", shown(text));
        hold_quotation(quotation, text);
        let line = independent::read(file).expect("an accepted file");
        let before = fields_before(quotation, &explanation);
        let due = due_in_stop_times(&line, quotation.line, before);
        let field = explanation.field.expect("a field").to_string();
        assert_eq!(field, due, "{}", shown(text));
    }

    fn count(&mut self, refusal: Refusal, explanation: &Explanation) {
        *self.numbers.entry(refusal.number).or_insert(0) += 1;
        assert!(!explanation.found.is_empty() && !explanation.allowed.is_empty());
        assert_ne!(explanation.found, explanation.allowed);
        if let Some(field) = explanation.field {
            let name: String = field.to_string();
            let kind = name.chars().filter(|character| !character.is_ascii_digit());
            self.fields.insert(kind.collect());
        }
    }
}

/// Holds that a timetable is explained by no other refusal than the library's, though it may break other
/// rules too.
fn hold_no_other(refusal: Refusal, file: &[u8], timetable: &[u8]) {
    let others = (7..=19).map(|number| Refusal { number, ..refusal });
    for other in others.filter(|&other| other != refusal) {
        assert_eq!(other.explanation(file, Some(timetable)), None);
    }
}

/// Whether the field is a train's arrival at a middle station of its path.
fn is_arrival_at(line: &independent::Line, field: Field, station: usize) -> bool {
    let Field::Arrival { train, segment } = field else {
        return false;
    };
    let train = &line.trains[train as usize - 1];
    let at = if train.outbound() {
        segment + 1
    } else {
        segment
    };
    at as usize == station && usize::from(train.destination) != station
}

/// Holds the explanations of a file with each byte damaged in every way, and of what is left where it ends
/// before any of them. So many fields have a fault then.
fn hold_every_byte(file: &str, fields: usize) {
    let mut seen = Seen::default();
    for file in with_one_byte_damaged(file.as_bytes()) {
        seen.file(&file);
    }
    for end in 0..file.len() {
        seen.file(&file.as_bytes()[..end]);
    }
    println!("{:?}\n{:?}", seen.numbers, seen.fields);
    assert_eq!(
        seen.numbers.keys().copied().collect::<Vec<u32>>(),
        [2, 3, 4, 19]
    );
    assert_eq!(seen.fields.len(), fields);
}

/// All fields but the due minutes themselves: after the bookings their count is due, or the end.
#[test]
fn every_byte_of_a_line_file_damaged() {
    hold_every_byte(&(FILE.to_string() + "2\n1 2 30\n2 2 0\n"), 19);
}

#[test]
fn every_byte_of_a_line_file_with_due_minutes_damaged() {
    let booked = FILE.to_string() + "2\n1 2 30\n2 2 0\n2\n1 45\n2 2879\n";
    hold_every_byte(&booked, 22);
    // Where the line `0` is damaged, the due minutes are taken for bookings up to their stations.
    hold_every_byte(&(FILE.to_string() + "0\n2\n1 45\n2 0\n"), 21);
}

#[test]
fn every_byte_of_a_timetable_damaged() {
    let mut seen = Seen::default();
    for timetable in with_one_byte_damaged(TIMETABLE.as_bytes()) {
        seen.pair(FILE.as_bytes(), &timetable);
    }
    println!("{:?}\n{:?}", seen.numbers, seen.fields);
    assert!(seen.numbers.keys().all(|&number| number >= 8));
    assert_eq!(
        seen.fields.len(),
        8,
        "every field of a timetable, and its end"
    );
}

#[test]
fn every_byte_of_stop_times_damaged() {
    let mut seen = Seen::default();
    let text = STOP_TIMES.as_bytes();
    for damaged in with_one_byte_damaged(text) {
        seen.stop_times(FILE.as_bytes(), &damaged);
    }
    for altered in with_every_field_altered(text) {
        seen.stop_times(FILE.as_bytes(), &altered);
    }
    for end in 0..text.len() {
        seen.stop_times(FILE.as_bytes(), &text[..end]);
    }
    println!("{:?}\n{:?}", seen.numbers, seen.fields);
    let numbers: Vec<u32> = seen.numbers.keys().copied().collect();
    assert_eq!(numbers, [20, 21]);
    assert_eq!(
        seen.fields.len(),
        7,
        "the header, every column, and the end"
    );
}

#[test]
fn stop_times_of_every_size_with_every_fault() {
    let mut random = Random::new(16);
    let mut seen = Seen::default();
    for (stations, trains) in sizes() {
        let draw = random.one_of(&[planned, booked_planned, due_planned]);
        let line = draw(&mut random, stations, trains, Traffic::Mixed).line;
        let file = Fields::of(&line).text();
        let minutes = any_minutes(&mut random, &line);
        let text = independent::stop_times::write(&line, &minutes);
        for fault in [StopTimesFault::ALL; 20].concat() {
            seen.stop_times(&file, &with_stop_times_fault(&mut random, &text, fault));
        }
        // Another line's, and what was to be a timetable.
        seen.stop_times(&file, STOP_TIMES.as_bytes());
        seen.stop_times(&file, TIMETABLE.as_bytes());
    }
    println!("{:?}\n{:?}", seen.numbers, seen.fields);
    assert!(seen.numbers[&20] >= 5_000 && seen.numbers[&21] >= 1_000);
    assert_eq!(seen.fields.len(), 7);
}

#[test]
fn damaged_texts_of_every_size() {
    let mut random = Random::new(14);
    let mut seen = Seen::default();
    for (stations, trains) in sizes() {
        let traffic = random.one_of(&[Traffic::Mixed, Traffic::Full]);
        let draw = random.one_of(&[planned, booked_planned, due_planned]);
        let planned = draw(&mut random, stations, trains, traffic);
        for damage in [Damage::ALL; 20].concat() {
            let pair = damaged(&mut random, &planned, damage);
            seen.pair(&pair.file, &pair.timetable);
            seen.file(&damage_lines(&mut random, &pair.file));
            let mut bytes = pair.file;
            damage_bytes(&mut random, &mut bytes, 3);
            seen.file(&bytes);
        }
        let mut long = planned.pair().file;
        long.resize(gaugeviolet::FILE_BYTES + 1, b'\n');
        seen.file(&long);
    }
    println!("{:?}\n{:?}", seen.numbers, seen.fields);
    let numbers: Vec<u32> = seen.numbers.keys().copied().collect();
    let all = (1..=19).filter(|number| ![5, 6].contains(number));
    assert_eq!(numbers, all.collect::<Vec<u32>>());
    assert!(seen.numbers.values().all(|&times| times >= 50));
}

/// Of a line without a timetable the explanation marks the latest minute of the first train that cannot
/// be in time alone, if there is one.
#[test]
fn lines_without_a_timetable() {
    let mut random = Random::new(15);
    let mut marked = [0; 2];
    for _ in 0..300 {
        let mut line = walk_line(&mut random, 4, 4, Shape::Tight);
        if random.below(2) == 0 {
            line = with_bookings(&mut random, &line, &[Booked::InAnyCase, Booked::Later(40)]);
        }
        if random.below(2) == 0 {
            line = with_dues(&mut random, &line, &DueAt::ALL);
        }
        let mut file = Fields::of(&line).text();
        if random.below(2) == 0 {
            file = Fields::of(&line).text_with((10 + random.below(4), 3), "5");
        }
        let Err(refusal) = plan(&file) else { continue };
        let explanation = explained(refusal, &file, None);
        let line = Line::read(&file).expect("an accepted file");
        let late = line
            .trains()
            .iter()
            .zip(1..)
            .find(|&(train, number)| line.free_arrival(number) > train.latest);
        let train = late.map(|(_, number)| number);
        assert_eq!(
            explanation.field,
            train.map(|train| Field::Latest { train })
        );
        if let Some(quotation) = &explanation.quotation {
            hold_quotation(quotation, &file);
            assert_eq!(quotation.line, 10 + train.expect("a train") as usize);
            assert_eq!(fields_before(quotation, &explanation), 3);
        }
        marked[usize::from(train.is_some())] += 1;
    }
    println!("{marked:?}");
    assert!(marked.iter().all(|&times| times >= 20));
}

/// A refusal that the bytes do not show is not explained.
#[test]
fn bytes_that_are_not_refused_so() {
    let file = FILE.as_bytes();
    // Each of the two is refused in the place of the other.
    for (text, as_the_other) in [(TIMETABLE, (20, 1)), (STOP_TIMES, (8, 1))] {
        for number in (1..=40).filter(|number| ![5, 6].contains(number)) {
            for place in [0, 1, 2, 9, 40, u32::MAX] {
                let refusal = Refusal { number, place };
                let explanation = refusal.explanation(file, Some(text.as_bytes()));
                let expected = (number, place) == as_the_other;
                assert_eq!(explanation.is_some(), expected, "{number} {place}");
            }
        }
    }
    let at_line_1 = Refusal {
        number: 3,
        place: 1,
    };
    let broken = FILE.replace("1 3 0", "1 3 9999");
    assert_eq!(at_line_1.explanation(broken.as_bytes(), None), None);
}
