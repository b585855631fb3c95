//! Stop times: minutes of every kind, and texts with something wrong in them.

use std::ops::Range;

use independent::rules::Minutes;
use independent::stop_times::HEADER;
use independent::{Limits, Line};

use crate::{damage_bytes, damage_lines, Fields, Random};

/// Any minutes of a line, whether or not they keep a rule. Many are those next to the end of an hour, of a
/// day or of both days.
pub fn any_minutes(random: &mut Random, line: &Line) -> Minutes {
    let rows: Vec<Vec<u16>> = line
        .used_trains()
        .iter()
        .map(|train| (0..2 * train.legs()).map(|_| minute(random)).collect())
        .collect();
    Minutes::of_rows(line, &rows)
}

fn minute(random: &mut Random) -> u16 {
    let any = random.within(0, Limits::MINUTE.most);
    let hour = 60 * random.within(0, 47);
    let ends = [0, 1, 59, 60, 599, 600, 1439, 1440, 1441, 2878, 2879];
    let end = random.one_of(&ends);
    random.one_of(&[any, any, any, hour, hour + 59, end])
}

/// What is wrong with stop times.
#[derive(Clone, Copy, Debug, PartialEq, Eq, PartialOrd, Ord)]
pub enum StopTimesFault {
    /// Nothing.
    Nothing,
    /// A time is another one: wrong at an end of a path, and not between the ends.
    OtherTime,
    /// Both times of a line are another one, which is right.
    BothTimes,
    /// A time is put in some other way, mostly a wrong one.
    TimeText,
    /// A trip, a stop or a sequence is put in some other way, mostly a wrong one.
    NumberText,
    /// A trip, a stop or a sequence is another one: one more or less, or that of another line.
    OtherNumber,
    /// A stop is that of its trip's origin or destination, or another where one of these is due; and so may
    /// the sequence be. The two times differ.
    OtherEnd,
    /// A number is another one, and a time of the same line is put in some other way.
    NumberAndTime,
    /// Two of the above, perhaps on one line.
    Two,
    /// The header is another one.
    Header,
    /// A line ends in another way: with a carriage return, without its line feed, with an empty line.
    LineEnd,
    /// A whole line is left out, doubled or exchanged, or a comma altered.
    Lines,
    /// A few bytes are damaged.
    Bytes,
    /// The text ends early.
    CutShort,
    /// There are bytes after the end: a line that might be due, an empty one, or one byte.
    After,
}

impl StopTimesFault {
    /// All of them.
    pub const ALL: [StopTimesFault; 15] = [
        StopTimesFault::Nothing,
        StopTimesFault::OtherTime,
        StopTimesFault::BothTimes,
        StopTimesFault::TimeText,
        StopTimesFault::NumberText,
        StopTimesFault::OtherNumber,
        StopTimesFault::OtherEnd,
        StopTimesFault::NumberAndTime,
        StopTimesFault::Two,
        StopTimesFault::Header,
        StopTimesFault::LineEnd,
        StopTimesFault::Lines,
        StopTimesFault::Bytes,
        StopTimesFault::CutShort,
        StopTimesFault::After,
    ];

    /// Those of one field or two.
    const OF_FIELDS: [StopTimesFault; 6] = [
        StopTimesFault::OtherTime,
        StopTimesFault::BothTimes,
        StopTimesFault::TimeText,
        StopTimesFault::NumberText,
        StopTimesFault::OtherNumber,
        StopTimesFault::OtherEnd,
    ];
}

/// Times of another form, out of their range, or just within it.
#[rustfmt::skip]
const TIME_TEXTS: &[&str] = &[
    "00:00:00", "00:20:00", "23:59:00", "24:00:00", "47:59:00", "0:20:00", "00:60:00", "00:20:30",
    "00:20:01", "00:20:10", "48:00:00", "47:60:00", "47:59:01", "49:00:00", "50:00:00", "99:59:00",
    "00:99:00", "000:20:00", "100:00:00", "00:2:00", "00:020:00", "00:20:0", "00:20:000", "00:20",
    "00:20:", "0020:00", "00:2000", "00-20-00", "00.20.00", "00;20;00", "20", "0", "", " ", ":",
    "::", " 00:20:00", "00:20:00 ", " 0:20:00", "\"00:20:00\"", "-0:20:00", "+0:20:00", "0x:20:00",
    "00:/0:00", "00:0::00", "0::20:00", "/0:00:00", ":0:00:00", "00:20:00,", ",00:20:00",
    "00:20:00\r", "00:20:00\0", "00:20:00\n", "00:20:0O",
];

/// Numbers of another form or too long, and numbers that no stop has or some other stop.
#[rustfmt::skip]
const NUMBER_TEXTS: &[&str] = &[
    "0", "1", "2", "3", "9", "10", "11", "12", "13", "99", "100", "255", "256", "257", "258", "999",
    "1000", "9999", "00", "01", "02", "010", "0001", "00001", "10000", "10001", "65536", "65537",
    "65538", "4294967297", "", " ", "-1", "+1", "1.0", "1 ", " 1", "1x", "x", "\"1\"", "1\r", "1\0",
    "/", ":", "1,", ",1", "1\n", "\n1", "1,1",
];

/// What stands before the number of a trip, right first.
const TRIP_FRONTS: &[&str] = &[
    "T", "T", "T", "T", "t", "", "TT", "T ", " T", "\"T", "S", "U", "T0", "T\0",
];

/// Other headers than [`HEADER`].
const HEADERS: &[&str] = &[
    "",
    "trip_id",
    "trip_id,arrival_time,departure_time,stop_id",
    "trip_id,arrival_time,departure_time,stop_id,stop_sequenc",
    "trip_id,arrival_time,departure_time,stop_id,stop_sequence,",
    "trip_id,arrival_time,departure_time,stop_id,stop_sequence ",
    "trip_id,arrival_time,departure_time,stop_id,stop_sequence\r",
    "trip_id,arrival_time,departure_time,stop_id,stop_sequence\n",
    " trip_id,arrival_time,departure_time,stop_id,stop_sequence",
    "\u{feff}trip_id,arrival_time,departure_time,stop_id,stop_sequence",
    "TRIP_ID,ARRIVAL_TIME,DEPARTURE_TIME,STOP_ID,STOP_SEQUENCE",
    "trip_id, arrival_time, departure_time, stop_id, stop_sequence",
    "trip_id,departure_time,arrival_time,stop_id,stop_sequence",
    "trip_id,arrival_time,departure_time,stop_sequence,stop_id",
    "\"trip_id\",\"arrival_time\",\"departure_time\",\"stop_id\",\"stop_sequence\"",
    "T1,00:00:00,00:00:00,1,1",
];

/// The columns of stop times.
const TRIP: usize = 0;
const TIMES: [usize; 2] = [1, 2];
const STOP: usize = 3;
const SEQUENCE: usize = 4;

/// Every text that comes of putting something else in the place of one field, the header's too.
pub fn with_every_field_altered(text: &[u8]) -> impl Iterator<Item = Vec<u8>> + '_ {
    let headers = HEADERS.iter().map(move |header| with_header(text, header));
    let of_stops = fields_of_stops(text)
        .into_iter()
        .flat_map(move |(column, at)| {
            let others = other_texts(column, &text[at.clone()]);
            let put = move |other: String| {
                let (before, after) = (&text[..at.start], &text[at.end..]);
                [before, other.as_bytes(), after].concat()
            };
            others.into_iter().map(put)
        });
    headers.chain(of_stops)
}

/// The fields of all lines but the header: column and bytes of each.
fn fields_of_stops(text: &[u8]) -> Vec<(usize, Range<usize>)> {
    let first = HEADER.len() + 1;
    let mut fields = Vec::new();
    let (mut column, mut start) = (0, first);
    for (at, &byte) in text.iter().enumerate().skip(first) {
        if byte == b',' || byte == b'\n' {
            fields.push((column, start..at));
            column = if byte == b',' { column + 1 } else { 0 };
            start = at + 1;
        }
    }
    fields
}

/// What is put in the place of a field of this column.
fn other_texts(column: usize, field: &[u8]) -> Vec<String> {
    let numbers = NUMBER_TEXTS.iter();
    match column {
        TRIP => {
            let number = String::from_utf8_lossy(&field[1..]);
            let fronts = TRIP_FRONTS.iter().map(|front| format!("{front}{number}"));
            let trips = numbers.map(|number| format!("T{number}"));
            trips.chain(fronts).collect()
        }
        STOP | SEQUENCE => numbers.map(|number| number.to_string()).collect(),
        _ => TIME_TEXTS.iter().map(|time| time.to_string()).collect(),
    }
}

/// The stop times, which are in order, with a fault of this kind. Some faults leave what is in order, and
/// where there is no stop, those of its fields change nothing.
pub fn with_stop_times_fault(random: &mut Random, text: &[u8], fault: StopTimesFault) -> Vec<u8> {
    match fault {
        StopTimesFault::Nothing => text.to_vec(),
        StopTimesFault::Header => with_header(text, random.one_of(HEADERS)),
        StopTimesFault::LineEnd => with_line_end(random, text),
        StopTimesFault::Lines => damage_lines(random, text),
        StopTimesFault::Bytes => {
            let mut bytes = text.to_vec();
            let times = random.one_of(&[1, 1, 2, 5]);
            damage_bytes(random, &mut bytes, times);
            bytes
        }
        StopTimesFault::CutShort => text[..random.below(text.len())].to_vec(),
        StopTimesFault::After => with_bytes_after(random, text),
        of_fields => {
            let mut fields = Fields::of_stop_times(text);
            if fields.lines.len() > 1 {
                fault_in_fields(random, &mut fields, of_fields);
            }
            fields.text()
        }
    }
}

/// Makes a fault of the kinds that are of fields, where there are lines of stops.
fn fault_in_fields(random: &mut Random, fields: &mut Fields, fault: StopTimesFault) {
    let line = 1 + random.below(fields.lines.len() - 1);
    let column = random.one_of(&TIMES);
    match fault {
        StopTimesFault::OtherTime => fields.lines[line][column] = some_time(random),
        StopTimesFault::BothTimes => {
            let time = some_time(random);
            for column in TIMES {
                fields.lines[line][column].clone_from(&time);
            }
        }
        StopTimesFault::TimeText => put_time_text(random, fields, line),
        StopTimesFault::NumberText => put_number_text(random, fields, line),
        StopTimesFault::OtherNumber => put_other_number(random, fields, line),
        StopTimesFault::OtherEnd => put_other_end(random, fields, line),
        StopTimesFault::NumberAndTime => {
            put_other_number(random, fields, line);
            match random.below(2) {
                0 => put_time_text(random, fields, line),
                _ => fields.lines[line][column] = some_time(random),
            }
        }
        _ => {
            for _ in 0..2 {
                let one = random.one_of(&StopTimesFault::OF_FIELDS);
                fault_in_fields(random, fields, one);
            }
        }
    }
}

fn some_time(random: &mut Random) -> String {
    let minute = minute(random);
    format!("{:02}:{:02}:00", minute / 60, minute % 60)
}

fn put_time_text(random: &mut Random, fields: &mut Fields, line: usize) {
    let column = random.one_of(&TIMES);
    fields.lines[line][column] = random.one_of(TIME_TEXTS).to_string();
}

fn put_number_text(random: &mut Random, fields: &mut Fields, line: usize) {
    let number = random.one_of(NUMBER_TEXTS);
    let column = random.one_of(&[TRIP, STOP, SEQUENCE]);
    let front = match column {
        TRIP => random.one_of(TRIP_FRONTS),
        _ => "",
    };
    fields.lines[line][column] = format!("{front}{number}");
}

fn put_other_number(random: &mut Random, fields: &mut Fields, line: usize) {
    let column = random.one_of(&[TRIP, STOP, SEQUENCE]);
    let other = 1 + random.below(fields.lines.len() - 1);
    let front = if column == TRIP { "T" } else { "" };
    let field = &fields.lines[line][column];
    // What another fault put there need not be a number.
    let number: u32 = field.trim_start_matches('T').parse().unwrap_or(0);
    fields.lines[line][column] = match random.below(3) {
        0 => format!("{front}{}", number.wrapping_add(1)),
        1 => format!("{front}{}", number.saturating_sub(1)),
        _ => fields.lines[other][column].clone(),
    };
}

fn put_other_end(random: &mut Random, fields: &mut Fields, line: usize) {
    let trip = fields.lines[line][TRIP].clone();
    let of_trip = |at: &usize| fields.lines[*at].first() == Some(&trip);
    let stops: Vec<usize> = (1..fields.lines.len()).filter(of_trip).collect();
    let ends = [stops[0], stops[stops.len() - 1]];
    let other = match ends.contains(&line) {
        true => random.one_of(&stops),
        false => random.one_of(&ends),
    };
    fields.lines[line][STOP] = fields.lines[other][STOP].clone();
    if random.below(2) == 0 {
        fields.lines[line][SEQUENCE] = fields.lines[other][SEQUENCE].clone();
    }
    let [arrival, departure] = TIMES;
    loop {
        fields.lines[line][random.one_of(&TIMES)] = some_time(random);
        if fields.lines[line][arrival] != fields.lines[line][departure] {
            break;
        }
    }
}

fn with_header(text: &[u8], header: &str) -> Vec<u8> {
    [header.as_bytes(), &text[HEADER.len()..]].concat()
}

fn with_line_end(random: &mut Random, text: &[u8]) -> Vec<u8> {
    let ends: Vec<usize> = (0..text.len()).filter(|&at| text[at] == b'\n').collect();
    let (at, last) = (random.one_of(&ends), ends[ends.len() - 1]);
    let at = random.one_of(&[at, at, last]);
    let (before, after) = (&text[..at], &text[at + 1..]);
    match random.below(6) {
        0 => [before, b"\r\n", after].concat(),
        1 => [before, b"\r", after].concat(),
        2 => [before, after].concat(),
        3 => [before, b"\n\n", after].concat(),
        4 => [before, b" \n", after].concat(),
        _ => text
            .iter()
            .flat_map(|byte| match byte {
                b'\n' => &b"\r\n"[..],
                other => std::slice::from_ref(other),
            })
            .copied()
            .collect(),
    }
}

fn with_bytes_after(random: &mut Random, text: &[u8]) -> Vec<u8> {
    let mut lines: Vec<&[u8]> = text.split_inclusive(|&byte| byte == b'\n').collect();
    let some_line = random.one_of(&lines);
    let one_byte = [random.below(256) as u8];
    let long = vec![random.one_of(b"\n0T,"); 5000];
    lines.push(match random.below(7) {
        0 => some_line,
        1 => b"\n",
        2 => b"T1,00:00:00,00:00:00,1,1\n",
        3 => b"T13,00:00:00,00:00:00,1,1\n",
        4 => text,
        5 if random.below(20) == 0 => &long,
        _ => &one_byte,
    });
    lines.concat()
}
