//! Exported stop times in the hands of others: Python's csv module reads them, and they are held to the
//! public GTFS reference by a program of their own (`gtfs/stop_times.py`), which also refuses what is wrong.

use std::fs;
use std::io::Write;
use std::path::Path;
use std::process::{Command, Stdio};
use std::thread;

use gaugeviolet::STOP_TIMES_BYTES;
use independent::{timetable, Train};
use inputs::{booked_small_line, due_small_line, small_line, Random};

const PROGRAM: &str = concat!(env!("CARGO_MANIFEST_DIR"), "/tests/gtfs/stop_times.py");
const SAMPLES: &str = concat!(env!("CARGO_MANIFEST_DIR"), "/../../samples");

/// What the program says of each of these texts, in one run.
fn answers(texts: &[Vec<u8>]) -> Vec<String> {
    let mut python = Command::new("python3")
        .arg(PROGRAM)
        .stdin(Stdio::piped())
        .stdout(Stdio::piped())
        .spawn()
        .expect("python3 is on the machine");
    let mut given = python.stdin.take().expect("its standard input");
    // It answers as it reads, so somebody has to listen while the texts are given.
    let output = thread::scope(|scope| {
        scope.spawn(move || {
            for text in texts {
                writeln!(given, "{}", text.len()).expect("it reads");
                given.write_all(text).expect("it reads");
            }
        });
        python.wait_with_output().expect("its answers")
    });
    assert!(output.status.success(), "python3 failed");
    let told = String::from_utf8(output.stdout).expect("a text");
    let answers: Vec<String> = told.lines().map(str::to_string).collect();
    assert_eq!(answers.len(), texts.len());
    answers
}

fn exported(file: &[u8], timetable: &[u8]) -> Vec<u8> {
    let mut lent = [0; STOP_TIMES_BYTES];
    let length = gaugeviolet::export(file, timetable, &mut lent).expect("a timetable of the file");
    lent[..length].to_vec()
}

/// What the program is to say of the stop times of a timetable, worked out from its rows of minutes.
fn expected(file: &[u8], text: &[u8]) -> String {
    let line = independent::read(file).expect("a line file");
    let timetable = timetable::read(&line, text).expect("a timetable");
    let rows = timetable.minutes.rows(&line);
    let mut said = "valid".to_string();
    for (number, (train, row)) in line.used_trains().iter().zip(&rows).enumerate() {
        let (first, last) = (row[0], row[row.len() - 1]);
        // At the ends the one minute stands twice; between them arrival and departure follow each other.
        let times = [&[first][..], row, &[last]].concat();
        for (call, both) in times.chunks(2).enumerate() {
            let (station, sequence) = (station(train, call), call + 1);
            let [arrival, departure] = [both[0], both[1]].map(|minute| 60 * u32::from(minute));
            said += &format!(
                " T{} {station} {sequence} {arrival} {departure}",
                number + 1
            );
        }
    }
    said
}

/// The stations from the origin on, one after another.
fn station(train: &Train, call: usize) -> usize {
    let (origin, destination) = (usize::from(train.origin), usize::from(train.destination));
    if origin < destination {
        origin + call
    } else {
        origin - call
    }
}

/// The samples that have a timetable.
fn samples() -> Vec<(Vec<u8>, Vec<u8>)> {
    let files = fs::read_dir(SAMPLES).expect("the samples");
    let paths = files.map(|file| file.expect("a sample").path());
    let timetables = paths.filter(|path| path.extension().is_some_and(|it| it == "timetable"));
    let read = |path: &Path| fs::read(path).expect("a sample");
    timetables
        .map(|path| (read(&path.with_extension("line")), read(&path)))
        .collect()
}

/// Small files with the timetables that the library plans for them.
fn planned() -> Vec<(Vec<u8>, Vec<u8>)> {
    let mut random = Random::new(430);
    let mut pairs = Vec::new();
    while pairs.len() < 500 {
        let (stations, trains) = (random.within(2, 5), random.within(1, 4));
        let draw = random.one_of(&[small_line, booked_small_line, due_small_line]);
        let mut line = draw(&mut random, stations, trains);
        // Some run over midnight.
        let later = random.one_of(&[0, 600, 1430, 1435]);
        for train in &mut line.trains[..usize::from(trains)] {
            train.earliest += later;
            train.latest += later;
        }
        let file = independent::write(&line).expect("a line within the limits");
        if let Ok(timetable) = gaugeviolet::plan(&file) {
            pairs.push((file, timetable));
        }
    }
    pairs
}

#[test]
fn what_is_exported_of_lawful_timetables_is_valid() {
    let pairs = [planned(), samples()].concat();
    let texts: Vec<Vec<u8>> = pairs
        .iter()
        .map(|(file, timetable)| exported(file, timetable))
        .collect();
    let past_midnight = texts
        .iter()
        .filter(|text| text.windows(4).any(|four| four == b",24:"))
        .count();
    println!("{} stop times, {past_midnight} past midnight", texts.len());
    assert!(texts.len() >= 515 && past_midnight >= 50);
    let answers = answers(&texts);
    for ((file, timetable), answer) in pairs.iter().zip(&answers) {
        assert_eq!(answer, &expected(file, timetable));
    }
}

const FILE_A: &[u8] = include_bytes!("../../../samples/a.line");

/// Rules are not judged by the export: what goes back in time is exported, and is then not valid.
#[test]
fn what_goes_back_in_time_is_not_valid() {
    let rows = [
        ("0 20 20 40", true),
        ("0 20 19 40", false),
        ("21 20 20 40", false),
        ("0 20 41 40", false),
        ("40 40 40 40", true),
        ("0 20 1439 1440", true),
        ("0 2879 2879 0", false),
    ];
    let texts = rows.map(|(row, _)| {
        let timetable = format!("2\n{row}\n0 15 24 39\n2\n0\n0\n0\n");
        exported(FILE_A, timetable.as_bytes())
    });
    for ((row, valid), answer) in rows.iter().zip(answers(&texts)) {
        match valid {
            true => assert!(answer.starts_with("valid "), "{row}: {answer}"),
            false => assert_eq!(answer, "invalid T1: a time goes back", "{row}"),
        }
    }
}

/// A program that passes everything shows nothing.
#[test]
fn what_is_wrong_is_refused() {
    let good = "trip_id,arrival_time,departure_time,stop_id,stop_sequence\n\
                T1,00:00:00,00:00:00,1,1\nT1,00:20:00,00:20:00,2,2\nT1,00:40:00,00:40:00,3,3\n";
    let wrong: [(&str, &str, &str); 22] = [
        ("trip_id", "trip", "no column trip_id"),
        ("stop_id", "stop", "no column stop_id"),
        ("stop_sequence", "stop_sequence,stop_id", "a column twice"),
        ("stop_sequence", "Stop_sequence", "no column stop_sequence"),
        ("arrival_time", "arrival", "no column arrival_time"),
        ("departure_time", "", "no column departure_time"),
        (",3,3\n", ",3,3", "a line without its end"),
        ("T1,00:20:00", ",00:20:00", "line 3: no trip"),
        (",2,2", ",,2", "line 3: no stop"),
        (",2,2", ",2,", "line 3: no sequence"),
        (",2,2", ",2,-2", "line 3: no sequence"),
        (",2,2", ",2,2.0", "line 3: no sequence"),
        (",2,2", ",2,1", "T1: the sequence does not rise"),
        (",2,2", ",2,3", "T1: the sequence does not rise"),
        (",2,2", ",2,2,", "line 3: 6 fields"),
        (",2,2", ", 2,2", "line 3: spaces around a field"),
        (",2,2", ",\"2,2", "no csv: unexpected end of data"),
        ("00:20:00,2", "00:60:00,2", "line 3: no time"),
        ("00:20:00,2", "0020:00,2", "line 3: no time"),
        ("00:20:00,2", "00:20,2", "line 3: no time"),
        ("00:20:00,2", "00:19:00,2", "T1: a time goes back"),
        ("00:40:00,3", ",3", "T1: no time at an end"),
    ];
    let mut texts = vec![good.as_bytes().to_vec()];
    for (right, other, _) in wrong {
        let text = good.replacen(right, other, 1);
        assert_ne!(text, good, "{right}");
        texts.push(text.into_bytes());
    }
    let answers = answers(&texts);
    assert_eq!(
        answers[0],
        "valid T1 1 1 0 0 T1 2 2 1200 1200 T1 3 3 2400 2400"
    );
    for ((_, other, told), answer) in wrong.iter().zip(&answers[1..]) {
        assert_eq!(answer, &format!("invalid {told}"), "{other}");
    }
}
