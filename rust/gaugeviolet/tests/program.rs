//! The answers and refusals of the subcommands, as a user gets them.

#[allow(dead_code, reason = "other tests use the rest of it")]
mod run;

use std::ffi::OsStr;
use std::path::Path;

use independent::rules::{lists, Lane};
use inputs::{booked_planned, due_planned, planned, sizes, Pair, Random, Traffic};
use run::{call, on, run, run_with, sample, sample_text, samples_with, written, COMMANDS};

fn text(path: &Path) -> String {
    std::fs::read_to_string(path).expect("a sample")
}

#[test]
fn the_library_s_bytes_on_every_sample() {
    let timetables = samples_with("timetable");
    assert!(timetables.len() >= 17);
    for (line, timetable) in &timetables {
        let expected = text(timetable);
        assert_eq!(run(&["plan".as_ref(), line.as_os_str()]).answer(), expected);
        assert_eq!(
            run(&["rewrite".as_ref(), line.as_os_str()]).answer(),
            text(line)
        );
        let check = ["check".as_ref(), line.as_os_str(), timetable.as_os_str()];
        assert_eq!(run(&check).answer(), "passed\n");
    }
}

/// Holds that a command gives the stored refusal of a line file, by its status too, and names the file.
fn hold_refused(command: &str, files: &[&OsStr], refused: &Path, told: &str) {
    let ran = run(&call(command, files));
    let expected = (Some(1), text(refused));
    assert_eq!((ran.status, ran.out), expected, "{command}");
    let name = format!("gaugeviolet: {}: ", files[0].display());
    assert!(ran.told.starts_with(&name), "{}", ran.told);
    assert!(ran.told.contains(told), "{}", ran.told);
}

#[test]
fn every_command_refuses_what_the_library_refuses() {
    for (line, refused) in samples_with("refused") {
        for (command, least, _) in COMMANDS {
            let files = [line.as_os_str(); 2];
            hold_refused(command, &files[..least], &refused, "\nfound: ");
        }
    }
}

/// Where the line file is refused, it is named and not the timetable.
#[test]
fn the_file_that_is_refused_is_named() {
    let timetable = sample("a.timetable");
    for (line, refused) in samples_with("refused") {
        let files = [line.as_os_str(), timetable.as_os_str()];
        hold_refused("check", &files, &refused, "\nfound: ");
    }
}

#[test]
fn a_line_without_a_timetable() {
    for (line, refused) in samples_with("plan-refused") {
        let told = "no timetable keeps every rule\n";
        for command in ["plan", "lists", "graph"] {
            hold_refused(command, &[line.as_os_str()], &refused, told);
        }
        for command in ["read", "rewrite", "why"] {
            run(&[command.as_ref(), line.as_os_str()]).answer();
        }
    }
}

/// What comes after `&&` is not done for a timetable that is refused.
#[test]
fn a_refused_timetable_is_not_published() {
    let wrong = sample_text("a.timetable").replace("24 39", "24 38");
    let wrong = written("wrong-run.timetable", wrong.as_bytes());
    let line = sample("a.line");
    for command in ["check", "lists", "graph", "why"] {
        let ran = run(&[command.as_ref(), line.as_os_str(), wrong.as_os_str()]);
        assert_eq!(
            (ran.status, &ran.out[..]),
            (Some(1), "refused 11 2\n"),
            "{command}"
        );
        let told = format!(
            "gaugeviolet: {}: train 2: on one of its segments arrival less departure is not its run\n\
             line 3 of the timetable, column 9, train 2: arrival on segment 1\n    \
                 0 15 24 38\n            \
                         ^^\n\
             found: minute 38 (00:38)\n\
             allowed: minute 39 (00:39): departure plus the run of 15 minutes\n",
            wrong.display()
        );
        assert_eq!(ran.told, told);
    }
}

/// The train count and the train lines, with which a timetable begins.
fn train_lines(timetable: &str) -> String {
    let trains: usize = timetable.lines().next().map_or(0, |count| {
        count
            .parse()
            .expect("a timetable begins with its train count")
    });
    timetable.split_inclusive('\n').take(trains + 1).collect()
}

#[test]
fn stop_times_of_samples_out_and_back() {
    let stored = samples_with("stop_times");
    assert!(stored.len() >= 4);
    for (line, stop_times) in &stored {
        let timetable = line.with_extension("timetable");
        let export = ["export".as_ref(), line.as_os_str(), timetable.as_os_str()];
        assert_eq!(run(&export).answer(), text(stop_times));
        let import = ["import".as_ref(), line.as_os_str(), stop_times.as_os_str()];
        assert_eq!(run(&import).answer(), train_lines(&text(&timetable)));
    }
}

/// Every other sample with a timetable, too.
#[test]
fn every_timetable_out_and_back() {
    for (line, timetable) in samples_with("timetable") {
        let export = ["export".as_ref(), line.as_os_str(), timetable.as_os_str()];
        let stop_times = run(&export).answer();
        let import = ["import".as_ref(), line.as_os_str(), "-".as_ref()];
        let minutes = run_with(&import, stop_times.as_bytes()).answer();
        assert_eq!(minutes, train_lines(&text(&timetable)));
    }
}

/// The rules, the order lists and the total are not tested; the text is.
#[test]
fn what_is_exported_need_not_keep_the_rules() {
    let right = sample_text("a.timetable");
    let line = sample("a.line");
    let export = ["export".as_ref(), line.as_os_str(), "-".as_ref()];
    let wrong = "2\n0 20 10 40\n9 1 24 39\n2\n0\n1 1\n7\n";
    let exported = "\
trip_id,arrival_time,departure_time,stop_id,stop_sequence
T1,00:00:00,00:00:00,1,1
T1,00:20:00,00:10:00,2,2
T1,00:40:00,00:40:00,3,3
T2,00:09:00,00:09:00,3,1
T2,00:01:00,00:24:00,2,2
T2,00:39:00,00:39:00,1,3
";
    assert_eq!(run_with(&export, wrong.as_bytes()).answer(), exported);
    for (from, to, refusal) in [
        ("18\n", "18", "refused 8 7\n"),
        ("40\n", "2880\n", "refused 9 2\n"),
        ("2 2 1", "2 2 3", "refused 9 6\n"),
    ] {
        let ran = run_with(&export, right.replacen(from, to, 1).as_bytes());
        assert_eq!((ran.status, &ran.out[..]), (Some(1), refusal));
        let about = "gaugeviolet: standard input: line ";
        assert!(ran.told.starts_with(about), "{}", ran.told);
        assert!(ran.told.contains("\nfound: "), "{}", ran.told);
    }
}

/// Stop times that are refused are named, quoted and explained.
#[test]
fn stop_times_that_are_refused() {
    let line = sample("a.line");
    let refused = |name: &str| {
        let stop_times = sample(&format!("a.{name}.stop_times"));
        let ran = run(&["import".as_ref(), line.as_os_str(), stop_times.as_os_str()]);
        let stored = sample_text(&format!("a.{name}.import-refused"));
        assert_eq!((ran.status, ran.out), (Some(1), stored));
        let about = format!("gaugeviolet: {}: ", stop_times.display());
        ran.told.strip_prefix(&about).expect("its name").to_string()
    };
    assert_eq!(
        refused("by-stop"),
        "line 5 of the stop times: its trip, stop or sequence is not the next one on the paths of the \
         line's trains\n\
         line 5 of the stop times, column 22, train 2 at station 3: stop_id\n    \
             T2,00:39:00,00:39:00,1,3\n                         \
                                  ^\n\
         found: 1\n\
         allowed: 3\n\
         hint: train 2 goes from station 3 to station 1, so line 5 is T2,HH:MM:00,HH:MM:00,3,1\n"
    );
    let crlf = refused("crlf");
    let explained = "line 1 of the stop times, column 45, header: name of column 5\n";
    assert!(crlf.contains(explained), "{crlf}");
    assert!(
        crlf.contains("\nhint: the line ends with CR LF, "),
        "{crlf}"
    );
}

#[test]
fn a_line_in_words() {
    let file = "2\n1\n12\n1\nF 5 4\n2\n1 2 360 1500 2 15\n2 1 1430 1440 0 20\n";
    let words = "\
2 stations, 1 segment, 2 trains

station 1: 1 track
station 2: 12 tracks

segment 1, stations 1 to 2: F, single track, trains of one direction follow each other; \
following gap 5, opposing gap 4

train 1, outbound, station 1 to station 2, weight 2
  departs 06:00 (minute 360) or later, arrives 01:00 day 2 (minute 1500) or earlier
  alone on the line it takes 15 minutes, 1125 minutes to spare:
    06:00 from station 1, 15 over segment 1, 06:15 at station 2

train 2, inbound, station 2 to station 1, weight 0
  departs 23:50 (minute 1430) or later, arrives 00:00 day 2 (minute 1440) or earlier
  alone on the line it takes 20 minutes, which is too late:
    23:50 from station 2, 20 over segment 1, 00:10 day 2 at station 1
";
    assert_eq!(run_with(&["read", "-"], file.as_bytes()).answer(), words);
    let middle = on("read", &["saturday.line"]).answer();
    let rows = "    \
    10:15 from station 5, 8 over segment 4, 10:23 at station 4, stop 1
    10:24 from station 4, 14 over segment 3, 10:38 at station 3, stop 1
";
    assert!(middle.contains(rows), "{middle}");
    let segments = "
segment 4, stations 4 to 5: S, single track, one train at a time; following gap 4, opposing gap 3
segment 5, stations 5 to 6: D, double track; following gap 4
";
    assert!(middle.contains(segments), "{middle}");
}

/// Two trains that meet at station 2, where both are booked: the first later than it could leave, the
/// second before it is there.
const BOOKED: &str = "3\n2\n2\n2\n2\nS 5 4\nS 5 4\n2\n1 3 0 200 1 20 1 20\n3 1 0 200 2 15 0 15\n\
                      2\n1 2 30\n2 2 14\n";

#[test]
fn bookings_in_words() {
    let told = run_with(&["read", "-"], BOOKED.as_bytes()).answer();
    assert!(told.starts_with("3 stations, 2 segments, 2 trains, 2 bookings\n\n"));
    let trains = "
train 1, outbound, station 1 to station 3, weight 1
  departs 00:00 (minute 0) or later, arrives 03:20 (minute 200) or earlier
  is booked to leave station 2 at 00:30 (minute 30) or later
  alone on the line it takes 50 minutes, 150 minutes to spare:
    00:00 from station 1, 20 over segment 1, 00:20 at station 2, stop 1
    00:30 from station 2, 20 over segment 2, 00:50 at station 3

train 2, inbound, station 3 to station 1, weight 2
  departs 00:00 (minute 0) or later, arrives 03:20 (minute 200) or earlier
  is booked to leave station 2 at 00:14 (minute 14) or later
  alone on the line it takes 30 minutes, 170 minutes to spare:
    00:00 from station 3, 15 over segment 2, 00:15 at station 2, stop 0
    00:15 from station 2, 15 over segment 1, 00:30 at station 1
";
    assert!(told.ends_with(trains), "{told}");
}

/// The same two trains: the first is due before it can be there, the second later.
fn with_dues() -> String {
    BOOKED.to_string() + "2\n1 45\n2 36\n"
}

#[test]
fn due_minutes_in_words() {
    let told = run_with(&["read", "-"], with_dues().as_bytes()).answer();
    assert!(told.starts_with("3 stations, 2 segments, 2 trains, 2 bookings, 2 due minutes\n\n"));
    let first = "
  is booked to leave station 2 at 00:30 (minute 30) or later
  is due at 00:45 (minute 45); alone it arrives 00:50, 5 minutes late
  alone on the line it takes 50 minutes, 150 minutes to spare:
";
    assert!(told.contains(first), "{told}");
    let second = "\n  is due at 00:36 (minute 36); alone it arrives 00:30, 6 minutes early\n";
    assert!(told.contains(second), "{told}");
    let one = BOOKED.to_string() + "1\n2 30\n";
    let told = run_with(&["read", "-"], one.as_bytes()).answer();
    assert!(told.starts_with("3 stations, 2 segments, 2 trains, 2 bookings, 1 due minute\n\n"));
    let row = "\n  is due at 00:30 (minute 30); alone it arrives 00:30, on time\n";
    assert_eq!(told.matches("is due").count(), told.matches(row).count());
    assert_eq!(told.matches(row).count(), 1);
}

#[test]
fn due_minutes_on_the_sheet() {
    let sheet = "\
segment 1, stations 1 to 2 (S)
  train  1  outbound  departs 00:00        arrives 00:20
  train  2  inbound   departs 00:24        arrives 00:39        booked 00:14        due 00:36

segment 2, stations 2 to 3 (S)
  train  2  inbound   departs 00:00        arrives 00:15
  train  1  outbound  departs 00:30        arrives 00:50        booked 00:30        due 00:45
";
    let told = run_with(&["lists", "-"], with_dues().as_bytes()).answer();
    assert_eq!(told, sheet);
    let told = on("lists", &["a-due.line"]).answer();
    let row = "  train  2  inbound   departs 00:15        arrives 00:30        due 00:35\n";
    assert!(told.contains(row), "{told}");
}

#[test]
fn booked_departures_on_the_sheet() {
    let sheet = "\
segment 1, stations 1 to 2 (S)
  train  1  outbound  departs 00:00        arrives 00:20
  train  2  inbound   departs 00:24        arrives 00:39        booked 00:14

segment 2, stations 2 to 3 (S)
  train  2  inbound   departs 00:00        arrives 00:15
  train  1  outbound  departs 00:30        arrives 00:50        booked 00:30
";
    assert_eq!(run_with(&["lists", "-"], BOOKED.as_bytes()).answer(), sheet);
}

#[test]
fn the_sheet_for_the_signallers() {
    let file = "2\n1\n1\n1\nD 5 4\n3\n1 2 1430 2000 2 15\n1 2 1420 2000 0 5\n1 2 1439 2000 0 5\n";
    let sheet = "\
segment 1, stations 1 to 2 (D), outbound
  train  2  outbound  departs 23:40        arrives 23:45
  train  1  outbound  departs 23:50        arrives 00:05 day 2
  train  3  outbound  departs 00:05 day 2  arrives 00:10 day 2

segment 1, stations 1 to 2 (D), inbound
  no train
";
    assert_eq!(run_with(&["lists", "-"], file.as_bytes()).answer(), sheet);
    let given = on("lists", &["a.line", "a.timetable"]).answer();
    assert_eq!(given, on("lists", &["a.line"]).answer());
    assert!(given.contains("  train  2  inbound   departs 00:24        arrives 00:39\n"));
}

/// A minute as a time of day, apart from the crate's.
fn clock(minute: u16) -> String {
    let day = if minute < 1440 { "" } else { " day 2" };
    format!("{:02}:{:02}{day}", minute / 60 % 24, minute % 60)
}

/// The numbers of each line of a timetable's text.
fn rows(timetable: &[u8]) -> Vec<Vec<u16>> {
    let text = std::str::from_utf8(timetable).expect("a text");
    let row = |line: &str| {
        line.split(' ')
            .filter_map(|field| field.parse().ok())
            .collect()
    };
    text.lines().map(row).collect()
}

/// The sheet of one order list as it is to be, worked from the texts.
fn expected_sheet(
    line: &independent::Line,
    (p, lane): (usize, Lane),
    rows: &[Vec<u16>],
    list: usize,
) -> String {
    let lane = match lane {
        Lane::Both => "",
        Lane::Outbound => ", outbound",
        Lane::Inbound => ", inbound",
    };
    let (kind, from, to) = (char::from(line.segments[p].kind.letter()), p + 1, p + 2);
    let mut sheet = format!("segment {from}, stations {from} to {to} ({kind}){lane}\n");
    let listed = &rows[2 + usize::from(line.train_count) + list][1..];
    for &number in listed {
        let train = &line.trains[usize::from(number) - 1];
        let leg = (0..train.legs()).find(|&leg| train.segment(leg) == p);
        let at = 2 * leg.expect("it goes there");
        let minutes = &rows[usize::from(number)];
        let direction = if train.outbound() {
            "outbound"
        } else {
            "inbound "
        };
        let (departs, arrives) = (clock(minutes[at]), clock(minutes[at + 1]));
        let row =
            format!("  train {number:>2}  {direction}  departs {departs:<11}  arrives {arrives}");
        let ends = if train.outbound() {
            (from, to)
        } else {
            (to, from)
        };
        sheet += &with_minutes(line, row, number, ends);
        sheet += "\n";
    }
    if listed.is_empty() {
        sheet += "  no train\n";
    }
    sheet
}

/// The row of a train with the minute that is booked where it comes from, and with its due minute where it
/// ends.
fn with_minutes(
    line: &independent::Line,
    mut row: String,
    number: u16,
    (from, to): (usize, usize),
) -> String {
    let mut bookings = line.used_bookings().iter();
    let booking = bookings.find(|it| (it.train, usize::from(it.station)) == (number, from));
    if let Some(booking) = booking {
        row = format!("{row:<62}  booked {}", clock(booking.minute));
    }
    let at = usize::from(number) - 1;
    let due = line.listed_due(at);
    if let Some(due) = due.filter(|_| usize::from(line.trains[at].destination) == to) {
        let width = if booking.is_some() { 82 } else { 62 };
        row = format!("{row:<width$}  due {}", clock(due));
    }
    row
}

#[test]
fn sheets_of_every_size() {
    let mut random = Random::new(61);
    let draws = [planned, booked_planned, due_planned];
    for ((stations, trains), draw) in sizes().flat_map(|size| draws.map(|draw| (size, draw))) {
        let planned = draw(&mut random, stations, trains, Traffic::Mixed);
        let Pair { file, timetable } = planned.pair();
        let (line, rows) = (&planned.line, rows(&timetable));
        let lists = lists(line).enumerate();
        let expected: Vec<String> = lists
            .map(|(at, list)| expected_sheet(line, list, &rows, at))
            .collect();
        let (file, timetable) = (
            written("sheet.line", &file),
            written("sheet.timetable", &timetable),
        );
        let lists = run(&["lists".as_ref(), file.as_os_str(), timetable.as_os_str()]);
        assert_eq!(lists.answer(), expected.join("\n"));
    }
}
