//! Totals for many starting minutes of a train: each is what solving the file says with that train's earliest
//! altered, in the text and in the record, and what the independent code says.

mod solved;
mod starts;

use independent::search::search_within;
use independent::starts::with_earliest;
use independent::Line;
use inputs::{booked_saturday, booked_short_walks, due_saturday, due_short_walks, greatest_delay};
use inputs::{due_full_size, with_starts_fault, Fields, Question, Random};
use inputs::{question, questions, saturday, short_walks, shown, small_lines, some_saturday};
use inputs::{StartsAt, StartsCorner, StartsCorners, StartsFault, Style};
use solved::solved;
use starts::{beside_independent, Answer};

/// The file of a line with one field altered: the earliest of the question's train. Altered in the text and
/// written from the altered record it is the same.
fn altered_file(line: &Line, question: &Question, minute: u16) -> Vec<u8> {
    let number = question.train as usize - 1;
    // Before the trains are a line for each station and each segment and three with counts; a train's line
    // begins with origin and destination.
    let place = (2 * usize::from(line.station_count) + 2 + number, 2);
    let altered = Fields::of(line).text_with(place, &minute.to_string());
    let written = independent::write(&with_earliest(line, number, minute));
    assert_eq!(written.as_ref(), Ok(&altered), "minute {minute}");
    altered
}

/// The total that the library's timetable of a file ends with, or none where it has no timetable.
fn total_by_solving(file: &[u8]) -> Option<u32> {
    match solved(file) {
        Ok(text) => {
            let text = String::from_utf8(text).expect("ASCII");
            let last = text.lines().last().expect("the line of the total");
            Some(last.parse().expect("a number"))
        }
        Err(refusal) => {
            assert_eq!((refusal.number, refusal.place), (5, 0), "{}", shown(file));
            None
        }
    }
}

/// The totals for a question in order, held to the independent ones and to the library's own solving of each
/// altered file.
fn totals(line: &Line, question: &Question) -> Vec<Option<u32>> {
    let file = independent::write(line).expect("a line within the limits");
    let totals = beside_independent(&file, question);
    let totals = totals.expect("a question in order");
    for (&minute, &total) in question.minutes.iter().zip(&totals) {
        let expected = total_by_solving(&altered_file(line, question, minute));
        assert_eq!(
            total,
            expected,
            "{minute} of {question:?} of {}",
            shown(&file)
        );
    }
    totals
}

/// Asks all of it, and counts what the questions had.
fn compare(questions: impl Iterator<Item = (Line, Question)>) -> StartsCorners {
    let mut corners = StartsCorners::default();
    for (line, question) in questions {
        let totals = totals(&line, &question);
        corners.count(&line, &question, &totals);
    }
    corners
}

/// Whether the independent search ends within so many plans for every minute.
fn ends_soon(line: &Line, question: &Question, plans: u64) -> bool {
    let number = question.train as usize - 1;
    let mut altered = (question.minutes.iter()).map(|&minute| with_earliest(line, number, minute));
    altered.all(|line| search_within(&line, plans).is_ok())
}

#[test]
fn small_files() {
    let small = questions(611, small_lines(612));
    compare(small.take(21_000)).ends("small files", 250);
}

#[test]
fn files_of_every_shape() {
    let walks = short_walks(613, 2_000)
        .zip(booked_short_walks(614, 2_000))
        .zip(due_short_walks(615, 2_000));
    let lines = walks.flat_map(|((plain, booked), due)| [plain, booked, due].map(|walk| walk.line));
    let questions = questions(616, lines);
    let short = questions.filter(|(line, question)| ends_soon(line, question, 2_000));
    compare(short.take(6_000)).ends("files of every shape", 80);
}

/// A Saturday with bookings and dues or without, every fourth one of the greatest size, and a question about
/// it.
fn asked_of_saturday(random: &mut Random, style: Style, number: usize) -> (Line, Question) {
    let line = match number % 4 {
        0 => some_saturday(random, style),
        1 => booked_saturday(random, style),
        2 => due_saturday(random, style),
        _ => saturday(random, 12, 12, style),
    };
    let at = random.one_of(&[StartsAt::Apart(5), StartsAt::Apart(30), StartsAt::LastStart]);
    let question = question(random, &line, at);
    (line, question)
}

/// Saturdays of each style on which the search ends soon for every minute.
#[test]
fn saturdays() {
    let mut random = Random::new(617);
    let mut ending = Vec::new();
    for style in Style::ALL {
        let before = ending.len();
        let drawn = (0..40).map(|number| asked_of_saturday(&mut random, style, number));
        ending.extend(drawn.filter(|(line, question)| ends_soon(line, question, 20_000)));
        println!("{style:?}: {} that end", ending.len() - before);
        assert!(ending.len() - before >= 30);
    }
    let corners = compare(ending.into_iter());
    corners.ends("Saturdays", 0);
    for (corner, least) in [
        (StartsCorner::Mixed, 15),
        (StartsCorner::Rises, 30),
        (StartsCorner::Falls, 30),
        (StartsCorner::Most, 15),
        (StartsCorner::Listed, 5),
        (StartsCorner::Booked, 10),
    ] {
        assert!(corners.times(corner) >= least, "too rare: {corner:?}");
    }
}

/// Files with the longest text: every train runs for so long that none is in with the day.
#[test]
fn the_longest_files() {
    let mut random = Random::new(629);
    let lines = std::iter::repeat_with(|| due_full_size(&mut random));
    for (line, question) in questions(630, lines).take(200) {
        let totals = totals(&line, &question);
        assert!(totals.iter().all(Option::is_none));
    }
}

/// What the library answers from a thread of its own, for which as many entries as there may be are lent.
fn from_a_thread(file: &[u8], question: &Question) -> Answer {
    let totals = gaugeviolet::starts(file, question.train, &question.minutes);
    totals.map_err(|refusal| (refusal.number, refusal.place))
}

#[test]
fn a_thread_of_its_own_gives_the_same() {
    let mut random = Random::new(618);
    for (line, question) in questions(619, small_lines(620)).take(300) {
        let file = independent::write(&line).expect("a line within the limits");
        let answer = from_a_thread(&file, &question);
        assert_eq!(answer, beside_independent(&file, &question));
        for fault in [
            StartsFault::Empty,
            StartsFault::TooLong,
            StartsFault::Falling,
            StartsFault::PastTheDay,
            StartsFault::Train,
        ] {
            let wrong = with_starts_fault(&mut random, &line, &question, fault);
            assert_eq!(from_a_thread(&file, &wrong), Err((22, 0)), "{wrong:?}");
        }
    }
}

/// File A: train 2 waits for train 1, then each for the other, then neither, and at last it is in too late.
/// Worked by hand.
#[test]
fn file_a() {
    let file = include_str!("../../../samples/a.line");
    let starts = |file: &str, train, minutes: &[u16]| {
        gaugeviolet::starts(file.as_bytes(), train, minutes).expect("a question in order")
    };
    let minutes = [0, 1, 2, 9, 10, 29, 30, 43, 44, 170, 171, 2879];
    let totals = [18, 16, 15, 8, 9, 28, 28, 2, 0, 0].map(Some);
    assert_eq!(
        starts(file, 2, &minutes),
        [&totals[..], &[None, None]].concat()
    );
    assert_eq!(
        starts(file, 1, &[0, 5, 6, 33, 34]),
        [18, 28, 28, 1, 0].map(Some)
    );
    // Listed as due at its free arrival, it stays due then. Train 1 is not listed.
    let due = format!("{file}0\n1\n2 30\n");
    assert_eq!(
        starts(&due, 2, &[0, 1, 9, 44, 45]),
        [18, 18, 26, 88, 90].map(Some)
    );
    assert_eq!(
        starts(&due, 1, &[0, 5, 6, 33, 34]),
        [18, 28, 28, 1, 0].map(Some)
    );
    // Booked at 24, it may start up to 9 and goes on then. Train 1 waits for it from 2 on.
    let booked = format!("{file}1\n2 2 24\n");
    assert_eq!(
        starts(&booked, 2, &[0, 1, 2, 9, 10]),
        [0, 0, 1, 8, 9].map(Some)
    );
}

/// All trains but one are in with the last minute of the day, weighted 99 and due at 0.
#[test]
fn the_greatest_totals() {
    let file = independent::write(&greatest_delay(2878)).expect("a line within the limits");
    let others = 11 * 99 * 2879;
    let totals = [
        Some(others + 99),
        Some(others + 99 * 2878),
        Some(others + 99 * 2879),
        None,
    ];
    for train in [1, 12] {
        let answer = gaugeviolet::starts(&file, train, &[0, 2877, 2878, 2879]);
        assert_eq!(answer, Ok(totals.to_vec()));
    }
}
