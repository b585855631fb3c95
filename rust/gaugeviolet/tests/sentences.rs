//! The sentences of refusals against a list of all of them, and that the library gives no refusal
//! without one: on the samples and on damaged line files, timetables and stop times.

use std::collections::BTreeMap;
use std::path::Path;

use gaugeviolet::on_callers_stack::starts;
use gaugeviolet::{check, export, import, plan, read, rewrite, Cause, Refusal, FILE_BYTES};
use inputs::{booked_planned, damage_bytes, damage_lines, damaged, due_planned, sizes};
use inputs::{with_stop_times_fault, Damage, Random, StopTimesFault, Traffic};

/// Every number of the scope document and of the requests, told for place 7 where it has a place, else for 0; and its cause.
const LIST: [(u32, u32, &str, Cause); 22] = [
    (1, 0, "the line file has more than 4,096 bytes", Cause::FileLength),
    (
        2,
        7,
        "line 7: a field has the wrong form (a number is one to four digits without a leading zero, \
         a kind is S, F or D), the wrong byte follows it, the file ends early, or bytes follow its \
         last line",
        Cause::FileForm,
    ),
    (
        3,
        7,
        "line 7: a number is outside its range, or the number of segments is not that of the \
         stations less 1",
        Cause::FileRange,
    ),
    (4, 7, "line 7: the destination equals the origin", Cause::SameStation),
    (5, 0, "no timetable keeps every rule", Cause::NoTimetable),
    (6, 0, "the text has more bytes than were lent for it", Cause::LentBytes),
    (7, 0, "the timetable has more than 4,096 bytes", Cause::TimetableLength),
    (
        8,
        7,
        "line 7 of the timetable: a field has the wrong form (a number is one to four digits without \
         a leading zero, the total up to seven), the wrong byte follows it, the text ends early, or \
         bytes follow its last line",
        Cause::TimetableForm,
    ),
    (
        9,
        7,
        "line 7 of the timetable: a time is over 2,879, the number of trains or of order lists is \
         not the line's, a list's own count is over the number of trains, or a train's number is not \
         one of the line's",
        Cause::TimetableRange,
    ),
    (
        10,
        7,
        "train 7: its first departure is before its earliest minute",
        Cause::Earliest,
    ),
    (
        11,
        7,
        "train 7: on one of its segments arrival less departure is not its run",
        Cause::Run,
    ),
    (
        12,
        7,
        "train 7: at a middle station it departs before its arrival plus its stop",
        Cause::Stop,
    ),
    (
        13,
        7,
        "train 7: its last arrival is after its latest minute",
        Cause::Latest,
    ),
    (14, 7, "segment 7: two trains on it do not keep their gap", Cause::Gap),
    (
        15,
        7,
        "station 7: at some minute more trains stand there than it has tracks",
        Cause::Tracks,
    ),
    (
        16,
        7,
        "order list 7: it is not the trains of its segment and lane by departure minute",
        Cause::OrderList,
    ),
    (17, 0, "the total is not the weighted delay of the minutes", Cause::Total),
    (
        18,
        7,
        "train 7: at a middle station it departs before the minute booked there",
        Cause::Booking,
    ),
    (
        19,
        7,
        "line 7: a booking (by train and then station) or a due minute (by train) is not in rising \
         order, or a booking's station is not a middle one of its train's path",
        Cause::OutOfPlace,
    ),
    (
        20,
        7,
        "line 7 of the stop times: it is not of the form T1,00:20:00,00:24:00,2,2 under the header \
         (hours up to 47, seconds 00), arrival and departure differ where a train begins or ends, the \
         text ends early, or bytes follow its last line",
        Cause::StopTimesForm,
    ),
    (
        21,
        7,
        "line 7 of the stop times: its trip, stop or sequence is not the next one on the paths of the \
         line's trains",
        Cause::StopTimesPath,
    ),
    (
        22,
        0,
        "the list of minutes is empty, has more than 24, does not rise from each to the next or goes \
         past 2,879, fewer entries are lent than it has minutes, or the line has no such train",
        Cause::Starts,
    ),
];

fn sentence(number: u32, place: u32) -> String {
    Refusal { number, place }.sentence()
}

#[test]
fn every_number_has_its_sentence() {
    for (at, (number, place, expected, _)) in LIST.into_iter().enumerate() {
        assert_eq!(number as usize, at + 1, "a number is missing in the list");
        assert_eq!(sentence(number, place), expected);
    }
}

#[test]
fn the_place_is_told() {
    assert_eq!(
        sentence(4, 26),
        "line 26: the destination equals the origin"
    );
    assert!(sentence(9, 12).starts_with("line 12 of the timetable: "));
    assert!(sentence(21, 146).starts_with("line 146 of the stop times: "));
    assert!(sentence(16, 22).starts_with("order list 22: "));
    // Always 0 where the library gives it, so it says nothing.
    assert_eq!(sentence(5, 26), "no timetable keeps every rule");
}

#[test]
fn another_number_is_told_plainly() {
    for number in [0, 23, 31, u32::MAX] {
        assert_eq!(
            sentence(number, 3),
            format!("refused with number {number} at place 3, which has no sentence")
        );
    }
}

#[test]
fn as_an_error_it_shows_its_sentence() {
    let (number, place) = (16, 22);
    let refusal = Refusal { number, place };
    assert_eq!(refusal.in_numbers(), "refused 16 22");
    let error: Box<dyn std::error::Error> = refusal.into();
    assert_eq!(error.to_string(), sentence(16, 22));
}

#[test]
fn every_number_of_the_list_has_its_cause() {
    let cause = |number| Refusal { number, place: 0 }.cause();
    for (number, _, _, expected) in LIST {
        assert_eq!(cause(number), Some(expected));
        assert_eq!(expected.number(), number);
    }
    assert_eq!(Cause::ALL, LIST.map(|(.., cause)| cause));
    assert_eq!((cause(0), cause(23)), (None, None));
}

/// How often the library refused with each number.
#[derive(Default)]
struct Refused {
    times: BTreeMap<u32, usize>,
}

impl Refused {
    /// Holds that a refusal of the library has the sentence of the list, with its own place.
    fn note<T>(&mut self, answer: Result<T, Refusal>) {
        let Err(refusal) = answer else { return };
        let listed = LIST.iter().find(|&&(number, ..)| number == refusal.number);
        let &(_, listed_place, sentence, _) = listed.expect("a number of the scope document");
        let expected = match sentence.split_once(": ") {
            Some((place, cause)) => {
                format!(
                    "{}: {cause}",
                    place.replace('7', &refusal.place.to_string())
                )
            }
            None => sentence.to_string(),
        };
        assert_eq!(refusal.sentence(), expected);
        // A place is told exactly where there is one.
        assert_eq!(refusal.place == 0, listed_place == 0, "{refusal}");
        *self.times.entry(refusal.number).or_insert(0) += 1;
    }

    fn file(&mut self, file: &[u8]) {
        self.note(read(file));
        self.note(rewrite(file, &mut [0; 10]));
        self.note(rewrite(file, &mut [0; FILE_BYTES]));
    }

    fn ends(&self, numbers: impl Iterator<Item = u32>) {
        println!("refused {:?}", self.times);
        let seen: Vec<u32> = self.times.keys().copied().collect();
        assert_eq!(seen, numbers.collect::<Vec<u32>>());
    }
}

#[test]
fn what_is_refused_of_the_samples() {
    let folder = Path::new(env!("CARGO_MANIFEST_DIR")).join("../../samples");
    let mut refused = Refused::default();
    for entry in std::fs::read_dir(folder).expect("the samples") {
        let path = entry.expect("a sample").path();
        if path.extension().is_some_and(|end| end == "line") {
            let file = std::fs::read(&path).expect("a line file");
            refused.file(&file);
            refused.note(plan(&file));
            refused.note(check(&file, b""));
            refused.note(import(&file, b"", &mut []));
            refused.note(starts(&file, 0, &[], &mut []));
        }
    }
    refused.ends([1, 2, 3, 5, 6, 8, 19, 20, 22].into_iter());
}

#[test]
fn what_is_refused_of_damaged_texts() {
    let mut random = Random::new(5_000);
    let mut refused = Refused::default();
    for (stations, trains) in sizes() {
        let traffic = random.one_of(&[Traffic::Mixed, Traffic::Full]);
        let draw = random.one_of(&[booked_planned, due_planned]);
        let planned = draw(&mut random, stations, trains, traffic);
        for damage in [Damage::ALL; 20].concat() {
            let pair = damaged(&mut random, &planned, damage);
            refused.note(check(&pair.file, &pair.timetable));
            refused.note(export(&pair.file, &pair.timetable, &mut [0; 10]));
            refused.note(starts(&pair.file, 13, &[0], &mut []));
            refused.file(&pair.file);
            refused.file(&damage_lines(&mut random, &pair.file));
        }
        let file = planned.pair().file;
        let stop_times = independent::stop_times::write(&planned.line, &planned.minutes);
        for fault in [StopTimesFault::ALL; 20].concat() {
            let wrong = with_stop_times_fault(&mut random, &stop_times, fault);
            refused.note(import(&file, &wrong, &mut [0; 10]));
        }
        let mut long = file;
        long.resize(FILE_BYTES + 1, b'\n');
        damage_bytes(&mut random, &mut long, 3);
        refused.file(&long);
    }
    // 5 comes from solving alone.
    refused.ends((1..=22).filter(|&number| number != 5));
}
