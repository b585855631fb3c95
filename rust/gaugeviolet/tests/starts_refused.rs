//! Questions about starting minutes that are refused: by the file's own number first, then by 22 with place 0,
//! and no entry changes.

mod starts;

use gaugeviolet::FILE_BYTES;
use independent::Line;
use inputs::{damage_bytes, damage_lines, questions, shown, small_lines, with_starts_fault};
use inputs::{due_small_line, with_due_fault, DueFault, Fields};
use inputs::{Least, Question, Random, Seen, StartsFault};
use starts::{beside_independent, Answer};

const DAMAGED: Least = Least {
    name: "damaged files",
    inputs: 100_000,
    accepted: 10_000,
    numbers: &[
        (1, 5_000, 1),
        (2, 30_000, 20),
        (3, 15_000, 20),
        (4, 300, 7),
        (19, 2_500, 12),
        (22, 10_000, 1),
    ],
};

#[test]
fn every_fault() {
    let mut random = Random::new(621);
    let mut refused = 0;
    for (line, question) in questions(622, small_lines(623)).take(1_500) {
        let file = independent::write(&line).expect("a line within the limits");
        for fault in StartsFault::ALL.into_iter().cycle().take(80) {
            let wrong = with_starts_fault(&mut random, &line, &question, fault);
            let answer = beside_independent(&file, &wrong);
            assert_eq!(answer, Err((22, 0)), "{fault:?}: {wrong:?}");
            refused += 1;
        }
    }
    println!("{refused} questions refused");
    assert!(refused >= 100_000);
}

/// A list of 24 that does not rise at one place, or goes past the day from one place on, or lacks an entry.
#[test]
fn every_place_of_a_list() {
    let file = include_bytes!("../../../samples/a.line");
    let ask = |minutes: Vec<u16>, entries| {
        let train = 2;
        let question = Question {
            train,
            minutes,
            entries,
        };
        beside_independent(file, &question)
    };
    for count in 1..=24 {
        let list: Vec<u16> = (100..100 + count).collect();
        let entries = usize::from(count);
        for few in 0..entries {
            assert_eq!(ask(list.clone(), few), Err((22, 0)));
        }
        assert!(ask(list.clone(), entries).is_ok() && ask(list.clone(), entries + 1).is_ok());
        for at in 0..entries {
            let mut past = list.clone();
            past[at..]
                .iter_mut()
                .for_each(|minute| *minute += 2780 - at as u16);
            assert_eq!(past[at], 2880);
            assert_eq!(ask(past, entries), Err((22, 0)));
        }
        for at in 1..entries {
            for wrong in [list[at - 1], list[at - 1] - 1, 0] {
                let mut falls = list.clone();
                falls[at] = wrong;
                assert_eq!(ask(falls, entries), Err((22, 0)));
            }
        }
    }
    assert!(ask((2856..=2879).collect(), 24).is_ok());
    assert_eq!(ask((2856..=2880).collect(), 25), Err((22, 0)));
}

/// Holds that a file is refused as reading refuses it, whatever is asked, and the question otherwise.
fn file_comes_first(file: &[u8], question: &Question) -> Answer {
    let answer = beside_independent(file, question);
    match (gaugeviolet::read(file), &answer) {
        (Err(refusal), _) => {
            let numbers = (refusal.number, refusal.place);
            assert_eq!(answer, Err(numbers), "{question:?} of {}", shown(file));
        }
        (Ok(()), Err(refused)) => assert_eq!(*refused, (22, 0)),
        (Ok(()), Ok(_)) => {}
    }
    answer
}

/// The file of a line, damaged in some way, or as it is.
fn damaged_file(random: &mut Random, line: &Line) -> Vec<u8> {
    let mut file = independent::write(line).expect("a line within the limits");
    match random.below(8) {
        0 => file.truncate(random.below(file.len())),
        1 => file.resize(FILE_BYTES + random.below(3), b'\n'),
        2 => file = damage_lines(random, &file),
        3 | 4 => {
            let fields = Fields::of(line);
            let place = random.one_of(&fields.places());
            let number =
                random.one_of(&["0", "1", "2", "3", "12", "13", "61", "241", "2880", "9999"]);
            file = fields.text_with(place, number);
        }
        5 => {
            let due = due_small_line(random, line.station_count, line.train_count);
            let fault = random.one_of(&DueFault::ALL);
            file = Fields::of(&with_due_fault(random, &due, fault)).text();
        }
        _ => {
            let times = random.one_of(&[0, 1, 1, 3]);
            damage_bytes(random, &mut file, times);
        }
    }
    file
}

/// Damaged files with questions in order, and with questions that are themselves refused.
#[test]
fn the_files_own_numbers_come_first() {
    let mut random = Random::new(624);
    let mut seen = Seen::default();
    for (line, question) in questions(625, small_lines(626)).take(2_600) {
        for number in 0..40 {
            let file = damaged_file(&mut random, &line);
            let fault = random.one_of(&StartsFault::ALL);
            let question = match number % 2 {
                0 => question.clone(),
                _ => with_starts_fault(&mut random, &line, &question, fault),
            };
            let answer = file_comes_first(&file, &question);
            seen.input(answer.map(|_| ()));
        }
    }
    seen.ends(&DAMAGED);
}

/// Cut short at every byte, with a question in order and with an empty list.
#[test]
fn files_cut_short() {
    let mut refused = 0;
    for (line, question) in questions(627, small_lines(628)).take(300) {
        let file = independent::write(&line).expect("a line within the limits");
        let nothing = Question {
            minutes: Vec::new(),
            ..question.clone()
        };
        for end in 0..file.len() {
            let in_order = file_comes_first(&file[..end], &question);
            let empty = file_comes_first(&file[..end], &nothing);
            // Where a section ends, what is left may be a file.
            refused += usize::from(in_order.is_err());
            assert!(empty.is_err() && (in_order.is_ok() || in_order == empty));
        }
    }
    println!("{refused} files cut short and refused");
    assert!(refused >= 10_000);
}
