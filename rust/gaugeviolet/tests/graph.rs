//! The train graph that the program draws, held against the texts of line file and timetable, and that it
//! draws nothing where either is refused.

mod picture;
#[allow(dead_code, reason = "other tests use the rest of it")]
mod run;
mod xml;

use std::collections::BTreeSet;
use std::path::Path;

use gaugeviolet::{Refusal, TIMETABLE_BYTES};
use inputs::{booked_planned, damaged, due_planned, planned, saturday, sizes};
use inputs::{with_bookings, with_dues};
use inputs::{Booked, Damage, DueAt, Fields, Pair, Random, Style, Traffic};
use picture::{hold, numbers};
use run::{run, sample, sample_text, samples_with, written};
use xml::well_formed;

/// What it draws, where all is in order.
fn drawn(arguments: &[&Path]) -> String {
    run(&[&[Path::new("graph")], arguments].concat()).answer()
}

/// Holds that it draws nothing, and says in numbers and in words why.
fn not_drawn(arguments: &[&Path], refusal: Refusal) {
    let ran = run(&[&[Path::new("graph")], arguments].concat());
    assert_eq!(ran.status, Some(1), "{arguments:?}");
    assert_eq!(ran.out, refusal.in_numbers() + "\n", "{arguments:?}");
    assert!(ran.told.contains(&refusal.sentence()), "{}", ran.told);
}

#[test]
fn every_sample_that_has_a_timetable() {
    let found = samples_with("timetable");
    assert!(found.len() >= 12, "only {} samples", found.len());
    for (file, timetable) in &found {
        let picture = drawn(&[file]);
        assert_eq!(picture, drawn(&[file, timetable]), "solved and given");
        let bytes = |path: &Path| std::fs::read(path).expect("a sample");
        hold(&picture, &bytes(file), &bytes(timetable));
    }
}

#[test]
fn the_stored_picture_is_drawn() {
    let found = samples_with("svg");
    assert!(!found.is_empty());
    for (file, stored) in &found {
        let stored = std::fs::read_to_string(stored).expect("a picture");
        assert!(drawn(&[file]) == stored, "{}", file.display());
    }
}

/// Timetables by other hands: trains that wait without need, every size and kind, full stations.
#[test]
fn planned_lines_of_every_size() {
    let mut random = Random::new(77);
    let draws = [planned, booked_planned, due_planned];
    for ((stations, trains), draw) in sizes().flat_map(|size| draws.map(|draw| (size, draw))) {
        let traffic = random.one_of(&[Traffic::Mixed, Traffic::Full]);
        let Pair { file, timetable } = draw(&mut random, stations, trains, traffic).pair();
        let picture = drawn(&[
            &written("planned.line", &file),
            &written("planned.timetable", &timetable),
        ]);
        hold(&picture, &file, &timetable);
    }
}

/// Saturdays of the greatest size: many waits, many trains at both ends of the line.
#[test]
fn saturdays_of_the_greatest_size() {
    let mut random = Random::new(79);
    for style in [Style::PeakTight, Style::Day, Style::DayTight] {
        for turn in 0..6 {
            let mut line = saturday(&mut random, 12, 12, style);
            if turn % 2 == 0 {
                line = with_bookings(&mut random, &line, &[Booked::InAnyCase, Booked::Later(9)]);
            }
            if turn % 3 == 0 {
                let times = [DueAt::Before(9), DueAt::Free, DueAt::After(40)];
                line = with_dues(&mut random, &line, &times);
            }
            let file = Fields::of(&line).text();
            let Ok(timetable) = gaugeviolet::plan(&file) else {
                continue;
            };
            let picture = drawn(&[&written("saturday.line", &file)]);
            hold(&picture, &file, &timetable);
        }
    }
}

/// Trains before and after midnight at the first station, and a day that is all of it the second.
#[test]
fn the_second_day() {
    let night = "4\n2\n2\n2\n2\n3\nD 4 3\nF 4 3\nS 4 3\n5\n1 4 1380 2000 3 20 0 20 0 20\n\
                 1 4 1440 2000 3 20 0 20 0 20\n1 4 1435 2000 3 20 0 20 0 20\n\
                 4 1 1400 2000 5 20 0 20 0 20\n1 2 1445 2000 9 30\n";
    let second = "2\n1\n1\n1\nS 5 4\n1\n1 2 1503 2879 1 5\n";
    let due = night.to_string() + "0\n4\n1 1439\n2 1501\n4 1460\n5 1475\n";
    for file in [night, second, &due] {
        let timetable = gaugeviolet::plan(file.as_bytes()).expect("a timetable");
        let picture = drawn(&[&written("night.line", file.as_bytes())]);
        hold(&picture, file.as_bytes(), &timetable);
        assert!(picture.contains(">day 2<"));
    }
}

/// A due minute up to an hour after the last arrival is shown, and one that is further away or before all
/// trains is not: there is no room for it.
#[test]
fn due_minutes_far_from_the_trains() {
    let front = "2\n1\n1\n1\nD 5 4\n3\n1 2 600 900 1 10\n1 2 600 900 1 10\n2 1 600 900 1 10\n";
    let shown = |dues: &str| {
        let file = format!("{front}0\n{dues}");
        let timetable = gaugeviolet::plan(file.as_bytes()).expect("a timetable");
        let picture = drawn(&[&written("far.line", file.as_bytes())]);
        hold(&picture, file.as_bytes(), &timetable);
        let marks = picture.matches("class=\"due\"").count();
        let legend = picture.contains(">is due at its destination at that minute<");
        assert_eq!(legend, marks > 0);
        marks
    };
    // The last arrival is at 615.
    assert_eq!(shown("3\n1 675\n2 610\n3 600\n"), 3);
    assert_eq!(shown("3\n1 676\n2 2879\n3 590\n"), 0);
    assert_eq!(shown("2\n1 0\n3 620\n"), 1);
}

#[test]
fn a_sample_that_is_refused_is_not_drawn() {
    let mut found = samples_with("refused");
    found.extend(samples_with("plan-refused"));
    assert!(found.len() >= 5, "only {} samples", found.len());
    for (file, refused) in &found {
        let text = std::fs::read_to_string(refused).expect("a refusal");
        let fields = text.trim_end().strip_prefix("refused ").expect("a refusal");
        let [number, place] = numbers(fields)[..] else {
            panic!("{text}");
        };
        let refusal = Refusal {
            number: number as u32,
            place: place as u32,
        };
        not_drawn(&[file], refusal);
    }
}

#[test]
fn a_timetable_that_is_refused_is_not_drawn() {
    let mut random = Random::new(78);
    let mut numbers = BTreeSet::new();
    for turn in 0..40 {
        let (stations, trains) = (3 + turn % 3, 3 + turn % 4);
        let planned = booked_planned(&mut random, stations, trains, Traffic::Mixed);
        for damage in Damage::ALL {
            let Pair { file, timetable } = damaged(&mut random, &planned, damage);
            let Err(refusal) = gaugeviolet::check(&file, &timetable) else {
                continue;
            };
            let file = written("refused.line", &file);
            let timetable = written("refused.timetable", &timetable);
            not_drawn(&[&file, &timetable], refusal);
            numbers.insert(refusal.number);
        }
    }
    println!("not drawn with {numbers:?}");
    assert!((7..=18).all(|number| numbers.contains(&number)));
}

/// A lawful timetable with a total of its own is refused too: the check comes before the picture.
#[test]
fn a_wrong_total_is_not_drawn() {
    let file = sample("a.line");
    let refusal = |number| Refusal { number, place: 0 };
    let text = sample_text("a.timetable").replace("18", "17");
    let wrong = written("wrong.timetable", text.as_bytes());
    not_drawn(&[&file, &wrong], refusal(17));
    let long = written("long.timetable", &[b'0'; TIMETABLE_BYTES + 1]);
    not_drawn(&[&file, &long], refusal(7));
}

#[test]
fn only_well_formed_texts_are_taken() {
    let element = well_formed("<a b=\"1\" c=\"&lt;\">x<d/>y&amp;</a>\n").expect("well-formed");
    assert_eq!(
        (element.name.as_str(), element.text.as_str()),
        ("a", "xy&amp;")
    );
    assert_eq!((element.number("b"), element.inside.len()), (1, 1));
    let bad = [
        "",
        "x",
        "<a>",
        "<a",
        "<a/",
        "<a></b>",
        "<a></a",
        "<a/><b/>",
        "x<a/>",
        "<a/>x",
        "<a b=1/>",
        "<a b/>",
        "<a b=\"1/>",
        "<a b=\"1\"c=\"2\"/>",
        "<a b=\"1\" b=\"2\"/>",
        "<a b=\"<\"/>",
        "<a b=\"&\"/>",
        "<a>&</a>",
        "<a>&x;</a>",
        "<a>]]></a>",
        "<a><b></a></b>",
        "< a/>",
        "<1/>",
        "<a><</a>",
        "</a>",
    ];
    for text in bad {
        assert!(well_formed(text).is_err(), "{text} was taken");
    }
}
