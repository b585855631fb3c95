//! The subcommand `why`: where trains wait, and which trains have no timetable.

#[allow(dead_code, reason = "other tests use the rest of it")]
mod run;

use std::time::Instant;

use gaugeviolet::Line;
use independent::rules::last_arrival;
use inputs::{booked_planned, due_planned, planned, saturday, sizes};
use inputs::{Pair, Random, Style, Traffic};
use run::{long_with, on, run, run_with, sample_text, written};

#[test]
fn why_a_timetable_costs_what_it_does() {
    let words = "\
total weighted delay 18

train 1 arrives 00:40, no delay

train 2 arrives 00:39, delay 9 minutes, weight 2: 18
  train 2 waits 9 minutes at station 2, from 00:15 to 00:24, for train 1 on segment 1
";
    assert_eq!(on("why", &["a.line"]).answer(), words);
    assert_eq!(on("why", &["a.line", "a.timetable"]).answer(), words);
}

/// Standing for a booking is told and costs nothing by itself.
#[test]
fn a_booking_that_a_train_stands_for() {
    let file = "3\n2\n2\n2\n2\nS 5 4\nS 5 4\n2\n1 3 0 200 1 20 1 20\n3 1 0 200 2 15 0 15\n\
                2\n1 2 30\n2 2 20\n";
    let words = "\
total weighted delay 8

train 1 arrives 00:50, no delay
  train 1 waits 9 minutes at station 2, from 00:21 to 00:30, for its booked minute

train 2 arrives 00:39, delay 4 minutes, weight 2: 8
  train 2 waits 9 minutes at station 2, from 00:15 to 00:24, for its booked minute and train 1 on \
segment 1
";
    assert_eq!(run_with(&["why", "-"], file.as_bytes()).answer(), words);
}

/// Late from the due minute: one train waits at no cost and then some, the other is early.
#[test]
fn due_minutes_that_are_kept_and_not() {
    let words = "\
total weighted delay 4

train 1 arrives 01:14, due 01:10, 4 minutes late, weight 1: 4
  alone it arrives 00:40, 30 minutes early, so it may wait that long at no cost
  train 1 waits 34 minutes in the yard of station 1, from 00:00 to 00:34, for train 2 on segment 1

train 2 arrives 00:30, due 00:35, 5 minutes early, no delay
";
    assert_eq!(on("why", &["a-due.line"]).answer(), words);
    let file = sample_text("a-due.line").replace("2\n1 70\n2 35\n", "1\n2 29\n");
    let words = "\
total weighted delay 20

train 1 arrives 00:40, no delay

train 2 arrives 00:39, due 00:29, 10 minutes late, weight 2: 20
  alone it arrives 00:30, 1 minute late
  train 2 waits 9 minutes at station 2, from 00:15 to 00:24, for train 1 on segment 1
";
    assert_eq!(run_with(&["why", "-"], file.as_bytes()).answer(), words);
    let kept = file.replace("2 29\n", "2 39\n");
    let told = run_with(&["why", "-"], kept.as_bytes()).answer();
    let row = "\ntrain 2 arrives 00:39, due 00:39, on time, no delay\n";
    assert!(told.contains(row), "{told}");
}

/// A train that its booking makes too late.
#[test]
fn a_booking_that_makes_it_impossible() {
    let file = "3\n2\n2\n2\n2\nS 5 4\nS 5 4\n1\n1 3 0 49 1 20 1 20\n1\n1 2 30\n";
    let told = run_with(&["why", "-"], file.as_bytes()).answer();
    let row = "  train 1: station 1 to station 3, departs 00:00 or later, alone it arrives 00:50 \
               (booked to leave station 2 at 00:30), latest 00:49\n";
    assert!(told.contains(row), "{told}");
}

/// The delay of each train, worked apart; its waits are held elsewhere.
#[test]
fn delays_of_every_size() {
    let mut random = Random::new(62);
    let draws = [planned, booked_planned, due_planned];
    for ((stations, trains), draw) in sizes().flat_map(|size| draws.map(|draw| (size, draw))) {
        let planned = draw(&mut random, stations, trains, Traffic::Mixed);
        let (line, minutes) = (&planned.line, &planned.minutes);
        let delays = line.used_trains().iter().enumerate().map(|(i, train)| {
            let (arrival, due) = (last_arrival(minutes, i, train), line.due_minute(i));
            let late = u32::from(arrival).saturating_sub(due);
            (late, late * u32::from(train.weight))
        });
        let (delays, costs): (Vec<u32>, Vec<u32>) = delays.unzip();
        let Pair { file, timetable } = planned.pair();
        let (file, timetable) = (
            written("why.line", &file),
            written("why.timetable", &timetable),
        );
        let told = run(&["why".as_ref(), file.as_os_str(), timetable.as_os_str()]).answer();
        let heads = told.lines().filter(|row| row.starts_with("train "));
        let told_delays: Vec<(u32, u32)> = heads.map(told_delay).collect();
        assert_eq!(
            told_delays,
            delays.into_iter().zip(costs.clone()).collect::<Vec<_>>()
        );
        let total = format!("total weighted delay {}\n", costs.iter().sum::<u32>());
        assert!(told.starts_with(&total), "{told}");
    }
}

/// The delay of a train and what it costs, as its row tells them.
fn told_delay(row: &str) -> (u32, u32) {
    let delay = row.split_once(", delay ").or_else(|| {
        let (_, due) = row.split_once(", due ")?;
        due.split_once(", ")
            .filter(|(_, late)| late.contains(" late, "))
    });
    let Some((_, delay)) = delay else {
        assert!(row.ends_with(", no delay"), "{row}");
        return (0, 0);
    };
    let number = |text: &str| text.parse().expect("a number");
    let (minutes, _) = delay.split_once(' ').expect("minutes");
    let (_, cost) = delay.rsplit_once(": ").expect("a cost");
    (number(minutes), number(cost))
}

/// Four trains: the first cannot be in time alone, the second and third not together; the fourth is in
/// nobody's way.
const WITHOUT: &str = "\
2\n1\n1\n1\nS 5 4\n4\n1 2 0 9 1 10\n1 2 0 12 1 10\n2 1 0 12 1 10\n1 2 600 700 1 10\n";

#[test]
fn why_there_is_no_timetable() {
    let words = "\
no timetable keeps every rule

train 1 cannot be in time even alone:
  train 1: station 1 to station 2, departs 00:00 or later, alone it arrives 00:10, latest 00:09

of the others, these 2 trains have no timetable together, and without any one of them there is one:
  train 2: station 1 to station 2, departs 00:00 or later, alone it arrives 00:10, latest 00:12
  train 3: station 2 to station 1, departs 00:00 or later, alone it arrives 00:10, latest 00:12
";
    assert_eq!(run_with(&["why", "-"], WITHOUT.as_bytes()).answer(), words);
    let alone = WITHOUT
        .replace("\n4\n", "\n2\n")
        .replace("2 1 0 12 1 10\n1 2 600 700 1 10\n", "");
    let told = run_with(&["why", "-"], alone.as_bytes()).answer();
    assert!(
        told.ends_with("\nwithout such trains there is a timetable\n"),
        "{told}"
    );
}

/// The trains that the rows of an answer begin with.
fn named(rows: &str) -> Vec<u32> {
    let rows = rows.lines().filter_map(|row| row.strip_prefix("  train "));
    let numbers = rows.filter_map(|row| row.split_once(':'));
    numbers
        .map(|(number, _)| number.parse().expect("a number"))
        .collect()
}

/// Drawn Saturdays without a timetable: the set has none, and without any one of its trains there is one.
#[test]
fn the_set_that_why_names() {
    let mut random = Random::new(51);
    let mut sizes = std::collections::BTreeSet::new();
    for _ in 0..60 {
        let line = saturday(&mut random, 8, 10, Style::PeakTight);
        let file = independent::write(&line).expect("a line within the limits");
        if gaugeviolet::plan(&file).is_ok() {
            continue;
        }
        let told = run_with(&["why", "-"], &file).answer();
        let (before, set) = told.split_once("these ").expect("a set");
        assert_eq!(named(before), [], "each can be in time alone");
        let set = named(set);
        let line = Line::read(&file).expect("an accepted file");
        let possible = |trains: &[u32]| gaugeviolet::plan(line.with_trains(trains).file()).is_ok();
        assert!(!possible(&set), "{told}");
        for left_out in &set {
            let rest: Vec<u32> = set
                .iter()
                .copied()
                .filter(|train| train != left_out)
                .collect();
            assert!(possible(&rest), "without train {left_out}: {told}");
        }
        sizes.insert(set.len());
    }
    println!("sets of {sizes:?} trains");
    assert!(sizes.len() >= 2, "{sizes:?}");
}

#[test]
fn why_says_that_it_was_cut_short() {
    let within = |file: &str| run_with(&["why", "--within", "0", "-"], file.as_bytes()).answer();
    let told = within(WITHOUT);
    assert!(told.contains("train 1 cannot be in time even alone"));
    let unknown =
        "whether there is a timetable without such trains was not known within 0 seconds\n";
    assert!(told.ends_with(unknown), "{told}");
    let told = within(&sample_text("e5.line"));
    assert!(
        told.contains("these 2 trains have no timetable together:\n"),
        "{told}"
    );
    let short =
        "cut short: whether they have one without train 1 or without train 2 was not known \
                 within 0 seconds\n";
    assert!(told.ends_with(short), "{told}");
}

/// It ends in time although the search of a trial goes on.
#[test]
fn why_ends_while_a_search_goes_on() {
    let file = long_with(&[(12, "2 1 0 0 1 10")]);
    let begun = Instant::now();
    let told = run_with(&["why", "--within", "1", "-"], file.as_bytes()).answer();
    assert!(
        told.contains("\ntrain 12 cannot be in time even alone:\n"),
        "{told}"
    );
    assert!(told.ends_with("was not known within 1 second\n"), "{told}");
    assert!(begun.elapsed().as_secs() >= 1, "it has not tried so long");
}

/// Without train 1 the search goes on and on while the others are there; without them it is short.
#[test]
fn a_trial_that_was_cut_short_is_made_again() {
    let file = long_with(&[(1, "1 2 0 12 1 10"), (12, "2 1 0 12 1 10")]);
    let told = run_with(&["why", "--within", "6", "-"], file.as_bytes()).answer();
    let set =
        "these 2 trains have no timetable together, and without any one of them there is one:\n";
    assert!(told.contains(set), "{told}");
    assert_eq!(named(&told), [1, 12]);
}
