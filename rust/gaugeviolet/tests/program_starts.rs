//! The subcommand `starts` as a user gets it: the totals for minutes from which a train may set out.

#[allow(dead_code, reason = "other tests use the rest of it")]
mod run;

use std::path::{Path, PathBuf};

use independent::search::plan_by_search;
use run::{run, run_with, sample, sample_text, Ran};

/// The program's answer about a file, with a question as it is typed.
fn asked(file: &Path, question: &str) -> Ran {
    let file = file.to_str().expect("a name of the samples");
    let words = question.split_whitespace();
    let arguments: Vec<&str> = ["starts", file].into_iter().chain(words).collect();
    run(&arguments)
}

/// The questions of the samples: each with its line file, and its text.
fn stored_questions() -> Vec<(PathBuf, PathBuf, String)> {
    let entries = std::fs::read_dir(sample("")).expect("the samples");
    let paths = entries.map(|entry| entry.expect("a sample").path());
    let mut questions: Vec<_> = paths
        .filter(|path| path.extension().is_some_and(|end| end == "asked"))
        .map(|path| {
            let name = path.file_name().expect("a name").to_string_lossy();
            let (line, _) = name.split_once('.').expect("a line's name and a dot");
            let question = std::fs::read_to_string(&path).expect("a question");
            (sample(&format!("{line}.line")), path.clone(), question)
        })
        .collect();
    questions.sort();
    questions
}

/// The total of a line file with the earliest minute of a train altered, by the independent search.
fn total_apart(file: &Path, train: usize, minute: u16) -> Option<String> {
    let file = std::fs::read(file).expect("a line file");
    let mut line = independent::read(&file).expect("an accepted line file");
    line.trains[train - 1].earliest = minute;
    let altered = independent::write(&line).expect("a line within the limits");
    let timetable = plan_by_search(&altered).ok()?;
    let timetable = String::from_utf8(timetable).expect("a text");
    timetable.lines().last().map(str::to_string)
}

/// The minute and the total of a row.
fn parsed(row: &str) -> (u16, Option<String>) {
    let minute = row.split_whitespace().next().expect("a minute");
    let minute = minute.parse().expect("a number");
    let Some((_, total)) = row.split_once("  total ") else {
        assert!(row.ends_with("  no timetable"), "{row}");
        return (minute, None);
    };
    let total = total.split_whitespace().next().expect("a total");
    (minute, Some(total.to_string()))
}

#[test]
fn the_samples_are_answered_as_stored() {
    let questions = stored_questions();
    assert!(questions.len() >= 5);
    let mut refused = 0;
    for (file, path, question) in questions {
        let ran = asked(&file, &question);
        let stored = path.with_extension("starts-refused");
        if stored.exists() {
            let stored = std::fs::read_to_string(stored).expect("a refusal");
            assert_eq!((ran.status, ran.out), (Some(1), stored));
            refused += 1;
        } else {
            let stored = std::fs::read_to_string(path.with_extension("starts"));
            assert_eq!(ran.answer(), stored.expect("an answer"), "{question}");
        }
    }
    assert_eq!(refused, 1);
}

/// What is stored is what the independent search finds for the altered files.
#[test]
fn the_stored_totals_are_found_apart() {
    let mut rows = 0;
    for (file, path, question) in stored_questions() {
        let Ok(answer) = std::fs::read_to_string(path.with_extension("starts")) else {
            continue;
        };
        let numbers: Vec<u16> = question
            .split_whitespace()
            .map(|word| word.parse().expect("a number"))
            .collect();
        let expected: Vec<_> = numbers[1..]
            .iter()
            .map(|&minute| (minute, total_apart(&file, numbers[0].into(), minute)))
            .collect();
        assert_eq!(answer.lines().map(parsed).collect::<Vec<_>>(), expected);
        let totals = expected.iter().filter_map(|(_, total)| total.as_ref());
        let least = totals
            .map(|total| total.parse::<u32>().expect("a total"))
            .min();
        for row in answer.lines() {
            let total = parsed(row).1.map(|total| total.parse().expect("a total"));
            assert_eq!(
                row.ends_with("  least"),
                total.is_some() && total == least,
                "{row}"
            );
        }
        rows += expected.len();
    }
    assert!(rows >= 20);
}

/// The total of the minute that the file has is that of its timetable.
#[test]
fn the_minute_of_the_file_itself() {
    let answer = asked(&sample("saturday.line"), "6 600").answer();
    assert_eq!(answer, "600  10:00  total 605  least\n");
    let timetable = sample_text("saturday.timetable");
    assert_eq!(timetable.lines().last(), Some("605"));
}

/// Two trains from end to end; the first may be in at 1450 at the latest.
const NIGHT: &str = "2\n1\n1\n1\nS 5 4\n2\n1 2 0 1450 1 5\n2 1 1438 2879 2 15\n";

/// The columns are as wide as their widest entry, and every least total is marked.
#[test]
fn the_columns_of_the_table() {
    let rows = [
        "   9  00:09        total  0  least",
        " 999  16:39        total  0  least",
        "1429  23:49        total  0  least",
        "1435  23:55        total 12",
        "1440  00:00 day 2  total 22",
        "1446  00:06 day 2  no timetable",
    ];
    let question = [
        "starts", "-", "1", "9", "999", "1429", "1435", "1440", "1446",
    ];
    let answer = run_with(&question, NIGHT.as_bytes()).answer();
    assert_eq!(answer.lines().collect::<Vec<_>>(), rows);
    let none = run_with(&["starts", "-", "1", "1446"], NIGHT.as_bytes()).answer();
    assert_eq!(none, "1446  00:06 day 2  no timetable\n");
}

/// What standard error says after the sentence of 22.
fn told_of(ran: Ran) -> String {
    assert_eq!(
        (ran.status, &ran.out[..]),
        (Some(1), "refused 22 0\n"),
        "{}",
        ran.told
    );
    let sentence = "gaugeviolet: starts: the list of minutes is empty, has more than 24, ";
    assert!(ran.told.starts_with(sentence), "{}", ran.told);
    let (_, told) = ran.told.split_once('\n').expect("a line");
    told.to_string()
}

/// A rising list of so many minutes.
fn rising(count: usize) -> String {
    let minutes: Vec<String> = (600..600 + count)
        .map(|minute| minute.to_string())
        .collect();
    minutes.join(" ")
}

/// Holds what is found in a question about a sample, and what is allowed there.
fn hold_refused(file: &str, question: &str, found: &str, allowed: &str) {
    let told = told_of(asked(&sample(file), question));
    assert_eq!(told, format!("found: {found}\nallowed: {allowed}\n"));
}

#[test]
fn minutes_that_are_refused() {
    let hold = |minutes: &str, found: &str, allowed: &str| {
        hold_refused("a.line", &format!("1 {minutes}"), found, allowed);
    };
    hold("", "no minute", "1 to 24 minutes");
    hold(&rising(25), "25 minutes", "1 to 24 minutes");
    for (minutes, found) in [
        ("600 600", "minute 600 (10:00) after minute 600 (10:00)"),
        (
            "0 1450 10 5",
            "minute 10 (00:10) after minute 1450 (00:10 day 2)",
        ),
    ] {
        hold(minutes, found, "minutes that rise from each to the next");
    }
    // Cut down to 16 or 32 bits, the second and the third would be minutes that are allowed.
    let huge = "9".repeat(400);
    for minute in ["2880", "65546", "4294967396", &huge] {
        hold(
            minute,
            &format!("minute {minute}"),
            "minutes from 0 to 2879",
        );
    }
}

#[test]
fn trains_that_are_refused() {
    // Cut down to 32 bits, the third would be train 1.
    let huge = "9".repeat(400);
    for train in ["0", "3", "4294967297", &huge] {
        let found = format!("train {train}; the line has 2 trains");
        hold_refused(
            "a.line",
            &format!("{train} 5"),
            &found,
            "a train from 1 to 2",
        );
    }
    let found = "train 1; the line has 0 trains";
    hold_refused("e11.line", "1 5", found, "a line with trains");
}

/// The last of everything that is allowed.
#[test]
fn questions_at_the_limits() {
    let most = asked(&sample("a.line"), &format!("2 {}", rising(24))).answer();
    assert_eq!(most.lines().count(), 24);
    let last = asked(&sample("a.line"), "1 0 2879").answer();
    assert_eq!(
        last,
        "   0  00:00        total 18  least\n2879  23:59 day 2  no timetable\n"
    );
}

/// A file that is refused is told first, whatever is asked of it.
#[test]
fn the_file_comes_first() {
    for question in ["1", "0 5", "1 2880", "1 5 5", "99999999999 5"] {
        let ran = asked(&sample("e13-13.line"), question);
        assert_eq!((ran.status, &ran.out[..]), (Some(1), "refused 3 1\n"));
        assert!(ran.told.contains("\nfound: 13\n"), "{}", ran.told);
    }
}

/// What is no number is wrong usage, and no file is looked at.
#[test]
fn words_that_are_no_numbers() {
    let missing = sample("no-such.line");
    let hold = |question: &str, why: &str| {
        let ran = asked(&missing, question);
        assert_eq!((ran.status, &ran.out[..]), (Some(2), ""), "{question}");
        let told = format!(
            "gaugeviolet: {why}\nusage: gaugeviolet starts LINE TRAIN MINUTE..\n\
             `gaugeviolet help` says more\n"
        );
        assert_eq!(ran.told, told);
    };
    for word in ["six", "6.", "+6", "06", "0x6", "\u{666}"] {
        let why = format!("a train is told by its number in the file, such as 6, not by {word}");
        hold(&format!("{word} 600"), &why);
    }
    for word in ["10:00", "0600", "600,", "6e2", "noon"] {
        let why =
            format!("a minute is a number from midnight on, such as 600 for 10:00, not {word}");
        hold(&format!("6 0 {word} x"), &why);
    }
    hold("", "starts needs LINE TRAIN MINUTE..");
    hold("6 -5", "-5 is no option");
}

/// What the help shows can be typed as it stands.
#[test]
fn the_example_of_the_help() {
    let help = run(&["help", "starts"]).answer();
    let (_, example) = help
        .split_once("\nexample: gaugeviolet ")
        .expect("an example");
    let words = example.split_whitespace();
    let words: Vec<String> = words
        .map(|word| match word.strip_prefix("samples/") {
            Some(name) => sample(name).display().to_string(),
            None => word.to_string(),
        })
        .collect();
    assert_eq!(run(&words).answer().lines().count(), words.len() - 3);
}
