//! How the program is called: standard input, files that cannot be read, wrong usage, help.

#[allow(dead_code, reason = "other tests use the rest of it")]
mod run;

use std::process::Command;

use run::{call, run, run_with, sample, sample_text, written, Ran, COMMANDS, PROGRAM};

#[test]
fn standard_input() {
    let line = sample_text("a.line");
    let timetable = sample_text("a.timetable");
    let file = sample("a.line");
    assert_eq!(
        run_with(&["plan", "-"], line.as_bytes()).answer(),
        timetable
    );
    let check = ["check".as_ref(), file.as_os_str(), "-".as_ref()];
    assert_eq!(run_with(&check, timetable.as_bytes()).answer(), "passed\n");
    let graph = ["graph".as_ref(), file.as_os_str(), "-".as_ref()];
    assert_eq!(
        run_with(&graph, timetable.as_bytes()).answer(),
        sample_text("a.svg")
    );
    let import = ["import".as_ref(), file.as_os_str(), "-".as_ref()];
    let export = ["export".as_ref(), file.as_os_str(), "-".as_ref()];
    let stop_times = run_with(&export, timetable.as_bytes()).answer();
    let minutes = run_with(&import, stop_times.as_bytes()).answer();
    assert_eq!(minutes, "2\n0 20 20 40\n0 15 24 39\n");
    let ran = run_with(&["read", "-"], b"13\n");
    assert!(
        ran.told
            .starts_with("gaugeviolet: standard input: line 1: "),
        "{}",
        ran.told
    );
    // It is read once, so it cannot be both files.
    let ran = run_with(&["check", "-", "-"], line.as_bytes());
    assert_eq!((ran.status, &ran.out[..]), (Some(2), ""));
    assert!(ran.told.contains("only one file can be standard input"));
}

/// Bytes without end are refused as too long.
#[test]
fn input_without_end() {
    let ran = run(&["read", "/dev/zero"]);
    assert_eq!((ran.status, &ran.out[..]), (Some(1), "refused 1 0\n"));
    let told =
        "found: 65536 bytes\nallowed: at most 4096 bytes\nonly the first 65536 bytes were read\n";
    assert!(ran.told.ends_with(told), "{}", ran.told);
    let long = written("too-long.line", &[b'1'; 4097]);
    let ran = run(&["plan".as_ref(), long.as_os_str()]);
    assert_eq!((ran.status, &ran.out[..]), (Some(1), "refused 1 0\n"));
    let told = "found: 4097 bytes\nallowed: at most 4096 bytes\n";
    assert!(ran.told.ends_with(told), "{}", ran.told);
    let line = sample("a.line");
    let ran = run(&["check".as_ref(), line.as_os_str(), long.as_os_str()]);
    assert_eq!((ran.status, &ran.out[..]), (Some(1), "refused 7 0\n"));
    let about = format!("gaugeviolet: {}: the timetable has more ", long.display());
    assert!(ran.told.starts_with(&about), "{}", ran.told);
    assert!(ran.told.ends_with(told), "{}", ran.told);
    let export = ["export".as_ref(), line.as_os_str(), long.as_os_str()];
    assert_eq!(run(&export), ran);
    // Stop times have no length of their own: the first line without end is wrong.
    let ran = run(&["import".as_ref(), line.as_os_str(), "/dev/zero".as_ref()]);
    assert_eq!((ran.status, &ran.out[..]), (Some(1), "refused 20 1\n"));
    let told = "only the first 65536 bytes were read\n";
    assert!(ran.told.ends_with(told), "{}", ran.told);
}

/// Holds that a file cannot be read, which is told by its name.
fn hold_unread(ran: Ran, name: &str) {
    assert_eq!((ran.status, &ran.out[..]), (Some(2), ""), "{}", ran.told);
    let told = format!("gaugeviolet: {name}: ");
    assert!(ran.told.starts_with(&told), "{}", ran.told);
}

#[test]
fn files_that_cannot_be_read() {
    for file in [sample("no-such.line"), sample("")] {
        for (command, least, _) in COMMANDS {
            let files = [file.as_os_str(); 2];
            let ran = run(&call(command, &files[..least]));
            hold_unread(ran, &file.display().to_string());
        }
    }
    // Also where the line file would be refused.
    let missing = sample("no-such.timetable");
    for line in [sample("a.line"), sample("e13-13.line")] {
        for command in ["check", "lists", "graph", "why", "export", "import"] {
            let ran = run(&[command.as_ref(), line.as_os_str(), missing.as_os_str()]);
            hold_unread(ran, &missing.display().to_string());
        }
    }
}

#[test]
fn standard_input_that_cannot_be_read() {
    let folder = std::fs::File::open(sample("")).expect("a folder");
    let mut read = Command::new(PROGRAM);
    let output = read.args(["read", "-"]).stdin(folder).output();
    hold_unread(Ran::of(output.expect("the program runs")), "standard input");
}

/// Holds that it is wrong usage, told with how the program is used.
fn wrong_usage(arguments: &[&str], why: &str) {
    let ran = run(arguments);
    assert_eq!((ran.status, &ran.out[..]), (Some(2), ""), "{arguments:?}");
    assert!(ran.told.contains(why), "{arguments:?}: {}", ran.told);
    assert!(ran.told.contains("usage: gaugeviolet "), "{}", ran.told);
}

#[test]
fn usage_that_is_wrong() {
    wrong_usage(&[], "plans trains on single-track railways");
    wrong_usage(&["publish"], "there is no command publish");
    wrong_usage(&["help", "publish"], "there is no command publish");
    wrong_usage(&["help", "read", "plan"], "help takes one command");
    wrong_usage(&["--version", "a.line"], "--version stands alone");
    for (command, least, most) in COMMANDS {
        let files = ["a.line"; 3];
        wrong_usage(&[&[command], &files[..least - 1]].concat(), " needs LINE");
        let too_many = [&[command], &files[..most + 1]].concat();
        // What is asked may go on without end.
        let why = match command {
            "starts" => "a train is told by its number in the file",
            _ => "takes no more than",
        };
        wrong_usage(&too_many, why);
        wrong_usage(&[command, "--fast", "a.line"], "--fast is no option");
    }
    wrong_usage(&["why", "--within"], "--within needs a value");
    for value in ["soon", "-1", "86401", "1.5", ""] {
        let told = format!("--within takes a number of seconds from 0 to 86400, not {value}\n");
        wrong_usage(&["why", "--within", value, "a.line"], &told);
    }
    wrong_usage(
        &["plan", "--within", "1", "a.line"],
        "--within is no option",
    );
}

/// After `--` a name may begin with `-`.
#[test]
fn names_that_begin_with_a_dash() {
    let ran = run(&["read", "--", "--no-such.line"]);
    assert_eq!(ran.status, Some(2));
    assert!(
        ran.told.starts_with("gaugeviolet: --no-such.line: "),
        "{}",
        ran.told
    );
}

#[test]
fn help_on_everything() {
    let overview = run(&["help"]).answer();
    assert_eq!(run(&["--help"]).answer(), overview);
    assert_eq!(run(&["-h"]).answer(), overview);
    assert_eq!(run(&["help", "help"]).answer(), overview);
    hold_example("plan", &overview);
    for (command, ..) in COMMANDS {
        assert!(
            overview.contains(&format!("\n  {command} LINE")),
            "{command}"
        );
        let help = run(&["help", command]).answer();
        assert!(help.starts_with(&format!("usage: gaugeviolet {command} ")));
        assert_eq!(run(&[command, "--help"]).answer(), help);
        hold_example(command, &help);
    }
    let version = concat!("gaugeviolet ", env!("CARGO_PKG_VERSION"), "\n");
    assert_eq!(run(&["--version"]).answer(), version);
}

/// The example of a help is a call of its command on samples that are there.
fn hold_example(command: &str, help: &str) {
    let (_, example) = help.split_once("\nexample: ").expect("an example");
    let words: Vec<&str> = example.split_whitespace().collect();
    assert_eq!(words[..2], ["gaugeviolet", command]);
    let named: Vec<&str> = words
        .into_iter()
        .filter_map(|word| word.strip_prefix("samples/"))
        .collect();
    assert!(
        !named.is_empty() && named.iter().all(|name| sample(name).exists()),
        "{example}"
    );
}
