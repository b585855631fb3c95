//! How the program ends and what it shows meanwhile: closed pipes, a full disk, an interrupt, a terminal.

#[allow(dead_code, reason = "other tests use the rest of it")]
mod run;

use std::ffi::OsStr;
use std::io::{Read, Write};
use std::os::unix::process::ExitStatusExt;
use std::process::{Child, Command, Output, Stdio};
use std::time::{Duration, Instant};

use run::{long_with, sample, written, Ran, LONG, PROGRAM};

/// More time than the start of a program takes on a busy machine.
const LONG_ENOUGH: Duration = Duration::from_secs(30);

/// A reader who goes away ends it quietly, with the status of its answer.
#[test]
fn a_closed_pipe() {
    for (arguments, status) in [
        (vec!["graph".into(), sample("a.line")], 0),
        (vec!["plan".into(), sample("e5.line")], 1),
    ] {
        let mut child = Command::new(PROGRAM)
            .args(&arguments)
            .stdout(Stdio::piped())
            .stderr(Stdio::piped())
            .spawn()
            .expect("the program runs");
        drop(child.stdout.take());
        let ran = Ran::of(child.wait_with_output().expect("it ends"));
        assert_eq!(ran.status, Some(status), "{}", ran.told);
        assert!(
            !ran.told.contains("pipe") && !ran.told.contains("panic"),
            "{}",
            ran.told
        );
        assert_eq!(ran.told.is_empty(), status == 0);
    }
}

/// An answer that cannot be written is no answer.
#[test]
fn a_full_disk() {
    let full = std::fs::File::create("/dev/full").expect("the device that is always full");
    let output = Command::new(PROGRAM)
        .arg("plan")
        .arg(sample("a.line"))
        .stdout(full)
        .output();
    let ran = Ran::of(output.expect("the program runs"));
    assert_eq!(ran.status, Some(2));
    assert!(
        ran.told.starts_with("gaugeviolet: standard output: "),
        "{}",
        ran.told
    );
}

/// Starts it so that it does not ignore interrupts, as it would where these tests run in the background.
fn interruptible(arguments: &[&OsStr], out: Stdio) -> Child {
    started_by_env("--default-signal=INT", arguments, out)
}

/// Starts it with what `env` is to do about a signal before.
fn started_by_env(signal: &str, arguments: &[&OsStr], out: Stdio) -> Child {
    Command::new("env")
        .arg(signal)
        .arg(PROGRAM)
        .args(arguments)
        .stdin(Stdio::piped())
        .stdout(out)
        .stderr(Stdio::piped())
        .spawn()
        .expect("the program runs")
}

#[test]
fn an_interrupt_says_what_was_going_on() {
    let long = written("long.line", LONG.as_bytes());
    let planning = ["plan".as_ref(), long.as_os_str()];
    let reading = ["read".as_ref(), "-".as_ref()];
    // Beside the main thread there is one that watches; planning has two more.
    let planning = interruptible(&planning, Stdio::piped());
    hold_interrupted(planning, 4, "looking for the best timetable");
    let starts = ["starts", "12", "0", "1"].map(OsStr::new);
    let starts = [&[starts[0], long.as_os_str()], &starts[1..]].concat();
    let starts = interruptible(&starts, Stdio::piped());
    hold_interrupted(starts, 4, "looking for the totals of 2 minutes");
    let reading = interruptible(&reading, Stdio::piped());
    hold_interrupted(reading, 2, "reading standard input");
}

/// Where nobody reads the answer it is still being written.
#[test]
fn an_interrupt_while_the_answer_is_written() {
    let (_reader, full) = std::io::pipe().expect("a pipe");
    let to_full = || full.try_clone().expect("the same pipe");
    let mut filling = Command::new("yes")
        .stdout(to_full())
        .spawn()
        .expect("a program that writes on and on");
    let line = sample("a.line");
    std::thread::sleep(Duration::from_millis(500));
    let writing = interruptible(&["read".as_ref(), line.as_os_str()], to_full().into());
    hold_interrupted(writing, 2, "writing the answer");
    filling.kill().expect("it can be stopped");
    filling.wait().expect("it ends");
}

/// Where interrupts were to be ignored, as for work in the background, they stay so.
#[test]
fn an_interrupt_that_is_ignored() {
    let reading = ["read".as_ref(), "-".as_ref()];
    let mut child = started_by_env("--ignore-signal=INT", &reading, Stdio::piped());
    let mut stdin = child.stdin.take().expect("a pipe");
    wait_until_it_is_ready(child.id(), "SigIgn:", 2);
    interrupt(&child);
    std::thread::sleep(Duration::from_millis(500));
    let line = std::fs::read(sample("a.line")).expect("a sample");
    stdin.write_all(&line).expect("it still reads");
    drop(stdin);
    let words = Ran::of(ended(child)).answer();
    assert!(words.starts_with("3 stations"), "{words}");
}

fn interrupt(child: &Child) {
    let kill = Command::new("kill")
        .args(["-INT", &child.id().to_string()])
        .status();
    assert!(kill.expect("kill runs").success());
}

/// Holds what an interrupt makes it say, once it has so many threads.
fn hold_interrupted(mut child: Child, threads: u32, doing: &str) {
    let stdin = child.stdin.take();
    wait_until_it_is_ready(child.id(), "SigCgt:", threads);
    interrupt(&child);
    let output = ended(child);
    drop(stdin);
    assert_eq!(output.status.signal(), Some(2), "{output:?}");
    let ran = Ran::of(output);
    assert_eq!(ran.out, "");
    let begins = format!("\ngaugeviolet: interrupted while {doing}, after ");
    assert!(ran.told.starts_with(&begins), "{}", ran.told);
    let ends = " s; there is no whole answer\n";
    assert!(ran.told.ends_with(ends), "{}", ran.told);
}

/// A value of a process that the system tells.
fn told_by_system(process: u32, name: &str) -> Option<String> {
    let status = std::fs::read_to_string(format!("/proc/{process}/status")).ok()?;
    let mut lines = status.lines();
    let value = lines.find_map(|line| line.strip_prefix(name))?;
    Some(value.trim().to_string())
}

/// Waits until interrupts are among these signals of a process, which it catches or ignores, it has so many
/// threads and the first of them sleeps, and a moment more.
fn wait_until_it_is_ready(process: u32, signals: &str, threads: u32) {
    let end = Instant::now() + LONG_ENOUGH;
    let ready = || {
        let signals = told_by_system(process, signals)?;
        let signals = u64::from_str_radix(&signals, 16).ok()?;
        let running: u32 = told_by_system(process, "Threads:")?.parse().ok()?;
        let sleeps = told_by_system(process, "State:")?.starts_with('S');
        Some(signals & 1 << (2 - 1) != 0 && running >= threads && sleeps)
    };
    while ready() != Some(true) {
        assert!(Instant::now() < end, "{signals} {threads} not seen");
        std::thread::sleep(Duration::from_millis(20));
    }
    std::thread::sleep(Duration::from_millis(500));
}

/// What came of a process that is to end now. One that goes on is stopped.
fn ended(mut child: Child) -> Output {
    let end = Instant::now() + LONG_ENOUGH;
    while child.try_wait().expect("its state").is_none() && Instant::now() < end {
        std::thread::sleep(Duration::from_millis(20));
    }
    // This does nothing to a process that has ended.
    child.kill().expect("it can be stopped");
    child.wait_with_output().expect("its output")
}

/// Where standard error is a terminal, which `script` makes, the time gone is shown; elsewhere it is not.
#[test]
fn long_work_shows_that_it_lives() {
    let long = written("lives.line", LONG.as_bytes());
    // As a planner does it who keeps the answer.
    let plan = format!("plan '{}' >/dev/null", long.display());
    let shown = shown_until(&plan, ": 2 s");
    assert!(
        shown.contains("\rlooking for the best timetable: 1 s"),
        "{shown}"
    );
    let starts = format!("starts '{}' 12 0 >/dev/null", long.display());
    let shown = shown_until(&starts, ": 1 s");
    assert!(
        shown.contains("\rlooking for the totals of 1 minute: 1 s"),
        "{shown}"
    );
    let mut quiet = started(Command::new(PROGRAM).arg("plan").arg(&long));
    std::thread::sleep(Duration::from_millis(2500));
    assert_eq!(quiet.try_wait().expect("its state"), None, "it has ended");
    quiet.kill().expect("it can be stopped");
    let ran = Ran::of(quiet.wait_with_output().expect("it ends"));
    assert_eq!((ran.status, &ran.out[..], &ran.told[..]), (None, "", ""));
}

/// The time is wiped away before the answer comes.
#[test]
fn the_time_gone_does_not_stay() {
    let late = long_with(&[(12, "2 1 0 0 1 10")]);
    let late = written("wiped.line", late.as_bytes());
    let why = format!("why --within 2 '{}'", late.display());
    let shown = shown_until(&why, "not known within");
    assert!(
        shown.contains("\rplanning 11 of the trains: 1 s"),
        "{shown}"
    );
    assert!(
        shown.contains(" s \r\x1b[Kno timetable keeps every rule\r\n"),
        "{shown:?}"
    );
}

/// What the program shows on a terminal, up to some words. Where these are not shown, it ends without.
fn shown_until(arguments: &str, words: &str) -> String {
    let command = format!("exec timeout --foreground 60 '{PROGRAM}' {arguments}");
    let mut terminal = Command::new("script");
    written_until(terminal.args(["-qec", &command, "/dev/null"]), words)
}

fn started(command: &mut Command) -> Child {
    command
        .stdin(Stdio::null())
        .stdout(Stdio::piped())
        .stderr(Stdio::piped())
        .spawn()
        .expect("it runs")
}

/// What a command writes up to some words. Then it is stopped.
fn written_until(command: &mut Command, words: &str) -> String {
    let mut child = started(command);
    let mut out = child.stdout.take().expect("a pipe");
    let mut written = String::new();
    let mut part = [0; 100];
    while !written.contains(words) {
        let length = out.read(&mut part).expect("a pipe");
        assert!(length > 0, "it has ended: {written}");
        written += &String::from_utf8_lossy(&part[..length]);
    }
    child.kill().expect("it can be stopped");
    child.wait().expect("it ends");
    written
}
