//! Running the program as a user would, and the samples to run it on.

use std::ffi::OsStr;
use std::io::Write;
use std::path::{Path, PathBuf};
use std::process::{Command, Output, Stdio};

/// The program, which cargo builds before these tests.
pub const PROGRAM: &str = env!("CARGO_BIN_EXE_gaugeviolet");

/// All subcommands, and how many files each takes at least and at most.
pub const COMMANDS: [(&str, usize, usize); 10] = [
    ("read", 1, 1),
    ("rewrite", 1, 1),
    ("plan", 1, 1),
    ("check", 2, 2),
    ("lists", 1, 2),
    ("graph", 1, 2),
    ("why", 1, 2),
    ("starts", 1, 1),
    ("export", 2, 2),
    ("import", 2, 2),
];

/// A call of a subcommand on files, with a question after them where it needs one.
pub fn call<'a>(command: &'a str, files: &[&'a OsStr]) -> Vec<&'a OsStr> {
    let asked: &[&str] = match command {
        "starts" => &["1", "600"],
        _ => &[],
    };
    let asked = asked.iter().map(OsStr::new);
    let files = files.iter().copied();
    [OsStr::new(command)]
        .into_iter()
        .chain(files)
        .chain(asked)
        .collect()
}

/// A line whose planning takes longer than any test.
pub const LONG: &str = include_str!("../deepest_search.line");

/// The same with some of its trains altered: by their numbers, what stands on their lines.
pub fn long_with(trains: &[(usize, &str)]) -> String {
    let mut lines: Vec<&str> = LONG.lines().collect();
    let before = lines.len() - 12;
    for &(number, line) in trains {
        lines[before + number - 1] = line;
    }
    lines.join("\n") + "\n"
}

/// What came of a run.
#[derive(Debug, PartialEq, Eq)]
pub struct Ran {
    pub status: Option<i32>,
    pub out: String,
    pub told: String,
}

impl Ran {
    pub fn of(output: Output) -> Ran {
        Ran {
            status: output.status.code(),
            out: String::from_utf8(output.stdout).expect("a text"),
            told: String::from_utf8(output.stderr).expect("a text"),
        }
    }

    /// Holds that it is an answer, and that nothing else was said.
    pub fn answer(self) -> String {
        assert_eq!(
            (self.status, self.told.as_str()),
            (Some(0), ""),
            "{}",
            self.out
        );
        self.out
    }
}

/// The program with these arguments. One that goes on for much longer than any answer takes hangs; it is
/// ended then, with a status that no test expects.
fn program<A: AsRef<OsStr>>(arguments: &[A]) -> Command {
    let mut program = Command::new("timeout");
    program.args(["120", PROGRAM]).args(arguments);
    program
}

/// Runs it with these arguments.
pub fn run<A: AsRef<OsStr>>(arguments: &[A]) -> Ran {
    Ran::of(program(arguments).output().expect("the program runs"))
}

/// Runs it with these arguments and bytes on standard input.
pub fn run_with<A: AsRef<OsStr>>(arguments: &[A], input: &[u8]) -> Ran {
    let mut child = program(arguments)
        .stdin(Stdio::piped())
        .stdout(Stdio::piped())
        .stderr(Stdio::piped())
        .spawn()
        .expect("the program runs");
    let mut stdin = child.stdin.take().expect("a pipe");
    // A program that has ended before it has read all is none of this test's business.
    let _ = stdin.write_all(input);
    drop(stdin);
    Ran::of(child.wait_with_output().expect("it ends"))
}

/// A sample by its name.
pub fn sample(name: &str) -> PathBuf {
    Path::new(env!("CARGO_MANIFEST_DIR"))
        .join("../../samples")
        .join(name)
}

/// The bytes of a sample.
pub fn sample_text(name: &str) -> String {
    std::fs::read_to_string(sample(name)).expect("a sample")
}

/// The line files of the samples, in order, with a file of another ending beside them.
pub fn samples_with(ending: &str) -> Vec<(PathBuf, PathBuf)> {
    let entries = std::fs::read_dir(sample("")).expect("the samples");
    let mut found: Vec<(PathBuf, PathBuf)> = entries
        .map(|entry| entry.expect("a sample").path())
        .filter(|path| path.extension().is_some_and(|end| end == "line"))
        .map(|line| (line.clone(), line.with_extension(ending)))
        .filter(|(_, beside)| beside.exists())
        .collect();
    found.sort();
    found
}

/// Writes a text where the tests may, for the program to read.
pub fn written(name: &str, text: &[u8]) -> PathBuf {
    let path = Path::new(env!("CARGO_TARGET_TMPDIR")).join(name);
    std::fs::write(&path, text).expect("a file for the program");
    path
}

/// A command on samples, by their names.
pub fn on(command: &str, samples: &[&str]) -> Ran {
    let files = samples.iter().map(|name| sample(name).into_os_string());
    let arguments: Vec<_> = [command.into()].into_iter().chain(files).collect();
    run(&arguments)
}
