//! What the README shows of the planner's week is what the program does: its commands are run one after
//! another, and what it quotes after them has to be in their answers.

#[allow(dead_code, reason = "other tests use the rest of it")]
mod run;

use std::path::Path;
use std::process::Command;

use run::{run_with, sample, sample_text, Ran, PROGRAM};

/// The blocks of the README's section on the week, in order.
fn blocks() -> Vec<String> {
    let top = Path::new(env!("CARGO_MANIFEST_DIR")).join("../..");
    let readme = std::fs::read_to_string(top.join("README.md")).expect("the README");
    let (_, week) = readme
        .split_once("\n## The planner's week\n")
        .expect("the week");
    let (week, _) = week.split_once("\n## ").expect("a section after it");
    let parts = week.split("```\n").skip(1).step_by(2);
    parts.map(str::to_string).collect()
}

fn is_commands(block: &str) -> bool {
    block.starts_with("./gaugeviolet ")
}

/// Runs a block of commands, as it stands, in a folder of its own.
fn run_block(block: &str) -> Ran {
    let folder = Path::new(env!("CARGO_TARGET_TMPDIR")).join("week");
    std::fs::create_dir_all(&folder).expect("a folder");
    let samples = sample("").display().to_string();
    let commands = block
        .replace("./gaugeviolet", PROGRAM)
        .replace("samples/", &samples);
    let output = Command::new("sh")
        .arg("-ec")
        .arg(commands)
        .current_dir(folder)
        .output();
    Ran::of(output.expect("a shell"))
}

/// Holds that the quoted lines are in an answer, in this order. A line that is cut ends with dots.
fn hold_quoted(quoted: &str, answer: &str) {
    let mut lines = answer.lines();
    for line in quoted.lines().filter(|line| line.trim() != "...") {
        let found = match line.strip_suffix("...") {
            Some(start) => lines.any(|answered| answered.starts_with(start)),
            None => lines.any(|answered| answered == line),
        };
        assert!(found, "the README has `{line}`, and the program not");
    }
}

#[test]
fn the_week_command_by_command() {
    let blocks = blocks();
    let mut answers = String::new();
    let (mut commands, mut quoted) = (0, 0);
    for block in &blocks {
        if is_commands(block) {
            answers = run_block(block).answer();
            commands += block.lines().count();
        } else if !block.starts_with("line 24") {
            hold_quoted(block, &answers);
            quoted += 1;
        }
    }
    assert_eq!((commands, quoted), (14, 9), "all of the week is there");
    assert!(answers.ends_with("passed\n"));
}

/// The typing mistake of Monday.
#[test]
fn the_mistake_explained() {
    let typed = sample_text("saturday.line").replace("\n1 7 600 ", "\n1 7 10:00 ");
    let ran = run_with(&["read", "-"], typed.as_bytes());
    assert_eq!(ran.out, "refused 2 24\n");
    let (_, explanation) = ran
        .told
        .split_once('\n')
        .expect("a sentence and an explanation");
    assert!(
        blocks().iter().any(|block| block == explanation),
        "{explanation}"
    );
}
