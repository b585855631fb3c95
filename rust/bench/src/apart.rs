//! Planning in a process of its own, which is stopped where it takes too long.

use std::io::{Read, Write};
use std::process::{Child, Command, Stdio};
use std::time::{Duration, Instant};

use independent::search::plan_by_search;
use independent::walk::plan_by_walk;

/// The argument with which this program plans one file, before the planner's name.
pub const APART: &str = "apart";

/// Who plans.
#[derive(Clone, Copy, Debug, PartialEq, Eq)]
pub enum Planner {
    /// Solving by the proved library.
    Library,
    /// The independent search.
    Search,
    /// The independent walk.
    Walk,
}

impl Planner {
    /// Its name in print and as an argument.
    pub fn name(self) -> &'static str {
        match self {
            Planner::Library => "library",
            Planner::Search => "search",
            Planner::Walk => "walk",
        }
    }

    /// The planner of this name.
    pub fn named(name: &str) -> Option<Planner> {
        let all = [Planner::Library, Planner::Search, Planner::Walk];
        all.into_iter().find(|planner| planner.name() == name)
    }

    /// The text of the best timetable, or of the refusal.
    fn plan(self, file: &[u8]) -> String {
        let timetable = match self {
            Planner::Library => solved(file).map_err(|refusal| refusal.in_numbers()),
            Planner::Search => plan_by_search(file).map_err(|refusal| refusal.to_string()),
            Planner::Walk => plan_by_walk(file).map_err(|refusal| refusal.to_string()),
        };
        let text = |bytes| String::from_utf8(bytes).expect("ASCII bytes");
        timetable.map_or_else(|refusal| refusal, text)
    }
}

fn solved(file: &[u8]) -> Result<Vec<u8>, gaugeviolet::Refusal> {
    let mut lent = [0; gaugeviolet::TIMETABLE_BYTES];
    let length = gaugeviolet::on_callers_stack::solve(file, &mut lent)?;
    Ok(lent[..length].to_vec())
}

/// What came of planning in time.
pub struct Ended {
    /// How long it took, without the start of the process.
    pub seconds: f64,
    /// The text of the best timetable, or of the refusal.
    pub answer: String,
}

/// Plans a file in a process of its own; none where that does not end in time.
pub fn plan_apart(planner: Planner, file: &[u8], limit: Duration) -> Option<Ended> {
    let this = std::env::current_exe().expect("this program");
    let mut child = Command::new(this)
        .args([APART, planner.name()])
        .stdin(Stdio::piped())
        .stdout(Stdio::piped())
        .spawn()
        .expect("it can be started again");
    let mut lent = child.stdin.take().expect("its input");
    lent.write_all(file).expect("it reads the file");
    drop(lent);
    ends_within(&mut child, limit).then(|| {
        let mut told = String::new();
        let mut printed = child.stdout.take().expect("its output");
        printed.read_to_string(&mut told).expect("ASCII bytes");
        let (seconds, answer) = told.split_once('\n').expect("a line with the time");
        Ended {
            seconds: seconds.parse().expect("a number"),
            answer: answer.to_string(),
        }
    })
}

/// Waits for a process to end, and stops it where it does not end in time.
fn ends_within(child: &mut Child, limit: Duration) -> bool {
    let start = Instant::now();
    loop {
        if let Some(status) = child.try_wait().expect("it was started") {
            assert!(status.success(), "planning failed: {status}");
            return true;
        }
        if start.elapsed() > limit {
            child.kill().expect("it is running");
            child.wait().expect("it was started");
            return false;
        }
        std::thread::sleep(Duration::from_millis(2));
    }
}

/// What the process does: plans the file from its standard input in a thread of the stack that solving
/// asks for, and prints the time and the answer.
pub fn plan_here(planner: Planner) {
    let mut file = Vec::new();
    let mut input = std::io::stdin().lock();
    input.read_to_end(&mut file).expect("a line file");
    let planning = std::thread::Builder::new()
        .stack_size(gaugeviolet::on_callers_stack::SOLVE_STACK)
        .spawn(move || {
            let start = Instant::now();
            let answer = planner.plan(&file);
            (start.elapsed().as_secs_f64(), answer)
        });
    let (seconds, answer) = planning.expect("a thread").join().expect("an answer");
    print!("{seconds}\n{answer}");
}
