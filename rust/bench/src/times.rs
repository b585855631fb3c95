//! Times of the library beside those of the independent code, taken in turn, so that both meet the same
//! machine.

use std::time::Instant;

/// Seconds per call, one entry for each round.
#[derive(Clone, Default)]
pub struct Times {
    rounds: Vec<f64>,
}

impl Times {
    /// Takes the time of so many calls.
    pub fn round(&mut self, calls: u32, mut call: impl FnMut()) {
        let start = Instant::now();
        for _ in 0..calls {
            call();
        }
        self.rounds
            .push(start.elapsed().as_secs_f64() / f64::from(calls));
    }

    /// The best and the median round.
    fn sum_up(mut self) -> Each {
        self.rounds.sort_by(f64::total_cmp);
        Each {
            best: self.rounds[0],
            median: self.rounds[self.rounds.len() / 2],
        }
    }
}

/// Seconds: by the best round, and by the median one.
#[derive(Clone, Copy, Default)]
struct Each {
    best: f64,
    median: f64,
}

impl std::ops::AddAssign for Each {
    fn add_assign(&mut self, other: Each) {
        self.best += other.best;
        self.median += other.median;
    }
}

/// What a time is printed in.
pub struct Unit {
    /// Its name.
    pub name: &'static str,
    /// How many of it make a second.
    pub in_a_second: f64,
    /// To how many digits it is printed.
    pub digits: usize,
}

/// Thousandths of a second.
pub const MILLISECONDS: Unit = Unit {
    name: "ms",
    in_a_second: 1e3,
    digits: 2,
};

/// Both times of one job, or of several together.
#[derive(Clone, Copy, Default)]
pub struct Beside {
    library: Each,
    independent: Each,
}

impl Beside {
    /// Both times of one job.
    pub fn new(library: Times, independent: Times) -> Beside {
        Beside {
            library: library.sum_up(),
            independent: independent.sum_up(),
        }
    }

    /// Adds those of another job.
    pub fn add(&mut self, other: Beside) {
        self.library += other.library;
        self.independent += other.independent;
    }

    /// Prints both times and their ratio.
    pub fn report(&self, job: &str, unit: &Unit) {
        for (whose, each) in [("library", self.library), ("independent", self.independent)] {
            let [best, median] = [each.best, each.median].map(|time| time * unit.in_a_second);
            let Unit { name, digits, .. } = unit;
            println!(
                "{job:8} {whose:11}  best {best:8.digits$} {name}  median {median:8.digits$} {name}"
            );
        }
        self.report_ratio(job);
    }

    /// Prints the ratio of both times.
    pub fn report_ratio(&self, job: &str) {
        println!(
            "{job:8} ratio        best {:8.2}     median {:8.2}",
            self.library.best / self.independent.best,
            self.library.median / self.independent.median
        );
    }
}
