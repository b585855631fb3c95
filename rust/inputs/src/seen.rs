//! What came of the inputs of a test, counted, and what a test must at least have seen of it. A
//! comparison that looked at little shows nothing.

use std::collections::{BTreeMap, BTreeSet};

/// How often each number has come with each place. What is accepted has number 0 and place 0.
#[derive(Default)]
pub struct Seen {
    inputs: usize,
    times: BTreeMap<(u32, u32), usize>,
}

/// What a test must at least have seen.
pub struct Least {
    /// The name under which the counts are printed.
    pub name: &'static str,
    /// How many inputs.
    pub inputs: usize,
    /// How many of them accepted.
    pub accepted: usize,
    /// Each number refused with, in rising order and no other: how often, with how many places.
    pub numbers: &'static [(u32, usize, usize)],
}

impl Least {
    /// The inputs of all these tests together.
    pub const fn inputs_of(tests: &[&Least]) -> usize {
        let mut inputs = 0;
        let mut at = 0;
        while at < tests.len() {
            inputs += tests[at].inputs;
            at += 1;
        }
        inputs
    }
}

impl Seen {
    /// Counts an input with its answer: accepted, or refused with a number and a place.
    pub fn input(&mut self, answer: Result<(), (u32, u32)>) {
        self.inputs += 1;
        self.answer(answer);
    }

    /// Counts a further answer to an input that is counted already.
    pub fn answer(&mut self, answer: Result<(), (u32, u32)>) {
        let number_and_place = answer.err().unwrap_or((0, 0));
        *self.times.entry(number_and_place).or_default() += 1;
    }

    /// How many inputs there were.
    pub fn inputs(&self) -> usize {
        self.inputs
    }

    /// How often the number came.
    pub fn times(&self, number: u32) -> usize {
        let of_number = self.times.range((number, 0)..=(number, u32::MAX));
        of_number.map(|(_, times)| times).sum()
    }

    /// With how many places the number came.
    pub fn places(&self, number: u32) -> usize {
        self.times.range((number, 0)..=(number, u32::MAX)).count()
    }

    /// The numbers refused with.
    fn numbers(&self) -> Vec<u32> {
        let numbers: BTreeSet<u32> = self.times.keys().map(|&(number, _)| number).collect();
        numbers.into_iter().filter(|&number| number > 0).collect()
    }

    /// Prints the counts.
    pub fn print(&self, name: &str) {
        println!("{name}: {} inputs, {} accepted", self.inputs, self.times(0));
        for number in self.numbers() {
            println!(
                "  {number:2}: {:6} times, {:2} places",
                self.times(number),
                self.places(number)
            );
        }
    }

    /// Prints the counts and holds that enough was seen.
    pub fn ends(&self, least: &Least) {
        self.print(least.name);
        assert_eq!(self.is_enough(least), Ok(()), "{}", least.name);
    }

    fn is_enough(&self, least: &Least) -> Result<(), String> {
        if self.inputs < least.inputs {
            return Err(format!("only {} inputs", self.inputs));
        }
        if self.times(0) < least.accepted {
            return Err(format!("only {} accepted", self.times(0)));
        }
        let listed: Vec<u32> = least.numbers.iter().map(|&(number, ..)| number).collect();
        if self.numbers() != listed {
            return Err(format!("refused with {:?}", self.numbers()));
        }
        for &(number, times, places) in least.numbers {
            if self.times(number) < times || self.places(number) < places {
                return Err(format!("number {number} is too rare"));
            }
        }
        Ok(())
    }
}

#[cfg(test)]
mod tests {
    use super::*;

    const JUST: Least = Least {
        name: "just",
        inputs: 5,
        accepted: 1,
        numbers: &[(2, 3, 2), (6, 2, 1)],
    };

    fn seen() -> Seen {
        let mut seen = Seen::default();
        for answer in [Ok(()), Err((2, 1)), Err((2, 7)), Err((2, 7)), Err((6, 0))] {
            seen.input(answer);
        }
        seen.answer(Err((6, 0)));
        seen
    }

    #[test]
    fn just_enough_is_enough() {
        assert_eq!(seen().is_enough(&JUST), Ok(()));
        assert_eq!(Least::inputs_of(&[&JUST, &JUST]), 10);
    }

    #[test]
    fn anything_less_is_told() {
        let (inputs, accepted) = (6, 2);
        let more = [
            (Least { inputs, ..JUST }, "only 5 inputs"),
            (Least { accepted, ..JUST }, "only 1 accepted"),
            (
                with_numbers(&[(2, 4, 2), (6, 2, 1)]),
                "number 2 is too rare",
            ),
            (
                with_numbers(&[(2, 3, 3), (6, 2, 1)]),
                "number 2 is too rare",
            ),
            (
                with_numbers(&[(2, 3, 2), (6, 3, 1)]),
                "number 6 is too rare",
            ),
            (
                with_numbers(&[(2, 3, 2), (6, 2, 2)]),
                "number 6 is too rare",
            ),
            (with_numbers(&[(2, 3, 2)]), "refused with [2, 6]"),
            (
                with_numbers(&[(2, 3, 2), (3, 0, 0), (6, 2, 1)]),
                "refused with [2, 6]",
            ),
        ];
        for (least, told) in more {
            assert_eq!(seen().is_enough(&least), Err(told.to_string()));
        }
    }

    fn with_numbers(numbers: &'static [(u32, usize, usize)]) -> Least {
        Least { numbers, ..JUST }
    }
}
