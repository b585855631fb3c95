//! How many lines there were, and of how many of them each of some things is so.

use std::fmt::Debug;

/// The count of lines, and of `N` things.
pub(crate) struct Tally<const N: usize> {
    lines: usize,
    times: [usize; N],
}

impl<const N: usize> Default for Tally<N> {
    fn default() -> Tally<N> {
        Tally {
            lines: 0,
            times: [0; N],
        }
    }
}

impl<const N: usize> Tally<N> {
    /// Counts a line, with what is so of it.
    pub(crate) fn count(&mut self, so: [bool; N]) {
        self.lines += 1;
        for (times, so) in self.times.iter_mut().zip(so) {
            *times += usize::from(so);
        }
    }

    /// Of how many lines one of the things, by its place from 0, is so.
    pub(crate) fn times(&self, thing: usize) -> usize {
        self.times[thing]
    }

    /// Prints the counts, and holds that each thing was seen at least so often.
    pub(crate) fn ends(&self, name: &str, things: [impl Debug; N], least: usize) {
        println!("{name}: {} lines", self.lines);
        let counted = || things.iter().zip(&self.times);
        for (thing, times) in counted() {
            println!("  {thing:?}: {times}");
        }
        let rare = counted().filter(|(_, &times)| times < least);
        let rare: Vec<String> = rare.map(|counted| format!("{counted:?}")).collect();
        assert!(rare.is_empty(), "{name}: too rare: {rare:?}");
    }
}
