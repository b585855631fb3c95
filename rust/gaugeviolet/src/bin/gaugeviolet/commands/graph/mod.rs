//! The train graph of a timetable, as SVG.

mod aside;
mod drawing;
mod layout;
mod stands;
mod style;
mod svg;

use crate::arguments::Arguments;
use crate::command::{Command, Failure};
use crate::given;

pub const COMMAND: Command = Command {
    name: "graph",
    arguments: "LINE [TIMETABLE]",
    takes: (1, 2),
    options: &[],
    summary: "the train graph, as SVG",
    help: "\
Draws the train graph of a timetable as SVG, for a browser. Time goes from left to
right, stations from top to bottom. Each train has its colour and its pattern of
dashes, and its number at both ends. A diamond ends a wait; point at it to read who
waits how long for what. A square marks a booked departure, and a round frame with
the train's number the minute at which it is due at its destination. Beside the graph
are the delay of each train and the order of the trains on each segment.

example: gaugeviolet graph samples/saturday.line > saturday.svg
",
    run,
};

fn run(arguments: &Arguments) -> Result<Vec<u8>, Failure> {
    let timetable = given::timetable(arguments)?;
    Ok(drawing::picture(&timetable).into())
}
