//! The sheet for the signallers: the trains of each segment and lane in order.

use gaugeviolet::{time_of_day, OrderList, Timetable};

use crate::arguments::Arguments;
use crate::command::{Command, Failure};
use crate::given;

pub const COMMAND: Command = Command {
    name: "lists",
    arguments: "LINE [TIMETABLE]",
    takes: (1, 2),
    options: &[],
    summary: "the sheet for the signallers: the trains of each segment",
    help: "\
For each segment, and on double track for each lane, the trains in the order in which
they set out, with direction, departure and arrival as times of day. What falls on
the second day is marked. Where the departure is booked, the booked time stands at the
end of the row: the train must not leave before it. Where the train is at its
destination then, its due minute stands there if one is listed.

example: gaugeviolet lists samples/saturday.line samples/saturday.timetable
",
    run,
};

fn run(arguments: &Arguments) -> Result<Vec<u8>, Failure> {
    let timetable = given::timetable(arguments)?;
    let lists = timetable.order_lists().iter();
    let sheets: Vec<String> = lists.map(|list| sheet(&timetable, list)).collect();
    Ok(sheets.join("\n").into())
}

fn sheet(timetable: &Timetable, list: &OrderList) -> String {
    let segment = list.segment;
    let kind = timetable.line().segment(segment).kind;
    let lane = list.lane.after_segment();
    let mut words = format!(
        "segment {segment}, stations {segment} to {} ({}){lane}\n",
        segment + 1,
        kind.letter()
    );
    if list.trains.is_empty() {
        words += "  no train\n";
    }
    for &train in &list.trains {
        words += &row(timetable, train, segment);
    }
    words
}

fn row(timetable: &Timetable, train: u32, segment: u32) -> String {
    let path = timetable.line().train(train);
    let leg = timetable.leg_on(train, segment);
    let leg = leg.expect("a train of the segment's list goes there");
    let (direction, departure) = (path.direction(), time_of_day(leg.departure));
    let arrival = time_of_day(leg.arrival);
    let mut row = format!(
        "  train {train:>2}  {direction:<8}  departs {departure:<11}  arrives {arrival:<11}"
    );
    let (from, to) = match path.outbound() {
        true => (segment, segment + 1),
        false => (segment + 1, segment),
    };
    let line = timetable.line();
    if let Some(booked) = line.booked(train, from) {
        row += &format!("  booked {:<11}", time_of_day(booked));
    }
    let due = line.listed_due(train);
    if let Some(due) = due.filter(|_| to == path.destination) {
        row += &format!("  due {}", time_of_day(due));
    }
    row.trim_end().to_string() + "\n"
}
