//! The first fault in the form or the range of a timetable's fields, in the order of its text.

use super::field::Field;
use super::line_file::TIME;
use super::walker::{After, Allowed, Fault, Walker};
use crate::timetable::list_places;
use crate::{Line, Train};

/// Goes through the whole text, which is to be a timetable of the line.
pub(super) fn walk(line: &Line, text: &[u8]) -> Result<(), Fault> {
    let mut walker = Walker::new(text);
    let trains = line.trains().len() as u32;
    let count = Allowed::exactly(trains);
    walker.ranged(Field::TrainCount, count, After::LineFeed)?;
    for (number, train) in (1..).zip(line.trains()) {
        train_line(&mut walker, number, train)?;
    }
    list_section(&mut walker, list_places(line).count() as u32, trains)?;
    walker.number(Field::Total, 7, "a number of up to seven digits")?;
    walker.after(Field::Total, After::LineFeed)?;
    walker.end()
}

fn list_section(walker: &mut Walker, lists: u32, trains: u32) -> Result<(), Fault> {
    walker.ranged(Field::ListCount, Allowed::exactly(lists), After::LineFeed)?;
    for list in 1..=lists {
        list_line(walker, list, trains)?;
    }
    Ok(())
}

/// Departure and arrival for each leg.
fn train_line(walker: &mut Walker, number: u32, train: &Train) -> Result<(), Fault> {
    for leg in 0..train.legs() {
        let segment = train.segment(leg);
        let departure = Field::Departure {
            train: number,
            segment,
        };
        let arrival = Field::Arrival {
            train: number,
            segment,
        };
        let last = leg + 1 == train.legs();
        let after = if last { After::LineFeed } else { After::Space };
        walker.ranged(departure, TIME, After::Space)?;
        walker.ranged(arrival, TIME, after)?;
    }
    Ok(())
}

/// A list's own count and its trains. After a count of 0 the line ends.
fn list_line(walker: &mut Walker, list: u32, trains: u32) -> Result<(), Fault> {
    let own = Field::ListLength { list };
    let most = Allowed::from(0, trains);
    let count = walker.number(own, 4, &format!("a number from 0 to {trains}"))?;
    let after = |more: bool| if more { After::Space } else { After::LineFeed };
    walker.after(own, after(count.value > 0))?;
    let count = walker.within(own, count, most)?;
    for place in 1..=count {
        let listed = Field::Listed { list, place };
        walker.ranged(listed, Allowed::from(1, trains), after(place < count))?;
    }
    Ok(())
}
