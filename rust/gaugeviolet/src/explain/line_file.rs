//! The first fault of a line file, field by field in the order of the file.

use super::field::Field;
use super::walker::{After, Allowed, Fault, Walker, Wrong};

const STATIONS: Allowed = Allowed { least: 2, most: 12 };
const TRACKS: Allowed = Allowed { least: 1, most: 12 };
const GAP: Allowed = Allowed { least: 1, most: 60 };
const TRAINS: Allowed = Allowed { least: 0, most: 12 };
pub(super) const TIME: Allowed = Allowed {
    least: 0,
    most: 2879,
};
const BOOKINGS: Allowed = Allowed {
    least: 0,
    most: 120,
};
const WEIGHT: Allowed = Allowed { least: 0, most: 99 };
const RUN: Allowed = Allowed {
    least: 1,
    most: 240,
};
const STOP: Allowed = Allowed {
    least: 0,
    most: 240,
};

/// What had been read of the file when a fault was met: enough to say how many fields its line needs.
#[derive(Default)]
pub(super) struct Known {
    pub stations: Option<u32>,
    pub trains: Option<u32>,
    /// Origin and destination of each train.
    pub paths: Vec<(u32, u32)>,
    pub bookings: Option<u32>,
    /// The train of the last booking.
    pub booked_train: Option<u32>,
    /// Train and station of the booking before it.
    pub booked_before: Option<(u32, u32)>,
    pub dues: Option<u32>,
    /// The train of the last due minute.
    pub due_train: Option<u32>,
}

/// Goes through the whole file.
pub(super) fn walk(file: &[u8], known: &mut Known) -> Result<(), Fault> {
    let mut walker = Walker::new(file);
    let stations = station_section(&mut walker, known)?;
    segment_section(&mut walker, stations)?;
    let trains = walker.ranged(Field::TrainCount, TRAINS, After::LineFeed)?;
    known.trains = Some(trains);
    for train in 1..=trains {
        train_line(&mut walker, train, stations, known)?;
    }
    booking_section(&mut walker, stations, known)?;
    due_section(&mut walker, trains, known)?;
    walker.end()
}

/// The stations with their count, which is given back.
fn station_section(walker: &mut Walker, known: &mut Known) -> Result<u32, Fault> {
    let stations = walker.ranged(Field::StationCount, STATIONS, After::LineFeed)?;
    known.stations = Some(stations);
    for station in 1..=stations {
        walker.ranged(Field::Tracks { station }, TRACKS, After::LineFeed)?;
    }
    Ok(stations)
}

fn segment_section(walker: &mut Walker, stations: u32) -> Result<(), Fault> {
    let segments = Allowed::exactly(stations - 1);
    walker.ranged(Field::SegmentCount, segments, After::LineFeed)?;
    for segment in 1..stations {
        walker.kind(Field::SegmentKind { segment })?;
        walker.ranged(Field::FollowingGap { segment }, GAP, After::Space)?;
        walker.ranged(Field::OpposingGap { segment }, GAP, After::LineFeed)?;
    }
    Ok(())
}

fn train_line(
    walker: &mut Walker,
    train: u32,
    stations: u32,
    known: &mut Known,
) -> Result<(), Fault> {
    let numbers = Allowed::from(1, stations);
    let origin = walker.ranged(Field::Origin { train }, numbers, After::Space)?;
    let another = |station| {
        let another = || format!("another station than the origin, {origin}");
        (station == origin).then(another)
    };
    let field = Field::Destination { train };
    let destination = walker.fitting(field, numbers, Wrong::SameStation, another)?;
    known.paths.push((origin, destination));
    walker.ranged(Field::Earliest { train }, TIME, After::Space)?;
    walker.ranged(Field::Latest { train }, TIME, After::Space)?;
    walker.ranged(Field::Weight { train }, WEIGHT, After::Space)?;
    journey(walker, train, origin, destination)
}

/// Run, stop, run, stop, .., run.
fn journey(walker: &mut Walker, train: u32, origin: u32, destination: u32) -> Result<(), Fault> {
    let legs = origin.abs_diff(destination);
    for leg in 1..=legs {
        // The station at which the leg ends.
        let (station, segment) = match origin < destination {
            true => (origin + leg, origin + leg - 1),
            false => (origin - leg, origin - leg),
        };
        let run = Field::Run { train, segment };
        if leg == legs {
            walker.ranged(run, RUN, After::LineFeed)?;
        } else {
            walker.ranged(run, RUN, After::Space)?;
            walker.ranged(Field::Stop { train, station }, STOP, After::Space)?;
        }
    }
    Ok(())
}

/// The bookings with their count, which is 0 only where due minutes follow. Without either nothing stands
/// there.
fn booking_section(walker: &mut Walker, stations: u32, known: &mut Known) -> Result<(), Fault> {
    if walker.at_end() {
        return Ok(());
    }
    let (field, numbers) = (Field::BookingCount, BOOKINGS);
    let read = walker.number(field, 4, &numbers.in_words())?;
    walker.after(field, After::LineFeed)?;
    let least = u32::from(walker.at_end());
    let bookings = walker.within(field, read, Allowed { least, ..numbers })?;
    known.bookings = Some(bookings);
    for booking in 1..=bookings {
        booking_line(walker, booking, stations, known)?;
    }
    Ok(())
}

fn booking_line(
    walker: &mut Walker,
    booking: u32,
    stations: u32,
    known: &mut Known,
) -> Result<(), Fault> {
    let trains = Allowed::from(1, known.paths.len() as u32);
    let train = walker.ranged(Field::BookedTrain { booking }, trains, After::Space)?;
    known.booked_train = Some(train);
    let instead = |station| booked_instead(known, train, station);
    let numbers = Allowed::from(1, stations);
    let field = Field::BookedStation { booking };
    let station = walker.fitting(field, numbers, Wrong::OutOfPlace, instead)?;
    known.booked_before = Some((train, station));
    walker.ranged(Field::BookedMinute { booking }, TIME, After::LineFeed)?;
    Ok(())
}

/// What is allowed in the place of a booking that is not at a middle station of its train, or does not
/// stand in order.
fn booked_instead(known: &Known, train: u32, station: u32) -> Option<String> {
    let (origin, destination) = known.paths[train as usize - 1];
    let (low, high) = (origin.min(destination), origin.max(destination));
    if !(low + 1..high).contains(&station) {
        return Some(match high - low {
            1 => format!("none: train {train} has no middle station"),
            2 => format!("{}, the middle station of train {train}", low + 1),
            _ => {
                let (first, last) = (low + 1, high - 1);
                format!("a number from {first} to {last}, the middle stations of train {train}")
            }
        });
    }
    let (before, there) = known.booked_before?;
    ((train, station) <= (before, there))
        .then(|| format!("a booking that comes after train {before} at station {there}"))
}

/// The due minutes with their count. Without due minutes nothing stands there.
fn due_section(walker: &mut Walker, trains: u32, known: &mut Known) -> Result<(), Fault> {
    if walker.at_end() {
        return Ok(());
    }
    let numbers = Allowed::from(1, trains);
    let dues = walker.ranged(Field::DueCount, numbers, After::LineFeed)?;
    known.dues = Some(dues);
    for due in 1..=dues {
        let instead = |train| due_instead(known.due_train?, train, trains);
        let field = Field::DueTrain { due };
        let train = walker.fitting(field, numbers, Wrong::OutOfPlace, instead)?;
        known.due_train = Some(train);
        walker.ranged(Field::DueMinute { due }, TIME, After::LineFeed)?;
    }
    Ok(())
}

/// What is allowed in the place of a train whose due minute does not stand in order, after that of the
/// train before.
fn due_instead(before: u32, train: u32, trains: u32) -> Option<String> {
    (train <= before).then(|| match before == trains {
        true => format!("none: train {before} is the last"),
        false => Allowed::from(before + 1, trains).in_words() + ", a train after the one before",
    })
}
