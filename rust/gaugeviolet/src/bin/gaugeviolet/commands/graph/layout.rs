//! Where things stand in the picture: minutes from left to right, stations from top to bottom.
//!
//! Stations are equally far from each other, whatever the runs between them: their names never stand
//! on each other then, a short segment has room for its waits too, and a line without trains has an
//! axis. A minute has a whole number of pixels, so each point is exact.

use std::ops::RangeInclusive;

use gaugeviolet::{Due, Timetable};

use super::stands::{stands, Stand};
use super::svg::Point;

/// The minutes of a day.
pub const DAY: u32 = 1440;
/// Where the names of stations and segments end, and where the minutes begin.
pub const NAMES_END: u32 = 170;
const LEFT: u32 = 210;
/// The heading and the room up to the first station's train numbers.
const HEAD: u32 = 56;
/// The room of one train number beside its station.
pub const LABEL_WIDTH: u32 = 20;
pub const LABEL_HEIGHT: u32 = 14;
const LABEL_ROW: u32 = 16;
/// The room between a station, or the last train that stands there, and the train numbers.
const LABEL_GAP: u32 = 8;
/// From the line of one train that stands to that of the next.
const STAND_ROW: u32 = 10;
/// The width of the sign of a wait.
const SIGN_WIDTH: u32 = 10;
/// The least room between what belongs to a station and what belongs to the next.
const FREE: u32 = 24;
/// The height that the stations take together where their distance may be chosen, and its limits.
const HEIGHT: u32 = 600;
const SPACING: (u32, u32) = (64, 140);
/// The width that the minutes take at most, unless one pixel for each is more.
const WIDEST: u32 = 1280;
/// How long after the last arrival a due minute may be to be shown. One that is further away would make
/// all else small.
const DUE_SHOWN: u32 = 60;

/// How minutes are shown: pixels for each, minutes from label to label and from line to line.
#[derive(Clone, Copy)]
struct Scale {
    pixels: u32,
    label: u32,
    line: u32,
}

/// From the widest to the narrowest. A label needs some 40 pixels.
#[rustfmt::skip]
const SCALES: [Scale; 5] = [
    Scale { pixels: 16, label: 5, line: 1 },
    Scale { pixels: 8, label: 10, line: 2 },
    Scale { pixels: 4, label: 15, line: 5 },
    Scale { pixels: 2, label: 30, line: 10 },
    Scale { pixels: 1, label: 60, line: 20 },
];

/// A train's number beside the start or the end of its line or at its due minute: on the side that the line
/// does not take, and in which row there, counted from the station.
#[derive(Clone, Copy)]
pub struct TrainLabel {
    pub train: u32,
    station: u32,
    minute: u32,
    /// The leg that the line begins with, or the number of legs at its end.
    leg: usize,
    above: bool,
    row: u32,
    /// Whether it is at the due minute.
    pub due: bool,
}

/// Where everything stands.
pub struct Layout {
    scale: Scale,
    first: u32,
    last: u32,
    stations: u32,
    spacing: u32,
    pub stands: Vec<Stand>,
    pub labels: Vec<TrainLabel>,
}

impl Layout {
    pub fn of(timetable: &Timetable) -> Layout {
        let (scale, first, last) = minutes_shown(timetable);
        let stations = timetable.line().tracks().len() as u32;
        let mut layout = Layout {
            scale,
            first,
            last,
            stations,
            spacing: (HEIGHT / (stations - 1)).clamp(SPACING.0, SPACING.1),
            stands: stands(timetable, SIGN_WIDTH.div_ceil(scale.pixels)),
            labels: labels(timetable, scale, first..=last),
        };
        let between = |station| layout.extent(station, false) + layout.extent(station + 1, true);
        let needed = (1..stations).map(between).max();
        layout.spacing = layout.spacing.max(needed.unwrap_or(0) + FREE);
        layout
    }

    /// Where a station is at a minute.
    fn point(&self, minute: u32, station: u32) -> Point {
        Point {
            x: self.x(minute),
            y: self.y(station),
        }
    }

    /// The stand that a leg of a train ends, if it stands before it.
    fn stand(&self, train: u32, leg: usize) -> Option<&Stand> {
        let mut stands = self.stands.iter();
        stands.find(|stand| (stand.train, stand.leg) == (train, leg))
    }

    /// Where a train begins a leg, at a station and minute: beside the others that stand there. The same
    /// is where it comes to a station before the leg.
    pub fn before_leg(&self, train: u32, leg: usize, minute: u32, station: u32) -> Point {
        let stand = self.stand(train, leg);
        let point = self.point(minute, station);
        match stand {
            Some(stand) => self.in_row(point, stand.row),
            None => point,
        }
    }

    /// A point of a station's line moved to a row of stands: 0, then by turns below and above.
    fn in_row(&self, point: Point, row: u32) -> Point {
        let away = row.div_ceil(2) * STAND_ROW;
        let y = match row % 2 {
            0 => point.y - away,
            _ => point.y + away,
        };
        Point { y, ..point }
    }

    pub fn x(&self, minute: u32) -> u32 {
        LEFT + (minute - self.first) * self.scale.pixels
    }

    pub fn y(&self, station: u32) -> u32 {
        HEAD + self.extent(1, true) + (station - 1) * self.spacing
    }

    /// How far the stands of a station go above or below its line.
    fn stands_extent(&self, station: u32, above: bool) -> u32 {
        let there = self.stands.iter().filter(|stand| stand.station == station);
        let side = there.map(|stand| match (above, stand.row % 2) {
            (true, 0) | (false, 1) => stand.row.div_ceil(2) * STAND_ROW,
            _ => 0,
        });
        side.max().unwrap_or(0)
    }

    /// How far all that belongs to a station goes above or below its line.
    fn extent(&self, station: u32, above: bool) -> u32 {
        let rows = rows(&self.labels, station, above);
        self.stands_extent(station, above) + LABEL_GAP + rows * LABEL_ROW
    }

    /// The minutes with a line of the grid.
    pub fn grid_minutes(&self) -> impl Iterator<Item = u32> + '_ {
        (self.first..=self.last).filter(|minute| minute.is_multiple_of(self.scale.line))
    }

    /// Whether the minute is written at its line.
    pub fn labelled(&self, minute: u32) -> bool {
        minute.is_multiple_of(self.scale.label)
    }

    /// Whether the minute is the first one written that is of the second day.
    pub fn begins_second_day(&self, minute: u32) -> bool {
        minute >= DAY && minute == self.first.max(DAY)
    }

    pub fn left(&self) -> u32 {
        self.x(self.first)
    }

    pub fn right(&self) -> u32 {
        self.x(self.last)
    }

    pub fn top(&self) -> u32 {
        self.y(1)
    }

    pub fn bottom(&self) -> u32 {
        self.y(self.stations)
    }

    /// The lowest pixels of what belongs to the last station.
    pub fn below_labels(&self) -> u32 {
        self.bottom() + self.extent(self.stations, false)
    }

    /// Where a train's number belongs: the start or the end of its line, or its due minute.
    pub fn labelled_point(&self, label: &TrainLabel) -> Point {
        self.before_leg(label.train, label.leg, label.minute, label.station)
    }

    /// The upper right corner of a train's number. It stands before its minute, so that the leader down
    /// or up to the station passes by the numbers of the trains before.
    pub fn label_corner(&self, label: &TrainLabel) -> Point {
        let Point { x, y } = self.point(label.minute, label.station);
        let away = self.stands_extent(label.station, label.above) + LABEL_GAP;
        let y = match label.above {
            true => y - away - LABEL_HEIGHT - label.row * LABEL_ROW,
            false => y + away + label.row * LABEL_ROW,
        };
        Point { x, y }
    }
}

impl TrainLabel {
    /// The end of its leader at the label, whose upper right corner is given. The round frame of a due
    /// minute is met at half its height.
    pub fn leader_end(&self, corner: Point) -> Point {
        let down = match (self.due, self.above) {
            (true, _) => LABEL_HEIGHT / 2,
            (false, true) => LABEL_HEIGHT,
            (false, false) => 0,
        };
        Point {
            x: corner.x,
            y: corner.y + down,
        }
    }
}

/// The scale and the first and last minute shown, both labelled: from the least earliest minute to
/// the last arrival or the due minutes soon after it.
fn minutes_shown(timetable: &Timetable) -> (Scale, u32, u32) {
    let trains = timetable.line().trains().iter();
    let earliest = trains.map(|train| train.earliest).min();
    let arrivals = timetable
        .numbers()
        .map(|train| timetable.last_arrival(train));
    let (from, to) = (earliest.unwrap_or(0), arrivals.max().unwrap_or(60));
    let dues = timetable.line().dues().iter().map(|due| due.minute);
    let soon = dues.filter(|&due| due <= to + DUE_SHOWN);
    let to = soon.fold(to, u32::max);
    let widest = SCALES
        .into_iter()
        .find(|scale| (to - from) * scale.pixels <= WIDEST);
    let scale = widest.unwrap_or(SCALES[SCALES.len() - 1]);
    let first = from / scale.label * scale.label;
    let last = to.div_ceil(scale.label) * scale.label;
    (scale, first, last)
}

/// Two labels for each train, and one for each due minute that is shown. At a station and side they go by
/// minute.
fn labels(timetable: &Timetable, scale: Scale, shown: RangeInclusive<u32>) -> Vec<TrainLabel> {
    let trains = timetable.numbers();
    let mut labels: Vec<TrainLabel> = trains
        .flat_map(|train| at_both_ends(timetable, train))
        .collect();
    let dues = timetable.line().dues().iter();
    let dues = dues.filter(|due| shown.contains(&due.minute));
    labels.extend(dues.map(|due| at_due(timetable, due)));
    let x = |label: &TrainLabel| label.minute * scale.pixels;
    let mut by_minute: Vec<usize> = (0..labels.len()).collect();
    by_minute.sort_by_key(|&at| x(&labels[at]));
    for (done, &at) in by_minute.iter().enumerate() {
        let label = labels[at];
        let before = by_minute[..done].iter().map(|&before| &labels[before]);
        let same_side =
            before.filter(|before| (before.station, before.above) == (label.station, label.above));
        // It goes past those that are near, so it covers neither their numbers nor their leaders.
        let near = same_side.filter(|before| x(before) + LABEL_WIDTH + 2 > x(&label));
        let highest = near.map(|before| before.row + 1).max();
        labels[at].row = highest.unwrap_or(0);
    }
    labels
}

/// The labels of a train in their first rows. An outbound train goes down, so it leaves the room above
/// its start and the room below its end.
fn at_both_ends(timetable: &Timetable, train: u32) -> [TrainLabel; 2] {
    let path = timetable.line().train(train);
    let label = |station, minute, leg, above| TrainLabel {
        train,
        station,
        minute,
        leg,
        above,
        row: 0,
        due: false,
    };
    let start = timetable.legs(train)[0].departure;
    let end = timetable.last_arrival(train);
    [
        label(path.origin, start, 0, path.outbound()),
        label(path.destination, end, path.legs(), !path.outbound()),
    ]
}

/// The label of a due minute in its first row, on the side of the one at the end of the train's line.
fn at_due(timetable: &Timetable, due: &Due) -> TrainLabel {
    let [_, end] = at_both_ends(timetable, due.train);
    TrainLabel {
        minute: due.minute,
        due: true,
        ..end
    }
}

/// How many rows of train numbers stand above or below a station.
fn rows(labels: &[TrainLabel], station: u32, above: bool) -> u32 {
    let there = labels
        .iter()
        .filter(|label| (label.station, label.above) == (station, above));
    there.map(|label| label.row + 1).max().unwrap_or(0)
}
