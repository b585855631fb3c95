//! The picture of a timetable: grid, stations, trains, their numbers, waits, booked departures and due
//! minutes.

use gaugeviolet::{counted, punctuality, time_of_day};
use gaugeviolet::{Booking, Kind, Segment, Timetable, Train};

use super::aside;
use super::layout::{Layout, TrainLabel, DAY, LABEL_HEIGHT, LABEL_WIDTH, NAMES_END};
use super::stands::Stand;
use super::style::{colour, stroke};
use super::svg::{element, group, line, page, text, title, Anchor, Attribute, Point};

/// The sign of a wait, around the minute of the departure.
pub const SIGN: &str = "M0 -4L4 0L0 4L-4 0Z";
/// The sign of a booked departure, around that of a wait.
pub const BOOKED: &str = "M-6 -6H6V6H-6Z";
/// The sign of a due minute, in which the graph has the train's number.
pub const DUE: &str = "M-2 -5H2A5 5 0 0 1 2 5H-2A5 5 0 0 1 -2 -5Z";
/// The height of a line of text, and of the part from the middle of its letters down to its base line.
pub const ROW: u32 = 18;
pub const BASE: u32 = 4;

/// The whole SVG file.
pub fn picture(timetable: &Timetable) -> String {
    let layout = Layout::of(timetable);
    let (aside, aside_end) = aside::aside(timetable, &layout);
    let stands = &layout.stands;
    let drawn = [
        heading(timetable),
        grid(&layout),
        axis(&layout),
        stations(timetable.line().tracks(), &layout),
        segments(timetable.line().segments(), &layout),
        stands.iter().map(|stand| band(stand, &layout)).collect(),
        ways(timetable, &layout),
        booked_departures(timetable, &layout),
        stands.iter().map(|stand| ends(stand, &layout)).collect(),
        stands.iter().map(|stand| sign(stand, &layout)).collect(),
        numbers(timetable, &layout),
        aside,
    ];
    let width = layout.right() + aside::WIDTH;
    let height = aside_end.max(layout.below_labels() + 4 * ROW);
    page(width, height, "Train graph", &drawn.concat())
}

fn heading(timetable: &Timetable) -> String {
    let line = timetable.line();
    let words = format!(
        "Train graph: {}, {}",
        counted(line.tracks().len() as u32, "station"),
        counted(line.trains().len() as u32, "train")
    );
    let attributes: [Attribute; 2] = [("font-size", &14), ("font-weight", &"bold")];
    let at = Point { x: 16, y: 24 };
    group(&attributes, &text("heading", at, Anchor::Start, &words))
}

/// The lines of the minutes: light ones, and darker ones where the minute is written.
fn grid(layout: &Layout) -> String {
    let vertical = |class: &str, minute: u32| {
        let x = layout.x(minute);
        let (y, end) = (layout.top(), layout.bottom());
        line(class, Point { x, y }, Point { x, y: end })
    };
    let light = layout.grid_minutes().filter(|&at| !layout.labelled(at));
    let light: String = light.map(|at| vertical("between", at)).collect();
    let dark = layout.grid_minutes().filter(|&at| layout.labelled(at));
    let dark: String = dark.map(|at| vertical("minute", at)).collect();
    group(&[("stroke", &"#ececec")], &light) + &group(&[("stroke", &"#c4c4c4")], &dark)
}

/// The times of day and under them the minutes, as line file and timetable have them; under the first of
/// the second day also that.
fn axis(layout: &Layout) -> String {
    let row = |row: u32| layout.below_labels() + 16 + row * ROW;
    let mut names = String::new();
    for minute in layout.grid_minutes().filter(|&at| layout.labelled(at)) {
        let mut name = |class: &str, y: u32, words: &str| {
            let at = Point {
                x: layout.x(minute),
                y,
            };
            names += &text(class, at, Anchor::Middle, words);
        };
        name("clock", row(0), &time_of_day(minute % DAY));
        name("minute", row(1), &minute.to_string());
        if layout.begins_second_day(minute) {
            name("day", row(2), "day 2");
        }
    }
    let caption = |y: u32, words: &str| {
        let x = NAMES_END;
        text("caption", Point { x, y }, Anchor::End, words)
    };
    names += &caption(row(0), "time of day");
    names += &caption(row(1), "minute");
    group(&[("fill", &"#333333")], &names)
}

fn stations(tracks: &[u32], layout: &Layout) -> String {
    let mut lines = String::new();
    let mut names = String::new();
    for (station, &tracks) in (1..).zip(tracks) {
        let y = layout.y(station);
        let (left, right) = (layout.left(), layout.right());
        lines += &line("station", Point { x: left, y }, Point { x: right, y });
        let at = Point {
            x: NAMES_END,
            y: y + BASE,
        };
        let name = format!("station {station} ({})", counted(tracks, "track"));
        names += &text("station", at, Anchor::End, &name);
    }
    group(&[("stroke", &"#808080")], &lines) + &names
}

/// The kind and the gaps of each segment, halfway between its stations.
fn segments(segments: &[Segment], layout: &Layout) -> String {
    let name = |(p, segment): (u32, &Segment)| {
        let y = (layout.y(p) + layout.y(p + 1)) / 2 + BASE;
        let at = Point { x: NAMES_END, y };
        text("segment", at, Anchor::End, &segment_name(p, segment))
    };
    let names: String = (1..).zip(segments).map(name).collect();
    group(&[("fill", &"#5a5a5a"), ("font-size", &10)], &names)
}

fn segment_name(p: u32, segment: &Segment) -> String {
    let Segment {
        kind,
        following,
        opposing,
    } = segment;
    match kind {
        // The opposing gap of a D segment is not used.
        Kind::D => format!("segment {p}: D, gap {following}"),
        _ => format!(
            "segment {p}: {}, gaps {following} and {opposing}",
            kind.letter()
        ),
    }
}

fn ways(timetable: &Timetable, layout: &Layout) -> String {
    let trains = timetable.numbers().zip(timetable.line().trains());
    let drawn: String = trains
        .map(|(number, train)| way(timetable, number, train, layout))
        .collect();
    group(&[("fill", &"none"), ("stroke-width", &2)], &drawn)
}

/// The way of a train: sloping on a segment, level while it stands at a station.
fn way(timetable: &Timetable, number: u32, train: &Train, layout: &Layout) -> String {
    let legs = timetable.legs(number);
    let points: Vec<String> = legs
        .iter()
        .enumerate()
        .flat_map(|(k, leg)| {
            [
                layout.before_leg(number, k, leg.departure, train.station(k)),
                layout.before_leg(number, k + 1, leg.arrival, train.station(k + 1)),
            ]
        })
        .map(|Point { x, y }| format!("{x},{y}"))
        .collect();
    let words = format!(
        "train {number} from station {} at {} to station {} at {}",
        train.origin,
        time_of_day(legs[0].departure),
        train.destination,
        time_of_day(timetable.last_arrival(number))
    );
    let (class, points) = ("train", points.join(" "));
    let id = format!("train-{number}");
    let [colour, dashes] = stroke(number);
    let attributes: [Attribute; 5] = [
        ("class", &class),
        ("id", &id),
        colour,
        dashes,
        ("points", &points),
    ];
    element("polyline", &attributes, &title(&words))
}

fn booked_departures(timetable: &Timetable, layout: &Layout) -> String {
    let bookings = timetable.line().bookings().iter();
    bookings
        .map(|booking| booked_departure(timetable, booking, layout))
        .collect()
}

/// The sign of a booked departure. It is pointed at anywhere within it.
fn booked_departure(timetable: &Timetable, booking: &Booking, layout: &Layout) -> String {
    let &Booking { train, station, .. } = booking;
    let path = timetable.line().train(train);
    let leg = path.origin.abs_diff(station) as usize;
    let departure = timetable.legs(train)[leg].departure;
    let Point { x, y } = layout.before_leg(train, leg, departure, station);
    let words = format!(
        "train {train} is booked to leave station {station} at {} or later",
        time_of_day(booking.minute)
    );
    let attributes: [Attribute; 6] = [
        ("class", &"booked"),
        ("transform", &format_args!("translate({x} {y})")),
        ("d", &BOOKED),
        ("fill", &"none"),
        ("pointer-events", &"all"),
        ("stroke", colour(train)),
    ];
    element("path", &attributes, &title(&words))
}

/// Where a stand begins, or the wait in it, and where it ends.
fn from_to(stand: &Stand, from: u32, layout: &Layout) -> (Point, Point) {
    let at = |minute| layout.before_leg(stand.train, stand.leg, minute, stand.station);
    (at(from), at(stand.until))
}

/// A dot where a train comes to a station and one where it leaves it again.
fn ends(stand: &Stand, layout: &Layout) -> String {
    if stand.in_yard() {
        return String::new();
    }
    let (from, until) = from_to(stand, stand.from, layout);
    dot(from, stand.train) + &dot(until, stand.train)
}

fn dot(at: Point, train: u32) -> String {
    let attributes: [Attribute; 5] = [
        ("class", &"stand"),
        ("cx", &at.x),
        ("cy", &at.y),
        ("r", &"2.5"),
        ("fill", colour(train)),
    ];
    element("circle", &attributes, "")
}

/// A broad pale band over the minutes of a wait. In the yard it is a row of dots: no track is taken.
fn band(stand: &Stand, layout: &Layout) -> String {
    let Some(wait) = &stand.wait else {
        return String::new();
    };
    let (from, until) = from_to(stand, wait.from, layout);
    let (class, width, opacity) = match stand.in_yard() {
        true => ("yard", 3, "0.6"),
        false => ("band", 8, "0.25"),
    };
    let dashes = if stand.in_yard() { "3 3" } else { "none" };
    let attributes: [Attribute; 4] = [
        ("stroke", colour(stand.train)),
        ("stroke-width", &width),
        ("stroke-opacity", &opacity),
        ("stroke-dasharray", &dashes),
    ];
    group(&attributes, &line(class, from, until))
}

/// The sign of a wait, at the departure that ends it.
fn sign(stand: &Stand, layout: &Layout) -> String {
    let Some(wait) = &stand.wait else {
        return String::new();
    };
    let (_, Point { x, y }) = from_to(stand, wait.from, layout);
    let attributes: [Attribute; 6] = [
        ("class", &"wait"),
        ("transform", &format_args!("translate({x} {y})")),
        ("d", &SIGN),
        ("fill", &"#ffffff"),
        ("stroke", colour(stand.train)),
        ("stroke-width", &"1.5"),
    ];
    element("path", &attributes, &title(&wait.sentence()))
}

/// The number of each train at its start and its end, and at its due minute. All leaders first, so that
/// none crosses a number.
fn numbers(timetable: &Timetable, layout: &Layout) -> String {
    let mut leaders = String::new();
    let mut labels = String::new();
    for label in &layout.labels {
        let corner = layout.label_corner(label);
        let point = layout.labelled_point(label);
        leaders += &leader(label, point, label.leader_end(corner));
        labels += &train_label(timetable, label, corner);
    }
    leaders + &labels
}

/// The line from a point of a station to a train's number. To that of a due minute it is dashed.
fn leader(label: &TrainLabel, from: Point, to: Point) -> String {
    let stroke: Attribute = ("stroke", colour(label.train));
    match label.due {
        false => group(&[stroke], &line("leader", from, to)),
        true => {
            let dashes: Attribute = ("stroke-dasharray", &"2 2");
            group(&[stroke, dashes], &line("due-leader", from, to))
        }
    }
}

/// A train's number in a frame, whose upper right corner is given. That of a due minute is round.
fn train_label(timetable: &Timetable, label: &TrainLabel, corner: Point) -> String {
    let (class, round, words) = match label.due {
        false => ("train-label", 2, String::new()),
        true => ("due", LABEL_HEIGHT / 2, due_title(timetable, label.train)),
    };
    let frame: [Attribute; 7] = [
        ("x", &(corner.x - LABEL_WIDTH)),
        ("y", &corner.y),
        ("width", &LABEL_WIDTH),
        ("height", &LABEL_HEIGHT),
        ("rx", &round),
        ("fill", &"#ffffff"),
        ("stroke", colour(label.train)),
    ];
    let middle = Point {
        x: corner.x - LABEL_WIDTH / 2,
        y: corner.y + LABEL_HEIGHT / 2 + BASE,
    };
    let number = text("number", middle, Anchor::Middle, &label.train.to_string());
    let attributes: [Attribute; 4] = [
        ("class", &class),
        ("font-size", &11),
        ("font-weight", &"bold"),
        ("fill", &"#111111"),
    ];
    let drawn = words + &element("rect", &frame, "") + &number;
    group(&attributes, &drawn)
}

/// What is read at a due minute.
fn due_title(timetable: &Timetable, train: u32) -> String {
    let line = timetable.line();
    let (due, arrival) = (line.due(train), timetable.last_arrival(train));
    title(&format!(
        "train {train} is due at station {} at {}; it arrives {}, {}",
        line.train(train).destination,
        time_of_day(due),
        time_of_day(arrival),
        punctuality(arrival, due)
    ))
}
