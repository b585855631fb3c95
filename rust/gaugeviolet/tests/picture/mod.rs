//! What a train graph is to show, worked from the texts of line file and timetable, and held against
//! the picture. Where a minute or a station stands is taken from what the picture has written there.

use std::collections::{BTreeMap, BTreeSet};

use gaugeviolet::{time_of_day, Timetable};
use independent::rules::{lists, Lane};
use independent::Line;

use crate::xml::{well_formed, Element};

/// The picture and what it is to show.
struct Shown<'a> {
    elements: Vec<&'a Element>,
    line: Line,
    /// Departure and arrival for each leg, train by train.
    rows: Vec<Vec<i64>>,
    /// The lines of the timetable's text after those of the trains.
    rest: Vec<String>,
    /// What each wait says, train by train in travel order.
    sentences: Vec<String>,
}

/// How far a train that stands may be drawn from its station's line.
const BESIDE: i64 = 60;

/// For each train the height of its line before each of its legs, and at its end.
type Heights = Vec<Vec<i64>>;

/// A wait of a train, counted from 0, before one of its legs.
struct Waited {
    train: usize,
    leg: usize,
    station: i64,
    from: i64,
    until: i64,
}

impl Waited {
    /// Holds that its sign says who waits where and when, in the crate's sentence.
    fn hold_title(&self, sign: &Element, sentence: &str) {
        let [title] = &sign.inside[..] else {
            panic!("a sign has one title");
        };
        assert_eq!((&title.name[..], &title.text[..]), ("title", sentence));
        let who = format!("train {} waits ", self.train + 1);
        let place = ["in the yard of", "at"][usize::from(self.leg > 0)];
        let [from, until] = [self.from, self.until].map(|minute| time_of_day(minute as u32));
        let station = self.station;
        let when = format!(" {place} station {station}, from {from} to {until}, for ");
        assert!(sentence.starts_with(&who), "{sentence}");
        assert!(sentence.contains(&when), "{sentence}");
    }
}

/// Holds a picture against the texts of its line file and timetable.
pub fn hold(picture: &str, file: &[u8], timetable: &[u8]) {
    let picture = well_formed(picture).expect("well-formed XML");
    assert_eq!(picture.name, "svg");
    let line = independent::read(file).expect("a line file");
    let text = std::str::from_utf8(timetable).expect("a timetable");
    let (trains, rest) = (line.used_trains().len(), text.lines());
    let minutes = rest.clone().skip(1).take(trains);
    let shown = Shown {
        elements: picture.all(),
        line,
        rows: minutes.map(numbers).collect(),
        rest: rest.skip(1 + trains).map(str::to_string).collect(),
        sentences: sentences(file, timetable),
    };
    let axes = shown.axes();
    let heights = shown.ways(&axes);
    shown.styles();
    shown.beside_each_other(&heights);
    shown.stands(&axes, &heights);
    shown.waits(&axes, &heights);
    shown.bookings(&axes, &heights);
    shown.dues(&axes);
    shown.train_labels();
    shown.delays();
    shown.lists_and_total();
    shown.within_the_page(&picture);
    shown.words_apart();
}

/// What the crate says of the waits; other tests hold it to the rules.
fn sentences(file: &[u8], timetable: &[u8]) -> Vec<String> {
    let line = gaugeviolet::Line::read(file).expect("a line file");
    let timetable = Timetable::read(&line, timetable).expect("a timetable");
    let waits = timetable.waits();
    waits.iter().map(|wait| wait.sentence()).collect()
}

/// The numbers of a line.
pub fn numbers(row: &str) -> Vec<i64> {
    let fields = row.split(' ');
    fields
        .map(|field| field.parse().expect("a number"))
        .collect()
}

/// Where minutes and stations stand, as the picture itself has written it beside its grid.
struct Axes {
    /// The first labelled minute, where it stands, and the pixels of a minute.
    minute: (i64, i64),
    /// The last labelled minute.
    last: i64,
    pixels: i64,
    stations: BTreeMap<i64, i64>,
}

impl Axes {
    fn shows(&self, minute: i64) -> bool {
        (self.minute.0..=self.last).contains(&minute)
    }

    fn point(&self, minute: i64, station: i64) -> (i64, i64) {
        let x = self.minute.1 + (minute - self.minute.0) * self.pixels;
        (x, self.stations[&station])
    }
}

impl Shown<'_> {
    fn of(&self, name: &str, class: &str) -> Vec<&Element> {
        let all = self.elements.iter().copied();
        all.filter(|element| element.name == name && element.has_class(class))
            .collect()
    }

    /// The axes, with every label at its line and all of them in proportion.
    fn axes(&self) -> Axes {
        let labels = self.of("text", "minute");
        let minutes: BTreeMap<i64, i64> = labels
            .iter()
            .map(|label| (label.text.parse().expect("a minute"), label.number("x")))
            .collect();
        let lines = self.of("line", "minute");
        let at_lines: Vec<i64> = lines.iter().map(|line| line.number("x1")).collect();
        assert!(lines
            .iter()
            .all(|line| line.value("x1") == line.value("x2")));
        assert_eq!(at_lines, minutes.values().copied().collect::<Vec<i64>>());
        let (&first, &last) = (minutes.keys().min().unwrap(), minutes.keys().max().unwrap());
        let axes = Axes {
            minute: (first, minutes[&first]),
            last,
            pixels: (minutes[&last] - minutes[&first]) / (last - first),
            stations: self.stations(),
        };
        assert!(axes.pixels >= 1);
        for (&minute, &x) in &minutes {
            assert_eq!(axes.point(minute, 1).0, x, "minute {minute}");
        }
        self.clock(&minutes);
        let all = self.rows.iter().flatten();
        assert!(all.clone().all(|minute| (first..=last).contains(minute)));
        axes
    }

    /// The time of day at each labelled minute, and the first of the second day marked.
    fn clock(&self, minutes: &BTreeMap<i64, i64>) {
        let labels = self.of("text", "clock");
        let clock = labels
            .iter()
            .map(|label| (label.text.clone(), label.number("x")));
        let expected = minutes.iter().map(|(minute, &x)| {
            let time = format!("{:02}:{:02}", minute / 60 % 24, minute % 60);
            (time, x)
        });
        assert_eq!(clock.collect::<Vec<_>>(), expected.collect::<Vec<_>>());
        let days = self.of("text", "day");
        let days: Vec<i64> = days.iter().map(|day| day.number("x")).collect();
        let second = minutes.range(1440..).next();
        assert_eq!(days, Vec::from_iter(second.map(|(_, &x)| x)));
    }

    /// The height of each station: equally far from each other, and named there with its tracks.
    fn stations(&self) -> BTreeMap<i64, i64> {
        let lines = self.of("line", "station");
        let heights: Vec<i64> = lines.iter().map(|line| line.number("y1")).collect();
        assert_eq!(heights.len(), usize::from(self.line.station_count));
        let spacing = heights[1] - heights[0];
        assert!(spacing > 0);
        assert!(heights.windows(2).all(|pair| pair[1] - pair[0] == spacing));
        let names = self.of("text", "station");
        assert_eq!(names.len(), heights.len());
        for (at, (name, height)) in names.iter().zip(&heights).enumerate() {
            let tracks = match self.line.tracks[at] {
                1 => "1 track".to_string(),
                tracks => format!("{tracks} tracks"),
            };
            assert_eq!(name.text, format!("station {} ({tracks})", at + 1));
            assert!((name.number("y") - height).abs() <= 5, "beside its line");
        }
        (1..).zip(heights).collect()
    }

    /// The stations of a train's path, in travel order.
    fn path(&self, train: usize) -> Vec<i64> {
        let train = &self.line.trains[train];
        let (from, to) = (i64::from(train.origin), i64::from(train.destination));
        if from < to {
            (from..=to).collect()
        } else {
            (to..=from).rev().collect()
        }
    }

    /// One polyline for each train, through exactly its minutes at its stations; where it stands, level
    /// and perhaps beside the station's line. Gives the heights.
    fn ways(&self, axes: &Axes) -> Heights {
        let polylines = self.of("polyline", "train");
        assert_eq!(polylines.len(), self.rows.len());
        let trains = polylines.iter().zip(&self.rows).enumerate();
        trains
            .map(|(at, (polyline, row))| {
                assert_eq!(polyline.value("id"), format!("train-{}", at + 1));
                let points = polyline.value("points").split(' ');
                let points: Vec<Vec<i64>> = points.map(|point| split(point, ',')).collect();
                self.way(axes, at, row, &points)
            })
            .collect()
    }

    fn way(&self, axes: &Axes, at: usize, row: &[i64], points: &[Vec<i64>]) -> Vec<i64> {
        let path = self.path(at);
        assert_eq!(points.len(), row.len());
        // Every station but the first and the last is there twice: arrival and departure.
        for ((&station, &minute), point) in path.windows(2).flatten().zip(row).zip(points) {
            let (x, y) = axes.point(minute, station);
            assert_eq!(point[0], x, "train {} at station {station}", at + 1);
            assert!((point[1] - y).abs() <= BESIDE, "near its station");
        }
        for leg in 1..path.len() - 1 {
            let (arrival, departure) = (&points[2 * leg - 1], &points[2 * leg]);
            assert_eq!(arrival[1], departure[1], "level where it stands");
        }
        let last = points.last().expect("a point")[1];
        assert_eq!(last, axes.stations[&path[path.len() - 1]]);
        let before = points.iter().step_by(2).map(|point| point[1]);
        before.chain([last]).collect()
    }

    /// Colours that are seen on white and told from each other, and dashes for the same without colour.
    fn styles(&self) {
        let ways = self.of("polyline", "train");
        let dashes: BTreeSet<&str> = ways
            .iter()
            .map(|way| way.value("stroke-dasharray"))
            .collect();
        assert_eq!(dashes.len(), ways.len(), "dashes of its own each");
        let colours: Vec<&str> = ways.iter().map(|way| way.value("stroke")).collect();
        for (at, colour) in colours.iter().enumerate() {
            assert!(contrast_with_white(colour) >= 3.0, "{colour} on white");
            for other in &colours[..at] {
                let apart = colour_distance(colour, other);
                assert!(apart >= 25.0, "{colour} beside {other}: {apart}");
            }
        }
        // The table beside the graph has a piece of each line.
        let groups = self.elements.iter().filter(|group| {
            let [inside] = &group.inside[..] else {
                return false;
            };
            inside.has_class("sample")
        });
        let style = |element: &Element| {
            let value = |name| element.value(name).to_string();
            (value("stroke"), value("stroke-dasharray"))
        };
        let samples: Vec<_> = groups
            .inspect(|group| hold_whole_pattern(group))
            .map(|group| style(group))
            .collect();
        assert_eq!(
            samples,
            ways.iter().map(|way| style(way)).collect::<Vec<_>>()
        );
    }

    /// Where a train stands for a minute or more, or waits at its origin: train, leg, station, first and
    /// last minute.
    fn all_stands(&self) -> Vec<(usize, usize, i64, i64, i64)> {
        let mut all = Vec::new();
        for (at, row) in self.rows.iter().enumerate() {
            let path = self.path(at);
            let earliest = i64::from(self.line.trains[at].earliest);
            for leg in 0..path.len() - 1 {
                let from = if leg == 0 { earliest } else { row[2 * leg - 1] };
                if from < row[2 * leg] {
                    all.push((at, leg, path[leg], from, row[2 * leg]));
                }
            }
        }
        all
    }

    /// Trains that stand at one station at the same time are not drawn on each other.
    fn beside_each_other(&self, heights: &Heights) {
        let stands = self.all_stands();
        for (at, one) in stands.iter().enumerate() {
            for other in &stands[..at] {
                let together = one.2 == other.2 && one.3 <= other.4 && other.3 <= one.4;
                let height = |stand: &(usize, usize, i64, i64, i64)| heights[stand.0][stand.1];
                let apart = (height(one) - height(other)).abs();
                assert!(!together || apart >= 8, "{one:?} and {other:?}");
            }
        }
    }

    /// A dot at arrival and departure wherever a train stands for a minute or more.
    fn stands(&self, axes: &Axes, heights: &Heights) {
        let standing = self
            .all_stands()
            .into_iter()
            .filter(|&(_, leg, ..)| leg > 0);
        let expected = standing.flat_map(|(at, leg, station, from, until)| {
            let x = |minute| axes.point(minute, station).0;
            [(x(from), heights[at][leg]), (x(until), heights[at][leg])]
        });
        let dots = self.of("circle", "stand").into_iter();
        let dots: Vec<(i64, i64)> = dots
            .map(|dot| (dot.number("cx"), dot.number("cy")))
            .collect();
        assert_eq!(dots, expected.collect::<Vec<_>>());
    }

    /// Exactly the waits, each with its sign at station and departure, its band and its sentence.
    fn waits(&self, axes: &Axes, heights: &Heights) {
        let mut signs = self.of("path", "wait").into_iter();
        let mut sentences = self.sentences.iter();
        let mut bands: [Vec<[i64; 4]>; 2] = [Vec::new(), Vec::new()];
        for wait in self.all_waits() {
            let y = heights[wait.train][wait.leg];
            let (from, to) = (
                axes.point(wait.from, wait.station).0,
                axes.point(wait.until, wait.station).0,
            );
            bands[usize::from(wait.leg > 0)].push([from, y, to, y]);
            let sign = signs.next().expect("a sign");
            assert_eq!(sign.value("transform"), format!("translate({to} {y})"));
            wait.hold_title(sign, sentences.next().expect("a sentence"));
        }
        assert!(signs.next().is_none() && sentences.next().is_none());
        // In the yard a wait has another band than on a track.
        for (class, expected) in ["yard", "band"].into_iter().zip(bands) {
            let drawn = self.of("line", class).into_iter();
            let drawn = drawn.map(|band| ["x1", "y1", "x2", "y2"].map(|name| band.number(name)));
            assert_eq!(drawn.collect::<Vec<_>>(), expected, "{class}");
        }
    }

    /// Exactly the bookings, each with its sign at station and departure; and what the sign means.
    fn bookings(&self, axes: &Axes, heights: &Heights) {
        let bookings = self.line.used_bookings();
        let signs = self.of("path", "booked");
        assert_eq!(signs.len(), bookings.len());
        for (booking, sign) in bookings.iter().zip(signs) {
            let (at, station) = (usize::from(booking.train) - 1, i64::from(booking.station));
            let mut path = self.path(at).into_iter();
            let leg = path.position(|it| it == station).expect("on its path");
            let (x, y) = (
                axes.point(self.rows[at][2 * leg], station).0,
                heights[at][leg],
            );
            assert_eq!(sign.value("transform"), format!("translate({x} {y})"));
            let words = format!(
                "train {} is booked to leave station {station} at {} or later",
                booking.train,
                time_of_day(u32::from(booking.minute))
            );
            assert_eq!(sign.inside[0].text, words);
        }
        let meanings = self.of("text", "aside").into_iter();
        let told = meanings.filter(|words| words.text.starts_with("is booked,"));
        assert_eq!(told.count(), usize::from(!bookings.is_empty()));
    }

    /// The due minutes that are shown, with their trains, counted from 0: those from the first minute of the
    /// picture up to an hour after the last arrival.
    fn shown_dues(&self, axes: &Axes) -> Vec<(usize, i64)> {
        let last = self.rows.iter().flatten().max().copied().unwrap_or(0);
        let shown = axes.minute.0..=last + 60;
        let dues = self.line.used_dues().iter();
        let dues = dues.map(|due| (usize::from(due.train) - 1, i64::from(due.minute)));
        // A minute that is further away is shown where the picture goes up to it all the same.
        let shown = |&(_, minute): &(usize, i64)| shown.contains(&minute) || axes.shows(minute);
        dues.filter(shown).collect()
    }

    /// Exactly the due minutes that are shown, each a leader from minute and destination to a round frame
    /// with the train's number, in its colour; and what that means.
    fn dues(&self, axes: &Axes) {
        let dues = self.shown_dues(axes);
        let (labels, leaders) = (self.of("g", "due"), self.of("line", "due-leader"));
        assert_eq!((labels.len(), leaders.len()), (dues.len(), dues.len()));
        let ways = self.of("polyline", "train");
        for (&(at, minute), (label, leader)) in dues.iter().zip(labels.iter().zip(leaders)) {
            let station = i64::from(self.line.trains[at].destination);
            let from = (leader.number("x1"), leader.number("y1"));
            assert_eq!(from, axes.point(minute, station), "train {}", at + 1);
            assert_eq!(leader.number("x2"), from.0);
            let [title, frame, number] = &label.inside[..] else {
                panic!("a title, a frame and a number");
            };
            assert_eq!(title.text, self.due_words(at, minute));
            assert_eq!(number.text, (at + 1).to_string());
            assert_eq!(frame.value("stroke"), ways[at].value("stroke"));
            assert_eq!(frame.number("x") + frame.number("width"), from.0);
            let height = frame.number("y")..=frame.number("y") + frame.number("height");
            assert!(height.contains(&leader.number("y2")), "at its frame");
        }
        let meanings = self.of("text", "aside").into_iter();
        let told = meanings.filter(|words| words.text.starts_with("is due "));
        assert_eq!(told.count(), usize::from(!dues.is_empty()));
    }

    /// What is said of a train at its due minute.
    fn due_words(&self, at: usize, due: i64) -> String {
        let arrival = *self.rows[at].last().expect("an arrival");
        let kept = match arrival - due {
            0 => "on time".to_string(),
            1 => "1 minute late".to_string(),
            -1 => "1 minute early".to_string(),
            late if late > 0 => format!("{late} minutes late"),
            early => format!("{} minutes early", -early),
        };
        let [due, arrival] = [due, arrival].map(|minute| time_of_day(minute as u32));
        let station = self.line.trains[at].destination;
        let number = at + 1;
        format!("train {number} is due at station {station} at {due}; it arrives {arrival}, {kept}")
    }

    fn all_waits(&self) -> Vec<Waited> {
        let rows = self.rows.iter().enumerate();
        rows.flat_map(|(at, row)| self.waits_of(at, row)).collect()
    }

    /// The waits of a train: at its origin after its earliest minute, at a middle station after its stop.
    fn waits_of(&self, at: usize, row: &[i64]) -> Vec<Waited> {
        let train = &self.line.trains[at];
        let path = self.path(at);
        let ready = |leg: usize| match leg {
            0 => i64::from(train.earliest),
            _ => row[2 * leg - 1] + i64::from(train.stops[leg - 1]),
        };
        let waits = (0..train.legs()).map(|leg| Waited {
            train: at,
            leg,
            station: path[leg],
            from: ready(leg),
            until: row[2 * leg],
        });
        waits.filter(|wait| wait.from != wait.until).collect()
    }

    /// The number of each train, in a frame of its colour, on leaders from its start and from its end; no
    /// number covers another.
    fn train_labels(&self) {
        let labels = self.of("g", "train-label");
        let leaders = self.of("line", "leader");
        let ways = self.of("polyline", "train");
        assert_eq!(labels.len(), 2 * ways.len());
        assert_eq!(leaders.len(), 2 * ways.len());
        let mut frames: Vec<[i64; 4]> = Vec::new();
        for (at, (label, leader)) in labels.iter().zip(leaders).enumerate() {
            let way = ways[at / 2];
            let mut points = way.value("points").split(' ');
            let point = if at % 2 == 0 {
                points.next()
            } else {
                points.next_back()
            };
            let end = format!("{},{}", leader.value("x1"), leader.value("y1"));
            assert_eq!(point, Some(&end[..]), "at its start and at its end");
            let [frame, number] = &label.inside[..] else {
                panic!("a frame and a number");
            };
            assert_eq!(frame.value("stroke"), way.value("stroke"));
            assert_eq!(number.text, (at / 2 + 1).to_string());
            let frame = ["x", "y", "width", "height"].map(|name| frame.number(name));
            let covered = frames.iter().any(|other| overlap(&frame, other));
            assert!(!covered, "train {}", at / 2 + 1);
            frames.push(frame);
        }
    }

    /// The table of delays: arrival, due minute (without due minutes: arrival alone), delay, weight and cost
    /// of each train.
    fn delays(&self) {
        let due = ["alone", "due"][usize::from(self.line.due_count > 0)];
        let heads = self.of("text", "head").into_iter();
        let heads: Vec<&str> = heads.map(|head| head.text.as_str()).collect();
        assert_eq!(heads, ["train", "arrives", due, "delay", "weight", "cost"]);
        let mut expected = Vec::new();
        for (at, row) in self.rows.iter().enumerate() {
            let train = &self.line.trains[at];
            let arrival = *row.last().expect("an arrival") as u32;
            let (due, weight) = (self.line.due_minute(at), u32::from(train.weight));
            let delay = arrival.saturating_sub(due);
            expected.extend([(at + 1).to_string(), time_of_day(arrival), time_of_day(due)]);
            expected.extend([delay, weight, delay * weight].map(|number| number.to_string()));
        }
        let cells = self.of("text", "delay").into_iter();
        let cells: Vec<&str> = cells.map(|cell| cell.text.as_str()).collect();
        assert_eq!(cells, expected);
    }

    fn lists_and_total(&self) {
        let (total, rest) = self.rest.split_last().expect("a total");
        let totals = self.of("text", "total");
        let totals: Vec<&str> = totals.iter().map(|total| total.text.as_str()).collect();
        assert_eq!(totals, [format!("total weighted delay: {total}")]);
        let expected: Vec<String> = lists(&self.line)
            .zip(&rest[1..])
            .map(|((p, lane), row)| format!("{}: {}", self.list_name(p, lane), after_count(row)))
            .collect();
        assert_eq!(expected.len(), rest.len() - 1);
        let orders = self.of("text", "order");
        let orders: Vec<&str> = orders.iter().map(|order| order.text.as_str()).collect();
        assert_eq!(orders, expected);
    }

    fn list_name(&self, p: usize, lane: Lane) -> String {
        let kind = char::from(self.line.segments[p].kind.letter());
        let lane = match lane {
            Lane::Both => "",
            Lane::Outbound => ", outbound",
            Lane::Inbound => ", inbound",
        };
        format!("segment {} ({kind}){lane}", p + 1)
    }

    /// No words stand on other words or on the frame of a train's number.
    fn words_apart(&self) {
        let texts = self.elements.iter().filter(|text| text.name == "text");
        // A number in its frame is held by the frame.
        let texts = texts.filter(|text| !text.has_class("number"));
        let words = texts.map(|text| (words_box(text), text.text.as_str()));
        let frames = self.elements.iter().filter(|frame| frame.name == "rect");
        let frames = frames.filter(|frame| frame.attributes.contains_key("rx"));
        let frames = frames.map(|frame| {
            let sides = ["x", "y", "width", "height"].map(|name| frame.number(name));
            (sides, "a train's number")
        });
        let all: Vec<([i64; 4], &str)> = words.chain(frames).collect();
        for (at, (one, words)) in all.iter().enumerate() {
            let on = all[..at].iter().find(|(other, _)| overlap(one, other));
            assert_eq!(on, None, "{words} on other words");
        }
    }

    /// Every text and every line is on the page as a whole.
    fn within_the_page(&self, page: &Element) {
        let across = 0..=page.number("width");
        let down = 0..=page.number("height");
        for element in &self.elements {
            for (name, range) in [("x", &across), ("y", &down), ("x2", &across), ("y2", &down)] {
                if element.attributes.contains_key(name) {
                    assert!(range.contains(&element.number(name)), "{element:?}");
                }
            }
            if element.name == "text" {
                let [x, _, width, _] = words_box(element);
                assert!(across.contains(&x), "{element:?}");
                assert!(across.contains(&(x + width)), "{element:?}");
            }
        }
    }
}

/// Holds that the piece of a train's line in the table is long enough for all of its dashes.
fn hold_whole_pattern(piece: &Element) {
    let line = &piece.inside[0];
    let length = line.number("x2") - line.number("x1");
    let pattern = piece.value("stroke-dasharray");
    if pattern != "none" {
        let parts = split(pattern, ' ');
        let dashes: i64 = parts[..parts.len() - 1].iter().sum();
        assert!(length >= dashes, "{pattern} in {length} pixels");
    }
}

/// The trains of a list's line, which begins with their count.
fn after_count(row: &str) -> &str {
    row.split_once(' ').map_or("none", |(_, trains)| trains)
}

/// The numbers of a text, separated by a character.
fn split(text: &str, at: char) -> Vec<i64> {
    let parts = text.split(at);
    parts.map(|part| part.parse().expect("a number")).collect()
}

/// Whether two frames (x, y, width, height) have a point in common.
fn overlap(one: &[i64; 4], other: &[i64; 4]) -> bool {
    let beside = one[0] + one[2] <= other[0] || other[0] + other[2] <= one[0];
    let above = one[1] + one[3] <= other[1] || other[1] + other[3] <= one[1];
    !beside && !above
}

/// The room that a text takes at least, with letters of 6 pixels by 9; those of a segment are smaller.
fn words_box(text: &Element) -> [i64; 4] {
    let letter = if text.has_class("segment") { 5 } else { 6 };
    let width = letter * text.text.len() as i64;
    let left = match text.value("text-anchor") {
        "start" => 0,
        "middle" => width / 2,
        _ => width,
    };
    [text.number("x") - left, text.number("y") - 9, width, 9]
}

/// Red, green and blue of a colour as shares of light.
fn light(colour: &str) -> [f64; 3] {
    [1, 3, 5].map(|at| {
        let byte = u8::from_str_radix(&colour[at..at + 2], 16).expect("a colour");
        let share = f64::from(byte) / 255.0;
        if share <= 0.04045 {
            share / 12.92
        } else {
            ((share + 0.055) / 1.055).powf(2.4)
        }
    })
}

/// The ratio of luminances, from 1 to 21; a line is seen well from 3 on.
fn contrast_with_white(colour: &str) -> f64 {
    let [red, green, blue] = light(colour);
    1.05 / (0.2126 * red + 0.7152 * green + 0.0722 * blue + 0.05)
}

/// How far two colours are from each other as the eye sees them (CIE 1976, in L*a*b*); 2 is just seen.
fn colour_distance(one: &str, other: &str) -> f64 {
    let lab = |colour: &str| {
        let [red, green, blue] = light(colour);
        let part = |share: f64| match share > 0.008856 {
            true => share.cbrt(),
            false => 7.787 * share + 16.0 / 116.0,
        };
        let x = part((0.4124 * red + 0.3576 * green + 0.1805 * blue) / 0.95047);
        let y = part(0.2126 * red + 0.7152 * green + 0.0722 * blue);
        let z = part((0.0193 * red + 0.1192 * green + 0.9505 * blue) / 1.08883);
        [116.0 * y - 16.0, 500.0 * (x - y), 200.0 * (y - z)]
    };
    let (one, other) = (lab(one), lab(other));
    let squares = one
        .iter()
        .zip(other)
        .map(|(one, other)| (one - other).powi(2));
    squares.sum::<f64>().sqrt()
}
