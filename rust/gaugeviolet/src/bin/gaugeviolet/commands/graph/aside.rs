//! What stands right of the graph: the total, the delay of each train, the meaning of the signs, and the
//! order lists.

use gaugeviolet::{time_of_day, Timetable};

use super::drawing::{BASE, BOOKED, DUE, ROW, SIGN};
use super::layout::Layout;
use super::style::stroke;
use super::svg::{element, group, line, text, Anchor, Attribute, Point};

/// The room beside the graph, and that of the longest row there: the table of delays.
const BESIDE: u32 = 40;
pub const WIDTH: u32 = BESIDE + 438;

/// The piece of a train's line in the table, which shows its whole pattern of dashes.
const PIECE: u32 = 48;
/// Where the columns of the table end. A time of the second day needs some 75 pixels.
const COLUMNS: [u32; 6] = [72, 162, 252, 302, 362, 418];
const NAMES: [&str; 6] = ["train", "arrives", "alone", "delay", "weight", "cost"];
/// The same where due minutes are listed. The others are due when they would be there alone.
const WITH_DUES: [&str; 6] = ["train", "arrives", "due", "delay", "weight", "cost"];

/// All of it, and where it ends at the bottom.
pub fn aside(timetable: &Timetable, layout: &Layout) -> (String, u32) {
    let mut column = Column {
        at: Point {
            x: layout.right() + BESIDE,
            y: layout.top() + BASE,
        },
        drawn: String::new(),
    };
    column.words(
        "total",
        &format!("total weighted delay: {}", timetable.total()),
    );
    column.table(timetable);
    column.legend(timetable, layout.labels.iter().any(|label| label.due));
    column.orders(timetable);
    (column.drawn, column.at.y)
}

/// Rows under each other, and where the next one begins.
struct Column {
    at: Point,
    drawn: String,
}

impl Column {
    fn words(&mut self, class: &str, words: &str) {
        self.drawn += &text(class, self.at, Anchor::Start, words);
        self.at.y += ROW;
    }

    /// The delay of each train and what it adds to the total, with a piece of its line.
    fn table(&mut self, timetable: &Timetable) {
        self.at.y += ROW / 2;
        let own = timetable.line();
        let names = if own.dues().is_empty() {
            NAMES
        } else {
            WITH_DUES
        };
        self.cells("head", &names.map(str::to_string));
        for (number, train) in timetable.numbers().zip(own.trains()) {
            let delay = timetable.delay(number);
            let y = self.at.y - BASE;
            let piece = line(
                "sample",
                Point { x: self.at.x, y },
                Point {
                    x: self.at.x + PIECE,
                    y,
                },
            );
            let [colour, dashes] = stroke(number);
            self.drawn += &group(&[colour, dashes, ("stroke-width", &2)], &piece);
            self.cells(
                "delay",
                &[
                    number.to_string(),
                    time_of_day(timetable.last_arrival(number)),
                    time_of_day(own.due(number)),
                    delay.to_string(),
                    train.weight.to_string(),
                    (delay * train.weight).to_string(),
                ],
            );
        }
        self.at.y += ROW / 2;
    }

    fn cells(&mut self, class: &str, cells: &[String; 6]) {
        for (cell, end) in cells.iter().zip(COLUMNS) {
            let at = Point {
                x: self.at.x + end,
                ..self.at
            };
            self.drawn += &text(class, at, Anchor::End, cell);
        }
        self.at.y += ROW;
    }

    /// What the signs mean. Those of booked departures and due minutes are there only where there are some.
    fn legend(&mut self, timetable: &Timetable, due_shown: bool) {
        self.sign(SIGN, "waits beyond its stop or its earliest minute");
        let (y, x) = (self.at.y - BASE, self.at.x);
        let dots = line("example", Point { x, y }, Point { x: x + 12, y });
        let style: [Attribute; 3] = [
            ("stroke", &"#333333"),
            ("stroke-width", &3),
            ("stroke-dasharray", &"3 3"),
        ];
        self.drawn += &group(&style, &dots);
        self.beside("waits in the yard of its origin, and takes no track there");
        if !timetable.line().bookings().is_empty() {
            self.sign(BOOKED, "is booked, and does not leave before that minute");
        }
        if due_shown {
            self.sign(DUE, "is due at its destination at that minute");
        }
        self.at.y += ROW / 2;
    }

    /// A sign with its meaning.
    fn sign(&mut self, sign: &str, words: &str) {
        let middle = Point {
            x: self.at.x + 5,
            y: self.at.y - BASE,
        };
        let drawn: [Attribute; 4] = [
            (
                "transform",
                &format_args!("translate({} {})", middle.x, middle.y),
            ),
            ("d", &sign),
            ("fill", &"#ffffff"),
            ("stroke", &"#333333"),
        ];
        self.drawn += &element("path", &drawn, "");
        self.beside(words);
    }

    /// Words after a sign.
    fn beside(&mut self, words: &str) {
        let at = Point {
            x: self.at.x + 18,
            ..self.at
        };
        self.drawn += &text("aside", at, Anchor::Start, words);
        self.at.y += ROW;
    }

    fn orders(&mut self, timetable: &Timetable) {
        self.words("aside", "order of the trains by departure");
        for list in timetable.order_lists() {
            let kind = timetable.line().segment(list.segment).kind;
            let lane = list.lane.after_segment();
            let name = format!("segment {} ({}){lane}", list.segment, kind.letter());
            self.words("order", &format!("{name}: {}", in_order(&list.trains)));
        }
    }
}

fn in_order(trains: &[u32]) -> String {
    match trains {
        [] => "none".to_string(),
        _ => {
            let numbers: Vec<String> = trains.iter().map(u32::to_string).collect();
            numbers.join(" ")
        }
    }
}
