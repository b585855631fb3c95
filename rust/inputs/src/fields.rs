//! A text as lines of fields, so that a test can put something else in a field's place.

use independent::Line;

/// A line file, a timetable or stop times, taken apart: the lines, and the fields of each.
#[derive(Clone, Debug)]
pub struct Fields {
    pub(crate) lines: Vec<Vec<String>>,
    /// What stands between two fields.
    separator: char,
}

impl Fields {
    /// The fields of `line`, which is within the limits; its bookings and dues need not be, but for the room
    /// that a record has for them.
    pub fn of(line: &Line) -> Fields {
        let stations = usize::from(line.station_count);
        let trains = usize::from(line.train_count);
        let mut lines = vec![vec![stations.to_string()]];
        lines.extend(
            line.tracks[..stations]
                .iter()
                .map(|tracks| vec![tracks.to_string()]),
        );
        lines.push(vec![(stations - 1).to_string()]);
        for segment in &line.segments[..stations - 1] {
            let kind = char::from(segment.kind.letter()).to_string();
            lines.push(vec![
                kind,
                segment.following.to_string(),
                segment.opposing.to_string(),
            ]);
        }
        lines.push(vec![trains.to_string()]);
        for train in &line.trains[..trains] {
            let mut numbers = vec![
                train.origin,
                train.destination,
                train.earliest,
                train.latest,
                train.weight,
            ];
            for leg in 0..train.legs() {
                numbers.push(train.runs[leg]);
                numbers.push(train.stops[leg]);
            }
            // No stop follows the last run.
            numbers.pop();
            lines.push(numbers.iter().map(u16::to_string).collect());
        }
        lines.extend(optional_lines(line));
        let separator = ' ';
        Fields { lines, separator }
    }

    /// The fields of a line file or a timetable that is in order.
    pub fn of_text(text: &[u8]) -> Fields {
        Fields::separated_by(' ', text)
    }

    /// The fields of stop times that are in order.
    pub fn of_stop_times(text: &[u8]) -> Fields {
        Fields::separated_by(',', text)
    }

    fn separated_by(separator: char, text: &[u8]) -> Fields {
        let text = std::str::from_utf8(text).expect("a text of ASCII bytes");
        let fields = |line: &str| line.split(separator).map(str::to_string).collect();
        let lines = text.lines().map(fields).collect();
        Fields { lines, separator }
    }

    /// The text of all of them.
    pub fn text(&self) -> Vec<u8> {
        let separator = self.separator.to_string();
        self.lines
            .iter()
            .flat_map(|fields| (fields.join(&separator) + "\n").into_bytes())
            .collect()
    }

    /// Where the fields are: line and field, both from 0.
    pub fn places(&self) -> Vec<(usize, usize)> {
        let each =
            |(line, fields): (usize, &Vec<String>)| (0..fields.len()).map(move |at| (line, at));
        self.lines.iter().enumerate().flat_map(each).collect()
    }

    /// The text with something else in the place of one field.
    pub fn text_with(&self, (line, at): (usize, usize), replaced: &str) -> Vec<u8> {
        let mut altered = self.clone();
        altered.lines[line][at] = replaced.to_string();
        altered.text()
    }
}

/// The lines of the sections past the third, up to the last that is not empty.
fn optional_lines(line: &Line) -> Vec<Vec<String>> {
    let bookings = line.used_bookings().iter();
    let bookings = bookings.map(|it| vec![it.train, it.station, it.minute]);
    let dues = line.used_dues().iter();
    let dues = dues.map(|it| vec![it.train, it.minute]);
    let mut sections = vec![section(bookings), section(dues)];
    while sections.last().is_some_and(|section| section.len() == 1) {
        sections.pop();
    }
    sections.concat()
}

/// A line with the count of these rows, and a line for each.
fn section(rows: impl ExactSizeIterator<Item = Vec<u16>>) -> Vec<Vec<String>> {
    let mut lines = vec![vec![rows.len().to_string()]];
    lines.extend(rows.map(|row| row.iter().map(u16::to_string).collect()));
    lines
}
