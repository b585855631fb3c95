//! A line with its fields as numbers: read from an accepted file, or built and then accepted.
//!
//! Stations, segments and trains are numbered from 1, as in the files. The legs of a train are counted
//! from 0, as the entries of a list.

use crate::{Leg, Refusal};

/// What kind of track a segment has.
#[derive(Clone, Copy, Debug, PartialEq, Eq, PartialOrd, Ord, Hash)]
pub enum Kind {
    /// Single track with one train at a time.
    S,
    /// Single track on which trains of one direction may follow each other.
    F,
    /// Double track.
    D,
}

impl Kind {
    /// All of them.
    pub const ALL: [Kind; 3] = [Kind::S, Kind::F, Kind::D];

    /// Its letter in the file.
    pub const fn letter(self) -> char {
        match self {
            Kind::S => 'S',
            Kind::F => 'F',
            Kind::D => 'D',
        }
    }
}

/// The track between a station and the next.
#[derive(Clone, Copy, Debug, PartialEq, Eq, Hash)]
pub struct Segment {
    /// The kind of track.
    pub kind: Kind,
    /// Minutes between trains of one direction.
    pub following: u32,
    /// Minutes between trains of opposite directions; there, and not used, on kind D.
    pub opposing: u32,
}

impl Segment {
    /// Its line in the file.
    fn text(&self) -> String {
        let letter = self.kind.letter();
        format!("{letter} {} {}\n", self.following, self.opposing)
    }
}

/// What a train asks for.
#[derive(Clone, Debug, PartialEq, Eq, Hash)]
pub struct Train {
    /// The station that it starts from.
    pub origin: u32,
    /// The station that it goes to.
    pub destination: u32,
    /// The earliest minute of its first departure.
    pub earliest: u32,
    /// The latest minute of its last arrival.
    pub latest: u32,
    /// What a minute of its delay costs.
    pub weight: u32,
    /// Its minutes in travel order, as in the file: run, stop, run, stop, .., run.
    pub journey: Vec<u32>,
}

impl Train {
    /// Whether it runs towards the higher stations.
    pub fn outbound(&self) -> bool {
        self.origin < self.destination
    }

    /// `outbound` or `inbound`.
    pub fn direction(&self) -> &'static str {
        match self.outbound() {
            true => "outbound",
            false => "inbound",
        }
    }

    /// How many segments its path has. It needs as many runs, and one stop fewer.
    pub fn legs(&self) -> usize {
        self.origin.abs_diff(self.destination) as usize
    }

    /// The station that a leg begins at; after the last leg comes the destination.
    pub fn station(&self, leg: usize) -> u32 {
        if self.outbound() {
            self.origin + leg as u32
        } else {
            self.origin - leg as u32
        }
    }

    /// The segment of a leg. An inbound train's first segment is the one below its origin.
    pub fn segment(&self, leg: usize) -> u32 {
        self.station(leg).min(self.station(leg + 1))
    }

    /// The minutes that a leg takes.
    ///
    /// # Panics
    /// Where there is no such leg.
    pub fn run(&self, leg: usize) -> u32 {
        self.journey[2 * leg]
    }

    /// The minutes of its stop before a leg, at a middle station of its path. Before the first leg
    /// there is none.
    ///
    /// # Panics
    /// Where there is no such leg.
    pub fn stop(&self, leg: usize) -> u32 {
        match leg {
            0 => 0,
            _ => self.journey[2 * leg - 1],
        }
    }

    /// Its line in the file.
    fn text(&self) -> String {
        let head = [
            self.origin,
            self.destination,
            self.earliest,
            self.latest,
            self.weight,
        ];
        let fields = head.iter().chain(&self.journey).map(u32::to_string);
        fields.collect::<Vec<String>>().join(" ") + "\n"
    }
}

/// A booked time at a stop: the train does not leave the station before that minute.
#[derive(Clone, Copy, Debug, PartialEq, Eq, Hash)]
pub struct Booking {
    /// The train.
    pub train: u32,
    /// The station, a middle one of the train's path.
    pub station: u32,
    /// The minute. Also 0 is a booking.
    pub minute: u32,
}

impl Booking {
    /// Its line in the file.
    fn text(&self) -> String {
        format!("{} {} {}\n", self.train, self.station, self.minute)
    }
}

/// A due minute: the lateness of the train counts from it.
#[derive(Clone, Copy, Debug, PartialEq, Eq, Hash)]
pub struct Due {
    /// The train.
    pub train: u32,
    /// The minute. Also 0 is a due minute.
    pub minute: u32,
}

impl Due {
    /// Its line in the file.
    fn text(&self) -> String {
        format!("{} {}\n", self.train, self.minute)
    }
}

/// A line that the library has accepted, with typed access to what its file says.
///
/// ```
/// use gaugeviolet::{Kind, Line};
///
/// let file = b"3\n2\n2\n2\n2\nS 5 4\nD 5 4\n1\n3 1 360 600 2 15 1 20\n";
/// let line = Line::read(file)?;
/// assert_eq!(line.tracks(), [2, 2, 2]);
/// assert_eq!(line.segments()[1].kind, Kind::D);
/// let train = &line.trains()[0];
/// assert_eq!((train.segment(0), train.run(0), train.stop(1)), (2, 15, 1));
/// assert_eq!(line.free_arrival(1), 396);
/// assert_eq!(line.file(), file);
/// # Ok::<(), gaugeviolet::Refusal>(())
/// ```
#[derive(Clone, Debug, PartialEq, Eq)]
pub struct Line {
    parts: LineBuilder,
    file: Vec<u8>,
}

impl Line {
    /// The line of a file, refused as [`crate::read`] refuses it.
    pub fn read(file: &[u8]) -> Result<Line, Refusal> {
        crate::read(file)?;
        Ok(Line {
            parts: parts_of_accepted(file),
            file: file.to_vec(),
        })
    }

    /// The tracks of each station.
    pub fn tracks(&self) -> &[u32] {
        &self.parts.tracks
    }

    /// The segments; segment p joins stations p and p + 1.
    pub fn segments(&self) -> &[Segment] {
        &self.parts.segments
    }

    /// The trains.
    pub fn trains(&self) -> &[Train] {
        &self.parts.trains
    }

    /// The bookings, rising by train and then by station.
    pub fn bookings(&self) -> &[Booking] {
        &self.parts.bookings
    }

    /// The due minutes that the file lists, rising by train. [`Line::due`] is that of any train.
    pub fn dues(&self) -> &[Due] {
        &self.parts.dues
    }

    /// The tracks of a station, by its number.
    ///
    /// # Panics
    /// Where there is none.
    pub fn tracks_at(&self, station: u32) -> u32 {
        self.parts.tracks[station as usize - 1]
    }

    /// A segment, by its number.
    ///
    /// # Panics
    /// Where there is none.
    pub fn segment(&self, number: u32) -> &Segment {
        &self.parts.segments[number as usize - 1]
    }

    /// A train, by its number.
    ///
    /// # Panics
    /// Where there is none.
    pub fn train(&self, number: u32) -> &Train {
        &self.parts.trains[number as usize - 1]
    }

    /// The minute that a train, by its number, is booked for at a station, if it is.
    pub fn booked(&self, train: u32, station: u32) -> Option<u32> {
        let mut bookings = self.bookings().iter();
        let booking = bookings.find(|it| (it.train, it.station) == (train, station))?;
        Some(booking.minute)
    }

    /// The minutes of a train, by its number, were it alone on the line and as early as its stops and its
    /// bookings let it be.
    ///
    /// ```
    /// let file = b"3\n2\n2\n2\n2\nS 5 4\nS 5 4\n1\n1 3 0 200 1 20 1 20\n1\n1 2 30\n";
    /// let legs = gaugeviolet::Line::read(file)?.free_legs(1);
    /// assert_eq!(legs[1].departure, 30);
    /// # Ok::<(), gaugeviolet::Refusal>(())
    /// ```
    ///
    /// # Panics
    /// Where there is no such train.
    pub fn free_legs(&self, number: u32) -> Vec<Leg> {
        let train = self.train(number);
        let mut arrival = train.earliest;
        let leg = |leg: usize| {
            let booked = self.booked(number, train.station(leg)).unwrap_or(0);
            let departure = booked.max(arrival + train.stop(leg));
            arrival = departure + train.run(leg);
            Leg { departure, arrival }
        };
        (0..train.legs()).map(leg).collect()
    }

    /// When a train, by its number, would be at its destination were it alone on the line, its bookings
    /// kept.
    ///
    /// # Panics
    /// Where there is no such train.
    pub fn free_arrival(&self, number: u32) -> u32 {
        let legs = self.free_legs(number);
        legs.last().expect("a train has legs").arrival
    }

    /// The due minute that the file lists for a train, by its number, if it does.
    pub fn listed_due(&self, train: u32) -> Option<u32> {
        let due = self.dues().iter().find(|it| it.train == train)?;
        Some(due.minute)
    }

    /// When a train, by its number, is due at its destination: at the minute that the file lists, or else
    /// at its free arrival.
    ///
    /// ```
    /// let file = b"2\n1\n1\n1\nD 5 4\n2\n1 2 0 99 1 10\n2 1 0 99 1 10\n0\n1\n2 0\n";
    /// let line = gaugeviolet::Line::read(file)?;
    /// assert_eq!((line.listed_due(1), line.due(1)), (None, 10));
    /// // Minute 0 is a due minute too, though no train can be there then.
    /// assert_eq!((line.listed_due(2), line.due(2)), (Some(0), 0));
    /// # Ok::<(), gaugeviolet::Refusal>(())
    /// ```
    ///
    /// # Panics
    /// Where there is no such train.
    pub fn due(&self, train: u32) -> u32 {
        let listed = self.listed_due(train);
        listed.unwrap_or_else(|| self.free_arrival(train))
    }

    /// The bytes of its file.
    pub fn file(&self) -> &[u8] {
        &self.file
    }

    /// The same stations and segments with these of its trains alone, by number and in this order. They
    /// are numbered anew and keep their bookings and due minutes.
    ///
    /// ```
    /// let file = b"2\n1\n1\n1\nS 5 4\n2\n1 2 0 9 1 5\n2 1 0 9 1 6\n";
    /// let second = gaugeviolet::Line::read(file)?.with_trains(&[2]);
    /// assert_eq!(second.file(), b"2\n1\n1\n1\nS 5 4\n1\n2 1 0 9 1 6\n");
    ///
    /// let (front, train) = (b"3\n1\n1\n1\n2\nS 5 4\nS 5 4\n", b"3 1 0 99 1 5 0 5\n");
    /// let file = [&front[..], b"2\n1 2 0 9 1 5\n", train, b"1\n2 2 30\n1\n2 40\n"].concat();
    /// let second = gaugeviolet::Line::read(&file)?.with_trains(&[2]);
    /// assert_eq!(second.file(), [&front[..], b"1\n", train, b"1\n1 2 30\n1\n1 40\n"].concat());
    /// # Ok::<(), gaugeviolet::Refusal>(())
    /// ```
    ///
    /// # Panics
    /// Where there is no train of such a number, or more than twelve numbers are given.
    pub fn with_trains(&self, numbers: &[u32]) -> Line {
        let train = |&number: &u32| self.train(number).clone();
        let numbered = (1..).zip(numbers);
        let bookings = numbered.clone();
        let bookings = bookings.flat_map(|(own, &number)| self.bookings_of(number, own));
        let dues = numbered.filter_map(|(train, &number)| {
            let minute = self.listed_due(number)?;
            Some(Due { train, minute })
        });
        let fewer = LineBuilder {
            trains: numbers.iter().map(train).collect(),
            bookings: bookings.collect(),
            dues: dues.collect(),
            ..self.parts.clone()
        };
        fewer.build().expect("parts of an accepted line")
    }

    /// The bookings of a train as those of a train with another number.
    fn bookings_of(&self, number: u32, train: u32) -> impl Iterator<Item = Booking> + '_ {
        let own = self.bookings().iter().filter(move |it| it.train == number);
        own.map(move |&booking| Booking { train, ..booking })
    }
}

/// The fields of an accepted file, found by splitting at line feeds and spaces.
fn parts_of_accepted(file: &[u8]) -> LineBuilder {
    let text = std::str::from_utf8(file).expect("what is accepted is ASCII");
    let rows: Vec<Row> = text.lines().map(|row| row.split(' ').collect()).collect();
    let (tracks, rest) = section(&rows);
    let (segments, rest) = section(rest);
    let (trains, rest) = section(rest);
    let (bookings, rest) = section(rest);
    let (dues, _) = section(rest);
    LineBuilder {
        tracks: tracks.iter().map(|row| number(row[0])).collect(),
        segments: segments.iter().map(|row| segment(row)).collect(),
        trains: trains.iter().map(|row| train(row)).collect(),
        bookings: bookings.iter().map(|row| booking(row)).collect(),
        dues: dues.iter().map(|row| due(row)).collect(),
    }
}

type Row<'a> = Vec<&'a str>;

/// The rows of the section that comes next, after the one with their count, and the rows after it. One that
/// is left off has none.
fn section<'a, 'b>(rows: &'b [Row<'a>]) -> (&'b [Row<'a>], &'b [Row<'a>]) {
    match rows.split_first() {
        None => (&[], &[]),
        Some((count, rest)) => rest.split_at(number(count[0]) as usize),
    }
}

fn segment(row: &[&str]) -> Segment {
    let kind = Kind::ALL
        .into_iter()
        .find(|kind| row[0].starts_with(kind.letter()));
    Segment {
        kind: kind.expect("the letter of a kind"),
        following: number(row[1]),
        opposing: number(row[2]),
    }
}

fn train(row: &[&str]) -> Train {
    Train {
        origin: number(row[0]),
        destination: number(row[1]),
        earliest: number(row[2]),
        latest: number(row[3]),
        weight: number(row[4]),
        journey: row[5..].iter().map(|field| number(field)).collect(),
    }
}

fn booking(row: &[&str]) -> Booking {
    Booking {
        train: number(row[0]),
        station: number(row[1]),
        minute: number(row[2]),
    }
}

fn due(row: &[&str]) -> Due {
    Due {
        train: number(row[0]),
        minute: number(row[1]),
    }
}

pub(crate) fn number(field: &str) -> u32 {
    field.parse().expect("a number, as it was accepted")
}

/// Builds a line file, which the library then accepts or refuses.
///
/// ```
/// use gaugeviolet::{Kind, LineBuilder, Train};
///
/// let mut train = Train {
///     origin: 1,
///     destination: 3,
///     earliest: 360,
///     latest: 600,
///     weight: 2,
///     journey: vec![15, 1, 20],
/// };
/// let line = LineBuilder::new()
///     .station(2)
///     .segment(Kind::S, 5, 4)
///     .station(2)
///     .segment(Kind::S, 5, 4)
///     .station(2)
///     .train(train.clone());
/// assert_eq!(line.build()?.file(), b"3\n2\n2\n2\n2\nS 5 4\nS 5 4\n1\n1 3 360 600 2 15 1 20\n");
///
/// // Over two segments a train has two runs and a stop between them.
/// train.journey.push(0);
/// let refusal = line.train(train).build().unwrap_err();
/// assert_eq!((refusal.number, refusal.place), (2, 10));
/// # Ok::<(), gaugeviolet::Refusal>(())
/// ```
#[derive(Clone, Debug, Default, PartialEq, Eq)]
pub struct LineBuilder {
    tracks: Vec<u32>,
    segments: Vec<Segment>,
    trains: Vec<Train>,
    bookings: Vec<Booking>,
    dues: Vec<Due>,
}

impl LineBuilder {
    /// A line without stations as yet.
    pub fn new() -> LineBuilder {
        LineBuilder::default()
    }

    /// Adds a station with so many tracks.
    pub fn station(mut self, tracks: u32) -> LineBuilder {
        self.tracks.push(tracks);
        self
    }

    /// Adds the next segment: its kind, following gap and opposing gap.
    pub fn segment(mut self, kind: Kind, following: u32, opposing: u32) -> LineBuilder {
        self.segments.push(Segment {
            kind,
            following,
            opposing,
        });
        self
    }

    /// Adds a train.
    pub fn train(mut self, train: Train) -> LineBuilder {
        self.trains.push(train);
        self
    }

    /// Adds a booking. They are to rise by train and then by station.
    ///
    /// ```
    /// use gaugeviolet::{Booking, Kind, LineBuilder, Train};
    ///
    /// let train = Train {
    ///     origin: 1,
    ///     destination: 3,
    ///     earliest: 0,
    ///     latest: 90,
    ///     weight: 2,
    ///     journey: vec![15, 1, 20],
    /// };
    /// let line = LineBuilder::new()
    ///     .station(2)
    ///     .segment(Kind::S, 5, 4)
    ///     .station(2)
    ///     .segment(Kind::S, 5, 4)
    ///     .station(2)
    ///     .train(train);
    /// let booked = |station| Booking { train: 1, station, minute: 30 };
    /// assert_eq!(line.clone().booking(booked(2)).build()?.free_arrival(1), 50);
    ///
    /// // A train leaves its origin by its earliest minute, not by a booking.
    /// let refusal = line.booking(booked(1)).build().unwrap_err();
    /// assert_eq!((refusal.number, refusal.place), (19, 11));
    /// # Ok::<(), gaugeviolet::Refusal>(())
    /// ```
    pub fn booking(mut self, booking: Booking) -> LineBuilder {
        self.bookings.push(booking);
        self
    }

    /// Adds a due minute. They are to rise by train.
    ///
    /// ```
    /// use gaugeviolet::{Due, Kind, LineBuilder, Train};
    ///
    /// let train = Train {
    ///     origin: 1,
    ///     destination: 2,
    ///     earliest: 0,
    ///     latest: 90,
    ///     weight: 2,
    ///     journey: vec![15],
    /// };
    /// let line = LineBuilder::new()
    ///     .station(2)
    ///     .segment(Kind::S, 5, 4)
    ///     .station(2)
    ///     .train(train);
    /// let line = line.due(Due { train: 1, minute: 20 });
    /// assert_eq!(line.build()?.due(1), 20);
    /// // The section of bookings before it is empty.
    /// assert!(line.text().ends_with(b"\n0\n1\n1 20\n"));
    ///
    /// // There is one train, so there is one due minute at most.
    /// let refusal = line.due(Due { train: 1, minute: 30 }).build().unwrap_err();
    /// assert_eq!((refusal.number, refusal.place), (3, 9));
    /// # Ok::<(), gaugeviolet::Refusal>(())
    /// ```
    pub fn due(mut self, due: Due) -> LineBuilder {
        self.dues.push(due);
        self
    }

    /// What its file would be. [`Refusal::explanation`] takes it where `build` is refused.
    pub fn text(&self) -> Vec<u8> {
        let mut sections = vec![
            self.tracks.iter().map(|it| format!("{it}\n")).collect(),
            self.segments.iter().map(Segment::text).collect(),
            self.trains.iter().map(Train::text).collect(),
            self.bookings.iter().map(Booking::text).collect(),
            self.dues.iter().map(Due::text).collect::<Vec<String>>(),
        ];
        // Of bookings and due minutes, those after which nothing comes are left off.
        while sections.len() > 3 && sections.last().is_some_and(Vec::is_empty) {
            sections.pop();
        }
        let text = |rows: &Vec<String>| format!("{}\n{}", rows.len(), rows.concat());
        let text: String = sections.iter().map(text).collect();
        text.into_bytes()
    }

    /// The line, or why the library refuses its file (numbers 1 to 4 and 19).
    pub fn build(&self) -> Result<Line, Refusal> {
        Line::read(&self.text())
    }
}
