//! A timetable with its fields as numbers: minutes by train and leg, order lists, total; and what the
//! minutes say of delays and of who stands where.

use crate::line::number;
use crate::{Kind, Line, Refusal, Segment};

/// The minutes of a train on one of its segments.
#[derive(Clone, Copy, Debug, PartialEq, Eq, Hash)]
pub struct Leg {
    /// When it sets out.
    pub departure: u32,
    /// When it is through.
    pub arrival: u32,
}

/// Which trains of a segment an order list has.
#[derive(Clone, Copy, Debug, PartialEq, Eq, Hash)]
pub enum Lane {
    /// All of them, on S and F.
    Both,
    /// The outbound ones, on D.
    Outbound,
    /// The inbound ones, on D.
    Inbound,
}

/// The trains of a segment and lane by departure.
#[derive(Clone, Debug, PartialEq, Eq, Hash)]
pub struct OrderList {
    /// The segment.
    pub segment: u32,
    /// Its lane.
    pub lane: Lane,
    /// The numbers of its trains.
    pub trains: Vec<u32>,
}

/// A timetable that has passed the check against its line.
///
/// ```
/// use gaugeviolet::{Line, Timetable};
///
/// let file = b"3\n2\n2\n2\n2\nS 5 4\nS 5 4\n2\n1 3 0 200 1 20 0 20\n3 1 0 200 2 15 0 15\n";
/// let best = gaugeviolet::plan(file)?;
/// let timetable = Timetable::read(&Line::read(file)?, &best)?;
/// assert_eq!(timetable.legs(2)[1].departure, 24);
/// assert_eq!(timetable.order_lists()[1].trains, [2, 1]);
/// assert_eq!((timetable.delay(2), timetable.total()), (9, 18));
/// assert_eq!(timetable.standing(2, 20), [1, 2]);
/// # Ok::<(), gaugeviolet::Refusal>(())
/// ```
#[derive(Clone, Debug, PartialEq, Eq)]
pub struct Timetable {
    line: Line,
    minutes: Vec<Vec<Leg>>,
    order_lists: Vec<OrderList>,
    total: u32,
}

impl Timetable {
    /// The timetable of a text, refused as [`crate::check`] refuses it.
    pub fn read(line: &Line, text: &[u8]) -> Result<Timetable, Refusal> {
        crate::check(line.file(), text)?;
        Ok(Timetable::in_form(line, text))
    }

    /// The timetable of a text whose fields have the right form and range. It may break rules.
    pub(crate) fn in_form(line: &Line, text: &[u8]) -> Timetable {
        let text = std::str::from_utf8(text).expect("what has the right form is ASCII");
        let rows: Vec<Vec<u32>> = text
            .lines()
            .map(|row| row.split(' ').map(number).collect())
            .collect();
        let trains = line.trains().len();
        let (total, before) = rows.split_last().expect("a timetable has lines");
        // Each list begins with its own count.
        let lists = before[trains + 2..].iter().map(|row| row[1..].to_vec());
        Timetable {
            line: line.clone(),
            minutes: before[1..=trains].iter().map(|row| legs(row)).collect(),
            order_lists: list_places(line)
                .zip(lists)
                .map(|((segment, lane), trains)| OrderList {
                    segment,
                    lane,
                    trains,
                })
                .collect(),
            total: total[0],
        }
    }

    /// The line that it is for.
    pub fn line(&self) -> &Line {
        &self.line
    }

    /// The minutes of a train, by its number, in travel order.
    ///
    /// # Panics
    /// Where there is no such train.
    pub fn legs(&self, train: u32) -> &[Leg] {
        &self.minutes[train as usize - 1]
    }

    /// The minutes of a train on a segment, if it goes there.
    ///
    /// # Panics
    /// Where there is no such train.
    pub fn leg_on(&self, train: u32, segment: u32) -> Option<Leg> {
        let path = self.line.train(train);
        let mut legs = 0..path.legs();
        let leg = legs.find(|&leg| path.segment(leg) == segment)?;
        Some(self.legs(train)[leg])
    }

    /// The order lists, by segment; on D first that of the outbound trains.
    pub fn order_lists(&self) -> &[OrderList] {
        &self.order_lists
    }

    /// The total weighted delay.
    pub fn total(&self) -> u32 {
        self.total
    }

    /// The numbers of all trains.
    pub fn numbers(&self) -> impl Iterator<Item = u32> + Clone + '_ {
        1..=self.minutes.len() as u32
    }

    /// When a train is at its destination.
    ///
    /// # Panics
    /// Where there is no such train.
    pub fn last_arrival(&self, train: u32) -> u32 {
        self.legs(train).last().expect("a train has legs").arrival
    }

    /// How much later a train is at its destination than it is due there ([`Line::due`]); 0 where it is
    /// early.
    ///
    /// ```
    /// use gaugeviolet::{Line, Timetable};
    ///
    /// // Two trains one after the other over a segment: one is due later than it can be there, and the
    /// // other earlier.
    /// let file = b"2\n1\n1\n1\nD 5 4\n2\n1 2 0 99 1 10\n1 2 0 99 1 10\n0\n2\n1 20\n2 7\n";
    /// let timetable = Timetable::read(&Line::read(file)?, &gaugeviolet::plan(file)?)?;
    /// assert_eq!((timetable.last_arrival(1), timetable.delay(1)), (15, 0));
    /// assert_eq!((timetable.last_arrival(2), timetable.delay(2)), (10, 3));
    /// assert_eq!(timetable.total(), 3);
    /// # Ok::<(), gaugeviolet::Refusal>(())
    /// ```
    ///
    /// # Panics
    /// Where there is no such train.
    pub fn delay(&self, train: u32) -> u32 {
        let due = self.line.due(train);
        self.last_arrival(train).saturating_sub(due)
    }

    /// The trains that stand at a station at a minute: those that have it in the middle of their path,
    /// from arrival to departure, both minutes included.
    pub fn standing(&self, station: u32, minute: u32) -> Vec<u32> {
        let stands = |&train: &u32| {
            let stand = self.stand(train, station);
            stand.is_some_and(|(arrival, departure)| (arrival..=departure).contains(&minute))
        };
        self.numbers().filter(stands).collect()
    }

    /// Arrival and departure of a train at a middle station of its path.
    pub(crate) fn stand(&self, train: u32, station: u32) -> Option<(u32, u32)> {
        let path = self.line.train(train);
        let leg = (1..path.legs()).find(|&leg| path.station(leg) == station)?;
        let legs = self.legs(train);
        Some((legs[leg - 1].arrival, legs[leg].departure))
    }

    /// The order lists that follow from the minutes.
    pub(crate) fn lists_of_minutes(&self) -> Vec<Vec<u32>> {
        list_places(&self.line)
            .map(|(segment, lane)| self.by_departure(segment, lane))
            .collect()
    }

    fn by_departure(&self, segment: u32, lane: Lane) -> Vec<u32> {
        let there = |train: u32| {
            let leg = self.leg_on(train, segment)?;
            let outbound = self.line.train(train).outbound();
            lane.has(outbound).then_some((leg.departure, train))
        };
        let mut trains: Vec<(u32, u32)> = self.numbers().filter_map(there).collect();
        trains.sort();
        trains.into_iter().map(|(_, train)| train).collect()
    }

    /// The total that follows from the minutes.
    pub(crate) fn total_of_minutes(&self) -> u32 {
        let weighted = self
            .numbers()
            .zip(self.line.trains())
            .map(|(number, train)| train.weight * self.delay(number));
        weighted.sum()
    }
}

impl Lane {
    /// What is said of it after the name of its segment: nothing where it is for all trains.
    pub fn after_segment(self) -> &'static str {
        match self {
            Lane::Both => "",
            Lane::Outbound => ", outbound",
            Lane::Inbound => ", inbound",
        }
    }

    fn has(self, outbound: bool) -> bool {
        match self {
            Lane::Both => true,
            Lane::Outbound => outbound,
            Lane::Inbound => !outbound,
        }
    }
}

impl Segment {
    /// Whether a train that goes second on the segment keeps its gap to the one that goes first there
    /// (rule 14).
    ///
    /// ```
    /// use gaugeviolet::{Kind, Leg, Segment};
    ///
    /// let segment = Segment { kind: Kind::S, following: 5, opposing: 4 };
    /// let first = Leg { departure: 0, arrival: 20 };
    /// let second = Leg { departure: 24, arrival: 39 };
    /// assert!(segment.keeps_gap(first, second, false));
    /// assert!(!segment.keeps_gap(first, second, true));
    /// ```
    pub fn keeps_gap(&self, first: Leg, second: Leg, same_direction: bool) -> bool {
        match (self.kind, same_direction) {
            (Kind::S, true) => second.departure >= first.arrival + self.following,
            (Kind::F | Kind::D, true) => {
                second.departure >= first.departure + self.following
                    && second.arrival >= first.arrival + self.following
            }
            (Kind::S | Kind::F, false) => second.departure >= first.arrival + self.opposing,
            (Kind::D, false) => true,
        }
    }
}

fn legs(row: &[u32]) -> Vec<Leg> {
    let leg = |pair: &[u32]| Leg {
        departure: pair[0],
        arrival: pair[1],
    };
    row.chunks(2).map(leg).collect()
}

/// Segment and lane of each order list.
pub(crate) fn list_places(line: &Line) -> impl Iterator<Item = (u32, Lane)> + '_ {
    (1..)
        .zip(line.segments())
        .flat_map(|(p, segment)| match segment.kind {
            Kind::D => vec![(p, Lane::Outbound), (p, Lane::Inbound)],
            _ => vec![(p, Lane::Both)],
        })
}
