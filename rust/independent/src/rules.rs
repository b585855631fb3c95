//! The rules of a timetable, 10 to 15 and 18, and what follows from its minutes: delays and order lists.
//!
//! A line is within the limits wherever one is asked for here.

use crate::{Kind, Line, Refusal, Segment, Train, SEGMENTS, TRAINS};

/// The most order lists: two for each segment.
pub const LISTS: usize = 2 * SEGMENTS;

/// The minutes of a timetable, each at most 2,879. Entries are by segment and then by train, both
/// from 0; those of a segment that a train does not use are 0.
#[derive(Clone, Copy, Debug, Default, PartialEq, Eq)]
pub struct Minutes {
    /// When each train sets out on each segment.
    pub departures: [[u16; TRAINS]; SEGMENTS],
    /// When each train is through each segment.
    pub arrivals: [[u16; TRAINS]; SEGMENTS],
}

impl Minutes {
    /// The minutes that each train's row gives: departure and arrival for each leg in travel order.
    pub fn of_rows(line: &Line, rows: &[Vec<u16>]) -> Minutes {
        let mut minutes = Minutes::default();
        for (number, train) in line.used_trains().iter().enumerate() {
            for (leg, times) in rows[number].chunks(2).enumerate() {
                minutes.departures[train.segment(leg)][number] = times[0];
                minutes.arrivals[train.segment(leg)][number] = times[1];
            }
        }
        minutes
    }

    /// The row of each train, as [`Minutes::of_rows`] takes it.
    pub fn rows(&self, line: &Line) -> Vec<Vec<u16>> {
        let row = |(number, train): (usize, &Train)| {
            let times = |leg| {
                let segment = train.segment(leg);
                [
                    self.departures[segment][number],
                    self.arrivals[segment][number],
                ]
            };
            (0..train.legs()).flat_map(times).collect()
        };
        line.used_trains().iter().enumerate().map(row).collect()
    }

    /// All departures, from train 1 up, each train's in travel order: what is compared between
    /// timetables of equal weighted delay.
    pub fn departures_by_train(&self, line: &Line) -> Vec<u16> {
        let by_leg = |row: Vec<u16>| row.into_iter().step_by(2);
        self.rows(line).into_iter().flat_map(by_leg).collect()
    }
}

/// From one minute to another: a train's run over a segment, or its stand at a station.
#[derive(Clone, Copy)]
struct Span {
    from: u16,
    to: u16,
}

/// Places for spans: a few more than there can be trains, so that a row fills whole registers.
const ROOM: usize = 16;

/// A span so late that it is clear of all others, in the places that no train takes.
const NEVER: u16 = 30_000;

/// Spans of some of the trains, by train number. The places past them are never in the way of
/// another span, so that all of them can be judged at once.
struct Spans {
    from: [u16; ROOM],
    to: [u16; ROOM],
    count: usize,
}

impl Spans {
    #[inline]
    fn none() -> Spans {
        Spans {
            from: [NEVER; ROOM],
            to: [NEVER; ROOM],
            count: 0,
        }
    }

    #[inline]
    fn push(&mut self, span: Span) {
        self.from[self.count] = span.from;
        self.to[self.count] = span.to;
        self.count += 1;
    }

    #[inline]
    fn at(&self, place: usize) -> Span {
        Span {
            from: self.from[place],
            to: self.to[place],
        }
    }
}

/// The first rule that is broken, with its lowest train, segment or station: 10 to 15, with 18 between
/// 12 and 13. Each rule is judged over all trains before the next one.
pub fn first_breach(line: &Line, minutes: &Minutes) -> Result<(), Refusal> {
    let rules: [(u32, Rule); 7] = [
        (10, sets_out_too_early),
        (11, runs_otherwise),
        (12, stops_too_short),
        (18, leaves_before_its_booking),
        (13, arrives_too_late),
        (14, gap_too_short),
        (15, tracks_too_few),
    ];
    for (number, breach) in rules {
        if let Some(lowest) = breach(line, minutes) {
            let place = lowest as u32 + 1;
            return Err(Refusal { number, place });
        }
    }
    Ok(())
}

/// The lowest train, segment or station, from 0, where a rule is broken.
type Rule = fn(&Line, &Minutes) -> Option<usize>;

/// The lowest train of which `breaks` holds.
#[inline]
fn lowest_train(line: &Line, breaks: impl Fn(usize, &Train) -> bool) -> Option<usize> {
    let mut trains = line.used_trains().iter().enumerate();
    trains.position(|(number, train)| breaks(number, train))
}

/// Rule 10: the first departure is not before earliest.
fn sets_out_too_early(line: &Line, minutes: &Minutes) -> Option<usize> {
    lowest_train(line, |number, train| {
        minutes.departures[train.segment(0)][number] < train.earliest
    })
}

/// Rule 11: arrival less departure equals the run.
fn runs_otherwise(line: &Line, minutes: &Minutes) -> Option<usize> {
    lowest_train(line, |number, train| {
        (0..train.legs()).any(|leg| {
            let segment = train.segment(leg);
            minutes.departures[segment][number] + train.runs[leg]
                != minutes.arrivals[segment][number]
        })
    })
}

/// Rule 12: at a middle station, departure is at or after arrival plus stop.
fn stops_too_short(line: &Line, minutes: &Minutes) -> Option<usize> {
    lowest_train(line, |number, train| {
        (1..train.legs()).any(|leg| {
            let arrival = minutes.arrivals[train.segment(leg - 1)][number];
            minutes.departures[train.segment(leg)][number] < arrival + train.stops[leg - 1]
        })
    })
}

/// Rule 18: no departure is before its booking. The bookings rise by train, so the first one that is
/// broken has the lowest.
fn leaves_before_its_booking(line: &Line, minutes: &Minutes) -> Option<usize> {
    let broken = line.used_bookings().iter().find(|booking| {
        let number = usize::from(booking.train) - 1;
        let train = &line.trains[number];
        let segment = train.segment(train.leg_from(booking.station));
        minutes.departures[segment][number] < booking.minute
    });
    broken.map(|booking| usize::from(booking.train) - 1)
}

/// Rule 13: the last arrival is not after latest.
fn arrives_too_late(line: &Line, minutes: &Minutes) -> Option<usize> {
    lowest_train(line, |number, train| {
        last_arrival(minutes, number, train) > train.latest
    })
}

/// Rule 14: of each pair on a segment one goes first and the other keeps its gap.
fn gap_too_short(line: &Line, minutes: &Minutes) -> Option<usize> {
    let mut segments = line.used_segments().iter().enumerate();
    segments.position(|(p, segment)| {
        let [outbound, inbound] = lanes(line, minutes, p);
        !(lane_keeps_gaps(segment, &outbound)
            && lane_keeps_gaps(segment, &inbound)
            && lanes_keep_gaps(segment, &outbound, &inbound))
    })
}

/// The runs over segment `p`, outbound and inbound.
#[inline]
fn lanes(line: &Line, minutes: &Minutes, p: usize) -> [Spans; 2] {
    let [mut outbound, mut inbound] = [Spans::none(), Spans::none()];
    for (number, train) in line.used_trains().iter().enumerate() {
        if !train.segments().contains(&p) {
            continue;
        }
        let run = Span {
            from: minutes.departures[p][number],
            to: minutes.arrivals[p][number],
        };
        if train.outbound() {
            outbound.push(run);
        } else {
            inbound.push(run);
        }
    }
    [outbound, inbound]
}

/// Whether the trains of one direction keep the following gap.
#[inline]
fn lane_keeps_gaps(segment: &Segment, lane: &Spans) -> bool {
    let gap = segment.following;
    match segment.kind {
        Kind::S => lane_keeps(lane, |first, second| sets_out_behind(first, second, gap)),
        Kind::F | Kind::D => lane_keeps(lane, |first, second| follows(first, second, gap)),
    }
}

/// Whether trains of opposite directions keep the opposing gap; on D they need none.
#[inline]
fn lanes_keep_gaps(segment: &Segment, outbound: &Spans, inbound: &Spans) -> bool {
    let gap = segment.opposing;
    segment.kind == Kind::D
        || (0..outbound.count).all(|one| {
            keeps_with_all(outbound.at(one), inbound, |first, second| {
                sets_out_behind(first, second, gap)
            }) == ROOM
        })
}

/// Whether each pair of a lane has one that goes first. All pairs, not only neighbours: gaps do not
/// add up. A train arrives after it sets out (rule 11 was judged before), so it keeps no gap with
/// itself: each keeps it with all places but its own.
#[inline]
fn lane_keeps(lane: &Spans, kept: impl Fn(Span, Span) -> bool + Copy) -> bool {
    (0..lane.count).all(|one| keeps_with_all(lane.at(one), lane, kept) == ROOM - 1)
}

/// With how many places of `others` one of the two goes first and the other keeps its gap.
#[inline]
fn keeps_with_all(one: Span, others: &Spans, kept: impl Fn(Span, Span) -> bool) -> usize {
    let mut count = 0_u16;
    for place in 0..ROOM {
        let other = others.at(place);
        count += u16::from(kept(one, other) | kept(other, one));
    }
    usize::from(count)
}

/// Whether the second train sets out only when the first has been through for `gap` minutes.
#[inline]
fn sets_out_behind(first: Span, second: Span, gap: u16) -> bool {
    second.from >= first.to + gap
}

/// Whether the second train both sets out and arrives `gap` minutes after the first.
#[inline]
fn follows(first: Span, second: Span, gap: u16) -> bool {
    (second.from >= first.from + gap) & (second.to >= first.to + gap)
}

/// Rule 15: at no minute do more trains stand at a station than it has tracks.
fn tracks_too_few(line: &Line, minutes: &Minutes) -> Option<usize> {
    (0..usize::from(line.station_count)).find(|&station| {
        let stands = stands(line, minutes, station);
        let tracks = usize::from(line.tracks[station]);
        // The number that stand only grows when one arrives, so no other minute need be looked at.
        stands.count > tracks
            && (0..stands.count).any(|one| standing_at(&stands, stands.from[one]) > tracks)
    })
}

/// How many stand at that minute, both end minutes of a stand included.
#[inline]
fn standing_at(stands: &Spans, minute: u16) -> usize {
    let mut count = 0_u16;
    for place in 0..ROOM {
        let stand = stands.at(place);
        count += u16::from((stand.from <= minute) & (minute <= stand.to));
    }
    usize::from(count)
}

/// From when to when each train that has the station in the middle of its path stands there.
#[inline]
fn stands(line: &Line, minutes: &Minutes, station: usize) -> Spans {
    let mut stands = Spans::none();
    for (number, train) in line.used_trains().iter().enumerate() {
        let path = train.segments();
        // Counted from 0, segment p joins stations p and p + 1, so a station lies between the
        // segments station - 1 and station: a train has it in its middle when it uses both.
        if !(path.start < station && station < path.end) {
            continue;
        }
        let (before, behind) = if train.outbound() {
            (station - 1, station)
        } else {
            (station, station - 1)
        };
        stands.push(Span {
            from: minutes.arrivals[before][number],
            to: minutes.departures[behind][number],
        });
    }
    stands
}

/// When a train, by its number from 0, is in.
#[inline]
pub fn last_arrival(minutes: &Minutes, number: usize, train: &Train) -> u16 {
    minutes.arrivals[train.segment(train.legs() - 1)][number]
}

/// The earliest last arrival of a train, by its number from 0, were it alone on the line, its bookings
/// kept: up to 7,919, past the last minute of a timetable.
#[inline]
pub fn free_arrival(line: &Line, number: usize) -> u32 {
    let train = &line.trains[number];
    let floors = line.floors(number);
    let last = train.legs() - 1;
    let mut ready = u32::from(train.earliest);
    for leg in 0..last {
        let minutes = u32::from(train.runs[leg]) + u32::from(train.stops[leg]);
        ready = (ready + minutes).max(u32::from(floors[leg + 1]));
    }
    ready + u32::from(train.runs[last])
}

/// The sum of weight times delay: what the last arrival is after the due minute, and 0 for a train that is
/// early.
pub fn weighted_delay(line: &Line, minutes: &Minutes) -> u32 {
    let delay = |(number, train): (usize, &Train)| {
        let arrival = u32::from(last_arrival(minutes, number, train));
        u32::from(train.weight) * arrival.saturating_sub(line.due_minute(number))
    };
    line.used_trains().iter().enumerate().map(delay).sum()
}

/// Which trains of a segment an order list has.
#[derive(Clone, Copy, Debug, PartialEq, Eq)]
pub enum Lane {
    /// All of them, on S and F.
    Both,
    /// The outbound ones, on D.
    Outbound,
    /// The inbound ones, on D.
    Inbound,
}

impl Lane {
    /// The lists of a segment, in their order.
    #[inline]
    pub const fn of(kind: Kind) -> &'static [Lane] {
        match kind {
            Kind::S | Kind::F => &[Lane::Both],
            Kind::D => &[Lane::Outbound, Lane::Inbound],
        }
    }

    /// Whether the list of segment `p` (from 0) has `train`.
    #[inline]
    pub fn has(self, train: &Train, p: usize) -> bool {
        let direction = match self {
            Lane::Both => true,
            Lane::Outbound => train.outbound(),
            Lane::Inbound => !train.outbound(),
        };
        direction && train.segments().contains(&p)
    }
}

/// The order lists of a line as segment (from 0) and lane, in the order of the timetable.
pub fn lists(line: &Line) -> impl Iterator<Item = (usize, Lane)> + '_ {
    let of_segment =
        |(p, segment): (usize, &Segment)| Lane::of(segment.kind).iter().map(move |&lane| (p, lane));
    line.used_segments().iter().enumerate().flat_map(of_segment)
}

/// Some train numbers, from 1.
#[derive(Clone, Copy, Debug, Default, PartialEq, Eq)]
pub struct OrderList {
    /// The numbers; those beyond the count are 0.
    pub trains: [u16; TRAINS],
    /// How many there are.
    pub count: usize,
}

impl OrderList {
    /// The numbers that there are.
    #[inline]
    pub fn used_trains(&self) -> &[u16] {
        &self.trains[..self.count]
    }
}

/// The trains of a segment (from 0) and lane by departure minute, lower numbers first where two
/// depart at once, which no lawful timetable has.
pub fn order_list(line: &Line, minutes: &Minutes, p: usize, lane: Lane) -> OrderList {
    let mut list = OrderList::default();
    for (number, train) in line.used_trains().iter().enumerate() {
        if lane.has(train, p) {
            list.trains[list.count] = number as u16 + 1;
            list.count += 1;
        }
    }
    let departure = |number: &u16| minutes.departures[p][usize::from(*number) - 1];
    list.trains[..list.count].sort_by_key(departure);
    list
}

/// Whether `list` is [`order_list`], for minutes that keep the rules: as many trains as there are on
/// the segment and lane, each of them from there, each departing later than the one before, so that
/// none comes twice.
pub fn is_order_list(
    line: &Line,
    minutes: &Minutes,
    p: usize,
    lane: Lane,
    list: &OrderList,
) -> bool {
    let here = |train: &&Train| lane.has(train, p);
    let mut departed = None;
    list.count == line.used_trains().iter().filter(here).count()
        && list.used_trains().iter().all(|&number| {
            let number = usize::from(number) - 1;
            let before = departed.replace(minutes.departures[p][number]);
            lane.has(&line.trains[number], p) && before < departed
        })
}
