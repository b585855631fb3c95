//! Random lines for the walk through plans.

use independent::plans::Found;
use independent::walk::solve_within;
use independent::{exhaustive, Kind, Limits, Line, Segment, Train};

use crate::corners::has_a_tie;
use crate::edges::at_the_edges;
use crate::parts::{of_size, unbooked_arrival, used_parts, used_runs_and_stops};
use crate::{shown, small_line, with_all_due, with_bookings, with_one_booking, with_some_dues};
use crate::{Booked, DueAt, Fields, Random};

/// What the trains of a line have to do with each other.
#[derive(Clone, Copy, Debug, PartialEq, Eq)]
pub enum Shape {
    /// Trains over some of the line, spread over some hours: few conflicts.
    Sparse,
    /// Trains over the whole line, nearly all at once: many conflicts.
    Dense,
    /// As dense, with latest arrivals near the free ones: often no timetable.
    Tight,
    /// As dense, with one track at every station.
    OneTrack,
    /// As dense, with weight 0 for most trains: many timetables cost the same.
    ZeroWeights,
    /// Trains and segments that are all alike: ties everywhere.
    Ties,
    /// As dense, with all trains starting in the same minute.
    Together,
    /// As dense, with following gaps that are far wider than the opposing ones.
    WideFollowing,
    /// Numbers over the whole of their ranges and often at the ends; most trains may arrive up to the
    /// last minute.
    Wide,
}

impl Shape {
    /// All of them.
    pub const ALL: [Shape; 9] = [
        Shape::Sparse,
        Shape::Dense,
        Shape::Tight,
        Shape::OneTrack,
        Shape::ZeroWeights,
        Shape::Ties,
        Shape::Together,
        Shape::WideFollowing,
        Shape::Wide,
    ];
}

/// A random line of this size and shape.
pub fn walk_line(random: &mut Random, stations: u16, trains: u16, shape: Shape) -> Line {
    if shape == Shape::Wide {
        return wide_line(random, stations, trains);
    }
    let mut line = of_size(stations, trains);
    let (tracks, segments, trains) = used_parts(&mut line);
    tracks.fill_with(|| match shape {
        Shape::OneTrack => 1,
        _ => random.within(1, 3),
    });
    let alike = segment(random, shape);
    segments.fill_with(|| match shape {
        Shape::Ties => alike,
        _ => segment(random, shape),
    });
    let run = random.within(1, 20);
    trains.fill_with(|| match shape {
        Shape::Ties => alike_train(random, stations, run),
        _ => train(random, stations, shape),
    });
    line
}

fn segment(random: &mut Random, shape: Shape) -> Segment {
    let (narrowest, widest) = match shape {
        Shape::WideFollowing => (20, 60),
        _ => (1, 6),
    };
    Segment {
        kind: random.one_of(&[Kind::S, Kind::S, Kind::F, Kind::D]),
        following: random.within(narrowest, widest),
        opposing: random.within(1, 6),
    }
}

fn train(random: &mut Random, stations: u16, shape: Shape) -> Train {
    let (density, latest_start) = match shape {
        Shape::Sparse => (crate::Density::Sparse, 200),
        Shape::Together => (crate::Density::Dense, 0),
        _ => (crate::Density::Dense, 30),
    };
    let ends = crate::path(random, stations, density);
    let mut train = train_between(random, ends, latest_start, 1, &[0, 0, 1, 5]);
    match shape {
        Shape::Tight => train.latest = unbooked_arrival(&train) + random.within(0, 60),
        Shape::ZeroWeights => train.weight = random.one_of(&[0, 0, 0, 1]),
        _ => {}
    }
    train
}

/// A train from the first of `ends` to the second that may arrive up to the last minute.
fn train_between(
    random: &mut Random,
    (origin, destination): (u16, u16),
    latest_start: u16,
    shortest_run: u16,
    stop_choices: &[u16],
) -> Train {
    let mut train = Train {
        origin,
        destination,
        earliest: random.within(0, latest_start),
        latest: Limits::MINUTE.most,
        weight: random.within(1, 9),
        ..Train::default()
    };
    let (runs, stops) = used_runs_and_stops(&mut train);
    runs.fill_with(|| random.within(shortest_run, 20));
    stops.fill_with(|| random.one_of(stop_choices));
    train
}

/// A train over the whole line from minute 0, like all others of its line but for its direction.
fn alike_train(random: &mut Random, stations: u16, run: u16) -> Train {
    let (origin, destination) = random.one_of(&[(1, stations), (stations, 1)]);
    let mut train = Train {
        origin,
        destination,
        latest: Limits::MINUTE.most,
        weight: 1,
        ..Train::default()
    };
    used_runs_and_stops(&mut train).0.fill(run);
    train
}

fn wide_line(random: &mut Random, stations: u16, trains: u16) -> Line {
    let mut line = crate::line(random, stations, trains, crate::Density::Dense);
    for train in used_parts(&mut line).2 {
        if random.below(16) > 0 {
            train.earliest /= 8;
            train.latest = Limits::MINUTE.most;
        }
    }
    line
}

/// A line with its walk.
#[derive(Clone, Copy, Debug)]
pub struct LineWalk {
    /// The line, within the limits.
    pub line: Line,
    /// What its walk finds, and the number of plans.
    pub walked: Found,
}

/// What becomes of a line that is drawn.
type Finish = fn(&mut Random, Line) -> Line;

/// It has no bookings.
fn unbooked(_: &mut Random, line: Line) -> Line {
    line
}

/// It has bookings, if a train has a middle station: when the trains could leave in any case, a little
/// later or much later, and now and then near the end of the day.
fn booked(random: &mut Random, line: Line) -> Line {
    let times = random.one_of(&[
        &[Booked::InAnyCase][..],
        &[Booked::Later(5)],
        &[Booked::InAnyCase, Booked::Later(30)],
        &[Booked::InAnyCase, Booked::Later(3), Booked::Later(60)],
        &[Booked::InAnyCase, Booked::InAnyCase, Booked::EndOfDay],
        &[Booked::AnyTime, Booked::InAnyCase, Booked::LastMinute],
    ]);
    match random.below(4) {
        0 if line.used_trains().iter().any(|train| train.legs() > 1) => {
            let one = random.one_of(times);
            with_one_booking(random, &line, one)
        }
        _ => with_bookings(random, &line, times),
    }
}

/// It has dues, if it has trains: near the free arrivals or far from them. Half of them have bookings too.
fn due(random: &mut Random, line: Line) -> Line {
    let line = match random.below(2) {
        0 => line,
        _ => booked(random, line),
    };
    let near = random.one_of(&[3, 10, 30]);
    with_some_dues(random, &line, near)
}

/// A random line of any size and this shape, whose walk takes up no more than `limit` plans.
pub fn short_walk(random: &mut Random, shape: Shape, limit: u64) -> LineWalk {
    short_walk_of(random, shape, limit, unbooked)
}

fn short_walk_of(random: &mut Random, shape: Shape, limit: u64, finish: Finish) -> LineWalk {
    let (most_stations, most_trains) = match shape {
        Shape::Sparse => (12, 12),
        Shape::Wide => (5, 8),
        _ => (8, 8),
    };
    loop {
        let stations = random.within(2, most_stations);
        let trains = random.within(0, most_trains);
        let line = walk_line(random, stations, trains, shape);
        let line = finish(random, line);
        if let Ok(walked) = solve_within(&line, limit) {
            return LineWalk { line, walked };
        }
    }
}

/// Lines of [`short_walk`], of every shape in turn and without end; and each altered so that its best
/// timetable just holds, just fails, or ends with the day, where that walk is no longer either.
pub fn short_walks(seed: u64, limit: u64) -> impl Iterator<Item = LineWalk> {
    short_walks_of(seed, limit, unbooked)
}

/// The same with bookings. Lines on which no train has a middle station are among them.
pub fn booked_short_walks(seed: u64, limit: u64) -> impl Iterator<Item = LineWalk> {
    short_walks_of(seed, limit, booked)
}

/// The same with dues, half of them with bookings too. Lines without trains are among them.
pub fn due_short_walks(seed: u64, limit: u64) -> impl Iterator<Item = LineWalk> {
    short_walks_of(seed, limit, due)
}

fn short_walks_of(seed: u64, limit: u64, finish: Finish) -> impl Iterator<Item = LineWalk> {
    let mut random = Random::new(seed);
    let shapes = Shape::ALL.into_iter().cycle();
    shapes.flat_map(move |shape| {
        let short = short_walk_of(&mut random, shape, limit, finish);
        with_altered(&mut random, short, |line| solve_within(line, limit).ok())
    })
}

/// Small lines where mistakes would hide, without end, and each altered as in [`short_walks`]. Trying every
/// order of them finds what the walk does.
pub fn small_walks(seed: u64) -> impl Iterator<Item = LineWalk> {
    small_walks_of(seed, small_size, unbooked)
}

/// The same with bookings, each line with one at least.
pub fn booked_small_walks(seed: u64) -> impl Iterator<Item = LineWalk> {
    let walks = small_walks_of(seed, small_size_with_stops, booked);
    walks.filter(|walk| walk.line.booking_count > 0)
}

/// The same with dues, each line with one at least, some of them with bookings too. Of those without a tie so
/// many are left out that there are never more of them than of those with one.
pub fn due_small_walks(seed: u64) -> impl Iterator<Item = LineWalk> {
    let mut more_ties = 0_usize;
    small_walks_of(seed, small_size, due).filter(move |LineWalk { line, walked }| {
        let best = walked.best.as_ref();
        let tie = best.is_some_and(|best| has_a_tie(line, best));
        let kept = tie || more_ties > 0;
        more_ties = match tie {
            true => more_ties + 1,
            false => more_ties.saturating_sub(1),
        };
        kept
    })
}

/// The lines of small walks, without end: without bookings and dues, with bookings, and with dues, in turn.
pub fn small_lines(seed: u64) -> impl Iterator<Item = Line> {
    let booked = booked_small_walks(seed + 1).zip(due_small_walks(seed + 2));
    let walks = small_walks(seed).zip(booked);
    walks.flat_map(|(plain, (booked, due))| [plain, booked, due].map(|walk| walk.line))
}

fn small_walks_of(
    seed: u64,
    size: fn(&mut Random) -> (u16, u16),
    finish: Finish,
) -> impl Iterator<Item = LineWalk> {
    let mut random = Random::new(seed);
    let drawn = std::iter::repeat_with(move || {
        let (stations, trains) = size(&mut random);
        let line = match random.below(Shape::ALL.len() + 1) {
            0 => small_line(&mut random, stations, trains),
            shape => walk_line(&mut random, stations, trains, Shape::ALL[shape - 1]),
        };
        let line = finish(&mut random, line);
        match beside_every_order(&line) {
            Some(walked) => {
                with_altered(&mut random, LineWalk { line, walked }, beside_every_order)
            }
            None => Vec::new(),
        }
    });
    drawn.flatten()
}

/// A size of [`small_size`] with a middle station.
fn small_size_with_stops(random: &mut Random) -> (u16, u16) {
    random.one_of(&[(3, 2), (3, 3), (3, 4), (4, 2), (4, 3), (5, 2), (5, 3)])
}

/// A size of which every order is mostly tried quickly.
fn small_size(random: &mut Random) -> (u16, u16) {
    random.one_of(&[
        (2, 2),
        (2, 3),
        (2, 4),
        (2, 5),
        (3, 2),
        (3, 3),
        (3, 4),
        (4, 2),
        (4, 3),
        (5, 2),
        (5, 3),
    ])
}

/// The walk of a small line, held to trying every order, unless one of them takes too long.
fn beside_every_order(line: &Line) -> Option<Found> {
    let best = exhaustive::best(line, 50_000).ok()?;
    let walked = solve_within(line, 100_000).ok()?;
    assert_eq!(walked.best, best, "{}", shown(&Fields::of(line).text()));
    Some(walked)
}

/// The line with its walk; and that line altered in every way, with the walks that `walk` ends.
fn with_altered(
    random: &mut Random,
    first: LineWalk,
    walk: impl Fn(&Line) -> Option<Found>,
) -> Vec<LineWalk> {
    let altered = at_the_edges(random, &first.line, first.walked.best.as_ref());
    let mut all = vec![first];
    all.extend(altered.into_iter().filter_map(|line| {
        let walked = walk(&line)?;
        Some(LineWalk { line, walked })
    }));
    all
}

/// A line of [`dense_line`] whose walk takes up from `least` to `most` plans.
pub fn dense_walk(random: &mut Random, size: (u16, u16), least: u64, most: u64) -> LineWalk {
    dense_walk_of(random, size, unbooked, least, most)
}

/// The same with every train due around its free arrival.
pub fn due_dense_walk(random: &mut Random, size: (u16, u16), least: u64, most: u64) -> LineWalk {
    let times = [
        DueAt::Before(20),
        DueAt::Free,
        DueAt::After(20),
        DueAt::After(60),
    ];
    dense_walk_of(
        random,
        size,
        |random, line| with_all_due(random, &line, &times),
        least,
        most,
    )
}

fn dense_walk_of(
    random: &mut Random,
    (stations, trains): (u16, u16),
    finish: impl Fn(&mut Random, Line) -> Line,
    least: u64,
    most: u64,
) -> LineWalk {
    loop {
        let line = dense_line(random, stations, trains);
        let line = finish(random, line);
        match solve_within(&line, most) {
            Ok(walked) if walked.plans >= least => return LineWalk { line, walked },
            _ => {}
        }
    }
}

/// A line for the benchmark of the walk: every train over the whole line, each second one the other
/// way, all of them within an hour, mostly on single track, with two tracks at each station.
pub fn dense_line(random: &mut Random, stations: u16, trains: u16) -> Line {
    let mut line = of_size(stations, trains);
    let (tracks, segments, trains) = used_parts(&mut line);
    tracks.fill(2);
    segments.fill_with(|| Segment {
        kind: random.one_of(&[Kind::S, Kind::S, Kind::S, Kind::F, Kind::D]),
        following: random.within(2, 5),
        opposing: random.within(1, 4),
    });
    let ends = [(1, stations), (stations, 1)];
    for (train, &ends) in trains.iter_mut().zip(ends.iter().cycle()) {
        *train = train_between(random, ends, 60, 5, &[0, 0, 1, 3]);
    }
    line
}
