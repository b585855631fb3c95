//! Typed access to lines and timetables, and the builder, beside the independent code; and waits beside
//! the rules.

use gaugeviolet::{check, plan, Booking, Due, Line, LineBuilder, Reason, Segment, Timetable};
use gaugeviolet::{Train, Wait};
use independent::rules::{free_arrival, last_arrival, weighted_delay, Minutes};
use inputs::{booked_planned, due_planned, line, planned, saturday, sizes, walk_line};
use inputs::{with_bookings, with_dues};
use inputs::{Booked, Density, DueAt, Pair, Planned, Random, Shape, Style, Traffic};

/// The train as the independent reader has it, in the crate's form.
fn same_train(train: &independent::Train) -> Train {
    let number = |number: u16| u32::from(number);
    let legs = train.legs();
    let mut journey = vec![number(train.runs[0])];
    for leg in 1..legs {
        journey.extend([number(train.stops[leg - 1]), number(train.runs[leg])]);
    }
    Train {
        origin: number(train.origin),
        destination: number(train.destination),
        earliest: number(train.earliest),
        latest: number(train.latest),
        weight: number(train.weight),
        journey,
    }
}

/// The booking in the crate's form.
fn same_booking(booking: &independent::Booking) -> Booking {
    Booking {
        train: u32::from(booking.train),
        station: u32::from(booking.station),
        minute: u32::from(booking.minute),
    }
}

/// The due minute in the crate's form.
fn same_due(due: &independent::Due) -> Due {
    Due {
        train: u32::from(due.train),
        minute: u32::from(due.minute),
    }
}

/// A line of this size, with bookings and due minutes or without.
fn drawn(random: &mut Random, size: (u16, u16), booked: bool, due: bool) -> independent::Line {
    let mut drawn = line(random, size.0, size.1, Density::Dense);
    if booked {
        let times = [Booked::InAnyCase, Booked::Later(30), Booked::AnyTime];
        drawn = with_bookings(random, &drawn, &times);
    }
    if due {
        drawn = with_dues(random, &drawn, &DueAt::ALL);
    }
    drawn
}

/// Holds what the line says of the due minute of each train.
fn hold_dues(line: &Line, drawn: &independent::Line) {
    let dues = drawn.used_dues().iter().map(same_due);
    assert_eq!(line.dues(), dues.collect::<Vec<Due>>());
    for (i, number) in (0..drawn.used_trains().len()).zip(1..) {
        assert_eq!(line.listed_due(number), drawn.listed_due(i).map(u32::from));
        assert_eq!(line.due(number), drawn.due_minute(i));
    }
}

#[test]
fn lines_of_every_size() {
    let mut random = Random::new(31);
    let sections = [(false, false), (true, false), (false, true), (true, true)];
    for (size, (booked, due)) in sizes().flat_map(|size| sections.map(|it| (size, it))) {
        let (stations, drawn) = (size.0, drawn(&mut random, size, booked, due));
        let file = independent::write(&drawn).expect("a line within the limits");
        let line = Line::read(&file).expect("an accepted file");
        let tracks = drawn.tracks[..usize::from(stations)].iter();
        assert!(tracks
            .map(|&tracks| u32::from(tracks))
            .eq(line.tracks().iter().copied()));
        for (own, drawn) in line.segments().iter().zip(drawn.used_segments()) {
            assert_eq!(own.kind.letter(), char::from(drawn.kind.letter()));
            assert_eq!(own.following, u32::from(drawn.following));
            assert_eq!(own.opposing, u32::from(drawn.opposing));
        }
        assert_eq!(line.segments().len(), drawn.used_segments().len());
        let expected: Vec<Train> = drawn.used_trains().iter().map(same_train).collect();
        assert_eq!(line.trains(), expected);
        for (i, (own, train)) in line.trains().iter().zip(drawn.used_trains()).enumerate() {
            assert_eq!(line.free_arrival(i as u32 + 1), free_arrival(&drawn, i));
            let segments = (0..train.legs()).map(|leg| train.segment(leg) as u32 + 1);
            assert!(segments.eq((0..own.legs()).map(|leg| own.segment(leg))));
        }
        let bookings = drawn.used_bookings().iter().map(same_booking);
        assert_eq!(line.bookings(), bookings.collect::<Vec<Booking>>());
        hold_dues(&line, &drawn);
        assert_eq!(rebuilt(&line).build().as_ref(), Ok(&line));
        assert_eq!(line.file(), file);
    }
}

/// A builder with all that a line has.
fn rebuilt(line: &Line) -> LineBuilder {
    let mut builder = LineBuilder::new();
    for &tracks in line.tracks() {
        builder = builder.station(tracks);
    }
    for segment in line.segments() {
        let Segment {
            kind,
            following,
            opposing,
        } = *segment;
        builder = builder.segment(kind, following, opposing);
    }
    for train in line.trains() {
        builder = builder.train(train.clone());
    }
    for &booking in line.bookings() {
        builder = builder.booking(booking);
    }
    for &due in line.dues() {
        builder = builder.due(due);
    }
    builder
}

/// Trains are numbered anew, and each keeps its own minutes at its own stations and its due minute.
#[test]
fn fewer_trains_keep_their_bookings_and_due_minutes() {
    let mut random = Random::new(35);
    let (mut kept, mut dues) = (0, 0);
    for (stations, trains) in sizes().filter(|&(_, trains)| trains > 0) {
        let drawn = drawn(&mut random, (stations, trains), true, true);
        let file = independent::write(&drawn).expect("a line within the limits");
        let line = Line::read(&file).expect("an accepted file");
        let mut numbers: Vec<u32> = (1..=u32::from(trains)).collect();
        numbers.retain(|_| random.below(3) > 0);
        if random.below(2) == 0 {
            numbers.reverse();
        }
        let fewer = line.with_trains(&numbers);
        for (own, &number) in (1..).zip(&numbers) {
            assert_eq!(fewer.train(own), line.train(number));
            let at = |line: &Line, train| {
                let stations = 1..=u32::from(stations);
                stations
                    .map(|it| line.booked(train, it))
                    .collect::<Vec<_>>()
            };
            assert_eq!(at(&fewer, own), at(&line, number));
            assert_eq!(fewer.free_legs(own), line.free_legs(number));
            assert_eq!(fewer.listed_due(own), line.listed_due(number));
        }
        assert_eq!(fewer.trains().len(), numbers.len());
        kept += fewer.bookings().len();
        dues += fewer.dues().len();
    }
    println!("{kept} bookings and {dues} due minutes kept");
    assert!(kept >= 500 && dues >= 300);
}

#[test]
fn what_the_library_refuses_is_not_built() {
    let refused = |builder: LineBuilder| {
        let refusal = builder.build().expect_err("not a line");
        assert_eq!(gaugeviolet::read(&builder.text()), Err(refusal));
        (refusal.number, refusal.place)
    };
    assert_eq!(refused(LineBuilder::new()), (3, 1));
    assert_eq!(refused(LineBuilder::new().station(1).station(13)), (3, 3));
    // A segment is missing.
    assert_eq!(refused(LineBuilder::new().station(1).station(1)), (3, 4));
}

#[test]
fn timetables_of_every_size() {
    let mut random = Random::new(32);
    let mut early = 0;
    let draws = [planned, due_planned];
    for ((stations, trains), draw) in sizes().flat_map(|size| draws.map(|draw| (size, draw))) {
        let Planned { line, minutes } = draw(&mut random, stations, trains, Traffic::Mixed);
        let Pair { file, timetable } = Planned { line, minutes }.pair();
        let own = Line::read(&file).expect("an accepted file");
        let own = Timetable::read(&own, &timetable).expect("a timetable");
        let rows: Vec<Vec<u16>> = own.numbers().map(|train| row(&own, train)).collect();
        assert_eq!(Minutes::of_rows(&line, &rows), minutes);
        assert_eq!(own.total(), weighted_delay(&line, &minutes));
        for (i, train) in line.used_trains().iter().enumerate() {
            let number = i as u32 + 1;
            assert_eq!(
                own.last_arrival(number),
                u32::from(last_arrival(&minutes, i, train))
            );
            let (arrival, due) = (own.last_arrival(number), line.due_minute(i));
            assert_eq!(own.delay(number), arrival.max(due) - due);
            early += usize::from(arrival < due);
        }
        let text = String::from_utf8(timetable).expect("a text");
        let lists = own.order_lists().iter().map(|list| {
            let numbers = [list.trains.len() as u32]
                .into_iter()
                .chain(list.trains.clone());
            let fields: Vec<String> = numbers.map(|number| number.to_string()).collect();
            fields.join(" ")
        });
        let lines = text.lines().skip(usize::from(trains) + 2);
        assert!(lists.eq(lines.take(own.order_lists().len()).map(str::to_string)));
    }
    println!("{early} early trains");
    assert!(early >= 100);
}

fn row(timetable: &Timetable, train: u32) -> Vec<u16> {
    let legs = timetable.legs(train).iter();
    legs.flat_map(|leg| [leg.departure as u16, leg.arrival as u16])
        .collect()
}

/// Holds that a train's delay follows from its waits: it is how much later it would be than its due minute
/// had it waited so after its free arrival. Of a train with bookings that is so of what it waits after
/// these, unless it stands for a later one the shorter for it.
fn hold_delays(timetable: &Timetable) {
    let line = timetable.line();
    for train in timetable.numbers() {
        let waits = timetable.waits();
        let own = waits.iter().filter(|wait| wait.train == train);
        let waited: u32 = own
            .map(|wait| {
                let booked = line.booked(train, wait.station).unwrap_or(0);
                wait.until - booked.max(wait.from)
            })
            .sum();
        let late = (line.free_arrival(train) + waited).saturating_sub(line.due(train));
        match line.bookings().iter().any(|it| it.train == train) {
            true => assert!(late >= timetable.delay(train)),
            false => assert_eq!(late, timetable.delay(train)),
        }
    }
}

/// Holds what each wait has: every reason once, and at a station only trains that are gone when the one that
/// waits comes there.
fn hold_reasons(timetable: &Timetable, wait: &Wait) {
    for (at, reason) in wait.reasons.iter().enumerate() {
        let told = wait.sentence();
        assert!(!wait.reasons[..at].contains(reason), "{told}");
        let Reason::Station { train, station } = *reason else {
            continue;
        };
        let leaves = leg_from(timetable, train, station);
        let ahead = leg_from(timetable, wait.train, wait.station);
        let (gone, comes) = (
            timetable.legs(train)[leaves].departure,
            timetable.legs(wait.train)[ahead].arrival,
        );
        assert!(gone < comes, "{told}");
    }
}

/// The leg on which a train leaves a station.
fn leg_from(timetable: &Timetable, train: u32, station: u32) -> usize {
    let path = timetable.line().train(train);
    let leg = (0..path.legs()).find(|&leg| path.station(leg) == station);
    leg.expect("it leaves there")
}

/// The text of a timetable with one departure of a train a minute earlier, and its arrival too. Lists and
/// total stay, so that they may be what is refused.
fn a_minute_earlier(timetable: &Timetable, text: &str, wait: &Wait) -> String {
    let leg = leg_from(timetable, wait.train, wait.station);
    let mut lines: Vec<String> = text.lines().map(str::to_string).collect();
    let mut fields: Vec<u16> = row(timetable, wait.train);
    fields[2 * leg] -= 1;
    fields[2 * leg + 1] -= 1;
    let fields: Vec<String> = fields.iter().map(u16::to_string).collect();
    lines[wait.train as usize] = fields.join(" ");
    lines.join("\n") + "\n"
}

/// Holds that a wait of the best timetable ends because of a train or a booking: a minute earlier a rule
/// is broken where it is. Gives the number of that rule.
fn hold_wait_of_best(timetable: &Timetable, text: &str, wait: &Wait) -> u32 {
    let last = *wait.reasons.last().expect("what is waited for");
    assert_eq!(wait.idle, 0);
    assert_ne!(last.train(), Some(wait.train));
    if let Some(train) = last.train() {
        assert_eq!(wait.trains().last(), Some(&train));
    }
    let earlier = a_minute_earlier(timetable, text, wait);
    let refusal = check(timetable.line().file(), earlier.as_bytes());
    let refusal = refusal.expect_err("a broken rule");
    let booked = timetable.line().booked(wait.train, wait.station);
    let expected = match last {
        // What a minute earlier breaks for the others too, it breaks for the booking first.
        _ if booked == Some(wait.until) => (18, wait.train),
        Reason::Segment { segment, .. } => (14, segment),
        Reason::Station { station, .. } => (15, station),
        Reason::Booking { .. } => panic!("{}", wait.sentence()),
    };
    assert_eq!(
        (refusal.number, refusal.place),
        expected,
        "{}",
        wait.sentence()
    );
    refusal.number
}

#[test]
fn waits_of_the_best_timetable() {
    let mut random = Random::new(33);
    let mut waits = std::collections::BTreeMap::new();
    for turn in 0..180 {
        let mut line = match turn % 4 {
            0 => walk_line(&mut random, 6, 6, Shape::OneTrack),
            style => saturday(&mut random, 8, 9, Style::ALL[style]),
        };
        if turn % 3 == 0 {
            line = with_bookings(&mut random, &line, &[Booked::InAnyCase, Booked::Later(20)]);
        }
        if turn % 5 < 2 {
            line = with_dues(&mut random, &line, &[DueAt::Before(9), DueAt::After(40)]);
        }
        let file = independent::write(&line).expect("a line within the limits");
        let Ok(best) = plan(&file) else { continue };
        let line = Line::read(&file).expect("an accepted file");
        let timetable = Timetable::read(&line, &best).expect("the best timetable");
        hold_delays(&timetable);
        let text = String::from_utf8(best).expect("a text");
        for wait in timetable.waits() {
            hold_reasons(&timetable, &wait);
            let number = hold_wait_of_best(&timetable, &text, &wait);
            *waits.entry(number).or_insert(0) += 1;
        }
    }
    println!("waits by the rule that ends them: {waits:?}");
    assert!(waits[&14] >= 200 && waits[&15] >= 10 && waits[&18] >= 50);
}

/// In a timetable by another hand a train may wait for none: a minute earlier no rule between trains is
/// broken.
#[test]
fn waits_of_any_timetable() {
    let mut random = Random::new(34);
    let mut kinds = [0; 3];
    for turn in 0..600 {
        let draw = [planned, planned, booked_planned, due_planned][turn % 4];
        let planned = draw(&mut random, 5, 4, Traffic::Mixed);
        let Pair { file, timetable } = planned.pair();
        let line = Line::read(&file).expect("an accepted file");
        let text = String::from_utf8(timetable).expect("a text");
        let timetable = Timetable::read(&line, text.as_bytes()).expect("a timetable");
        hold_delays(&timetable);
        for wait in timetable.waits() {
            hold_reasons(&timetable, &wait);
            kinds[kind_of_wait(&timetable, &text, &wait)] += 1;
        }
    }
    println!("waits for something, for no train, and for one and then the other: {kinds:?}");
    assert!(kinds[0] >= 100 && kinds[1] >= 20 && kinds[2] >= 20);
}

/// 0 for a wait that ends because of a train or a booking, 1 for one without any, 2 for one that goes on
/// after.
fn kind_of_wait(timetable: &Timetable, text: &str, wait: &Wait) -> usize {
    let earlier = a_minute_earlier(timetable, text, wait);
    let refused = check(timetable.line().file(), earlier.as_bytes());
    let in_the_way = refused.is_err_and(|why| [14, 15, 18].contains(&why.number));
    let told = wait.sentence();
    assert_eq!(wait.idle == 0, in_the_way, "{told}");
    match (&wait.reasons[..], wait.idle) {
        (_, 0) => 0,
        ([], idle) => {
            assert_eq!(idle, wait.until - wait.from);
            assert!(told.ends_with(", for no train"), "{told}");
            1
        }
        _ => {
            assert!(
                told.ends_with(" for no train") && told.contains(", then "),
                "{told}"
            );
            2
        }
    }
}
