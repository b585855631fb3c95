//! The rules of the independent check beside the same rules word by word: every pair of trains, every
//! minute of the day, with nothing left out and nothing judged at once.

use independent::rules::{first_breach, Minutes};
use independent::{Booking, Kind, Line, Refusal};
use inputs::{booked_planned, damaged, planned, sizes, with_harder_demands};
use inputs::{Damage, Planned, Random, Traffic};

/// A timetable as the scope document speaks of it; trains, legs, segments and stations from 1.
struct Words<'a> {
    line: &'a Line,
    rows: Vec<Vec<u16>>,
}

impl Words<'_> {
    fn trains(&self) -> std::ops::RangeInclusive<usize> {
        1..=self.rows.len()
    }

    fn legs(&self, train: usize) -> std::ops::RangeInclusive<usize> {
        1..=self.rows[train - 1].len() / 2
    }

    fn departure(&self, train: usize, leg: usize) -> i32 {
        i32::from(self.rows[train - 1][2 * leg - 2])
    }

    fn arrival(&self, train: usize, leg: usize) -> i32 {
        i32::from(self.rows[train - 1][2 * leg - 1])
    }

    fn outbound(&self, train: usize) -> bool {
        let train = &self.line.trains[train - 1];
        train.origin < train.destination
    }

    /// The stations of its path in travel order.
    fn path(&self, train: usize) -> Vec<usize> {
        let train = &self.line.trains[train - 1];
        let (origin, destination) = (usize::from(train.origin), usize::from(train.destination));
        if origin < destination {
            (origin..=destination).collect()
        } else {
            (destination..=origin).rev().collect()
        }
    }

    /// The leg on which the train uses a segment: from station p to p + 1 or back.
    fn leg_on(&self, train: usize, segment: usize) -> Option<usize> {
        let path = self.path(train);
        self.legs(train)
            .find(|&leg| path[leg - 1].min(path[leg]) == segment)
    }

    /// Whether the train keeps rule `number`, 10 to 13 or 18.
    fn train_keeps(&self, number: u32, train: usize) -> bool {
        let given = &self.line.trains[train - 1];
        let last = *self.legs(train).end();
        match number {
            10 => self.departure(train, 1) >= i32::from(given.earliest),
            11 => self.legs(train).all(|leg| {
                let run = i32::from(given.runs[leg - 1]);
                self.arrival(train, leg) - self.departure(train, leg) == run
            }),
            12 => (2..=last).all(|leg| {
                let stop = i32::from(given.stops[leg - 2]);
                self.departure(train, leg) >= self.arrival(train, leg - 1) + stop
            }),
            18 => self.line.used_bookings().iter().all(|booking| {
                usize::from(booking.train) != train || self.keeps_booking(train, booking)
            }),
            _ => self.arrival(train, last) <= i32::from(given.latest),
        }
    }

    fn keeps_booking(&self, train: usize, booking: &Booking) -> bool {
        let path = self.path(train);
        let mut legs = self.legs(train);
        let leg = legs.find(|&leg| path[leg - 1] == usize::from(booking.station));
        self.departure(train, leg.expect("on its path")) >= i32::from(booking.minute)
    }

    /// Rule 14 with `first` going first.
    fn keeps_gap(&self, segment: usize, first: (usize, usize), second: (usize, usize)) -> bool {
        let given = &self.line.segments[segment - 1];
        let (f, o) = (i32::from(given.following), i32::from(given.opposing));
        let same = self.outbound(first.0) == self.outbound(second.0);
        let (departs, arrives) = (
            self.departure(second.0, second.1),
            self.arrival(second.0, second.1),
        );
        let (departed, arrived) = (
            self.departure(first.0, first.1),
            self.arrival(first.0, first.1),
        );
        match (given.kind, same) {
            (Kind::S, true) => departs >= arrived + f,
            (Kind::F | Kind::D, true) => departs >= departed + f && arrives >= arrived + f,
            (Kind::S | Kind::F, false) => departs >= arrived + o,
            (Kind::D, false) => true,
        }
    }

    fn segment_keeps_14(&self, segment: usize) -> bool {
        let here: Vec<(usize, usize)> = self
            .trains()
            .filter_map(|train| Some((train, self.leg_on(train, segment)?)))
            .collect();
        here.iter().all(|&one| {
            here.iter().all(|&other| {
                one == other
                    || self.keeps_gap(segment, one, other)
                    || self.keeps_gap(segment, other, one)
            })
        })
    }

    /// From when to when the train stands at a station, if that is a middle one of its path.
    fn stand(&self, train: usize, station: usize) -> Option<(i32, i32)> {
        let path = self.path(train);
        let leg = (2..path.len()).find(|&leg| path[leg - 1] == station)?;
        Some((self.arrival(train, leg - 1), self.departure(train, leg)))
    }

    fn station_keeps_15(&self, station: usize) -> bool {
        let tracks = usize::from(self.line.tracks[station - 1]);
        let stand = |train| self.stand(train, station);
        let stands: Vec<(i32, i32)> = self.trains().filter_map(stand).collect();
        (0..=2879).all(|minute| {
            let standing = |&&(from, to): &&(i32, i32)| from <= minute && minute <= to;
            stands.iter().filter(standing).count() <= tracks
        })
    }

    fn first_breach(&self) -> Result<(), Refusal> {
        let stations = usize::from(self.line.station_count);
        for number in [10, 11, 12, 18, 13, 14, 15] {
            let broken = match number {
                14 => (1..stations).find(|&segment| !self.segment_keeps_14(segment)),
                15 => (1..=stations).find(|&station| !self.station_keeps_15(station)),
                _ => self
                    .trains()
                    .find(|&train| !self.train_keeps(number, train)),
            };
            if let Some(place) = broken {
                let place = place as u32;
                return Err(Refusal { number, place });
            }
        }
        Ok(())
    }
}

fn compare(line: &Line, minutes: &Minutes) -> Option<u32> {
    let words = Words {
        line,
        rows: minutes.rows(line),
    };
    let expected = words.first_breach();
    assert_eq!(
        first_breach(line, minutes),
        expected,
        "{line:?} {minutes:?}"
    );
    expected.err().map(|refusal| refusal.number)
}

/// The numbers that come from a planned line after damage to its minutes or its demands.
fn after_damage(random: &mut Random, planned: &Planned) -> Vec<Option<u32>> {
    let kinds = [Damage::Leg, Damage::Train, Damage::Demand, Damage::Demand];
    let number = |damage| {
        let pair = damaged(random, planned, damage);
        let line = independent::read(&pair.file).expect("a line within the limits");
        let read = independent::timetable::read(&line, &pair.timetable).expect("a timetable");
        compare(&line, &read.minutes)
    };
    kinds.into_iter().map(number).collect()
}

/// How often each number comes from lines of every size as `draw` draws them, and after damage to them.
fn numbers_of(seed: u64, draw: impl Fn(&mut Random, u16, u16, Traffic) -> Planned) -> [usize; 20] {
    let mut random = Random::new(seed);
    let mut numbers = [0; 20];
    for (stations, trains) in sizes() {
        let traffic = random.one_of(&[Traffic::Mixed, Traffic::Full]);
        let planned = draw(&mut random, stations, trains, traffic);
        compare(&planned.line, &planned.minutes);
        for _ in 0..5 {
            for number in after_damage(&mut random, &planned) {
                numbers[number.unwrap_or(0) as usize] += 1;
            }
        }
    }
    println!("broken, by rule: {:?}", &numbers[10..]);
    numbers
}

#[test]
fn the_rules_word_by_word() {
    let numbers = numbers_of(50, planned);
    assert!(numbers[10..16].iter().all(|&times| times >= 20));
}

#[test]
fn the_rules_with_bookings_word_by_word() {
    let numbers = numbers_of(51, booked_planned);
    assert!(numbers[10..16].iter().all(|&times| times >= 20));
    assert!(numbers[18] >= 200);
}

/// Several rules broken at once, by several trains: the first one in their order counts, with its lowest
/// train.
#[test]
fn several_rules_broken_word_by_word() {
    let mut random = Random::new(52);
    let mut numbers = [0; 20];
    let (mut with_13, mut twice) = (0, 0);
    for (stations, trains) in sizes() {
        let planned = booked_planned(&mut random, stations, trains, Traffic::Mixed);
        for _ in 0..20 {
            let Planned { line, minutes } = with_harder_demands(&mut random, &planned);
            let number = compare(&line, &minutes).unwrap_or(0);
            numbers[number as usize] += 1;
            let rows = minutes.rows(&line);
            let words = Words { line: &line, rows };
            let breaking = |number| {
                let mut trains = words.trains().collect::<Vec<_>>();
                trains.retain(|&train| !words.train_keeps(number, train));
                trains.len()
            };
            with_13 += usize::from(number == 18 && breaking(13) > 0);
            twice += usize::from(number == 18 && breaking(18) > 1);
        }
    }
    println!("broken, by rule: {:?}", &numbers[10..]);
    println!("18 with 13 broken too: {with_13}, by several trains: {twice}");
    assert!(with_13 >= 200 && twice >= 200);
}
