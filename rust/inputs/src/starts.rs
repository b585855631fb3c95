//! Questions about the starting minutes of a train, and questions with something wrong in them.

use independent::starts::MOST_MINUTES;
use independent::{Limits, Line, Train};

use crate::Random;

/// The last minute of a timetable.
const LAST: u16 = Limits::MINUTE.most;

/// What is asked of a line file.
#[derive(Clone, Debug, PartialEq, Eq)]
pub struct Question {
    /// The train, from 1.
    pub train: u32,
    /// The minutes that it might have for its earliest.
    pub minutes: Vec<u16>,
    /// How many entries are lent for the totals.
    pub entries: usize,
}

/// Where the minutes of a list are.
#[derive(Clone, Copy, Debug, PartialEq, Eq)]
pub enum StartsAt {
    /// One after another, around the train's earliest.
    Dense,
    /// Up to so many minutes apart, around the train's earliest.
    Apart(u16),
    /// Around the earliest of any train.
    Another,
    /// Around the last minute from which the train alone is in by its latest.
    LastStart,
    /// Around the last minute from which the train alone is at a stop by the minute booked there; without a
    /// booking around its earliest.
    Booking,
    /// Anywhere in the day.
    Spread,
    /// The last minutes of the day, 2,879 among them.
    EndOfDay,
}

impl StartsAt {
    /// One of each, and one more up to half an hour apart.
    pub const ALL: [StartsAt; 8] = [
        StartsAt::Dense,
        StartsAt::Apart(5),
        StartsAt::Apart(30),
        StartsAt::Another,
        StartsAt::LastStart,
        StartsAt::Booking,
        StartsAt::Spread,
        StartsAt::EndOfDay,
    ];

    /// A rising list of so many minutes for a train, by its number from 0; fewer where the day ends.
    fn minutes(self, random: &mut Random, line: &Line, number: usize, count: u16) -> Vec<u16> {
        let train = &line.trains[number];
        match self {
            StartsAt::Dense => around(random, train.earliest, count, 1),
            StartsAt::Apart(most) => around(random, train.earliest, count, most),
            StartsAt::Another => {
                let earliest = random.one_of(line.used_trains()).earliest;
                around(random, earliest, count, 2)
            }
            StartsAt::LastStart => {
                let start = train.latest.saturating_sub(until(train, train.legs()));
                around(random, start, count, 2)
            }
            StartsAt::Booking => {
                let start = booked_start(random, line, number);
                around(random, start.unwrap_or(train.earliest), count, 2)
            }
            StartsAt::Spread => {
                let drawn = std::iter::repeat_with(|| random.within(0, LAST));
                let mut minutes: Vec<u16> = drawn.take(usize::from(count)).collect();
                minutes.sort_unstable();
                minutes.dedup();
                minutes
            }
            StartsAt::EndOfDay => (LAST + 1 - count..=LAST).collect(),
        }
    }
}

/// A question in order about any train of a line, which has one: from 1 to 24 minutes, mostly 24 or few, and
/// as many entries or more.
pub fn question(random: &mut Random, line: &Line, at: StartsAt) -> Question {
    let number = random.below(line.used_trains().len());
    let most = MOST_MINUTES as u16;
    let any = random.within(1, most);
    let count = random.one_of(&[1, 2, 3, 5, any, any, most]);
    let minutes = at.minutes(random, line, number, count);
    let more = random.one_of(&[0, 0, 1, 2, MOST_MINUTES - minutes.len(), 40]);
    Question {
        train: number as u32 + 1,
        entries: minutes.len() + more,
        minutes,
    }
}

/// Questions about lines, one about each that has trains: the kinds of lists in turn.
pub fn questions(
    seed: u64,
    lines: impl Iterator<Item = Line>,
) -> impl Iterator<Item = (Line, Question)> {
    let mut random = Random::new(seed);
    let with_trains = lines.filter(|line| line.train_count > 0);
    let kinds = StartsAt::ALL.into_iter().cycle();
    with_trains
        .zip(kinds)
        .map(move |(line, at)| (line, question(&mut random, &line, at)))
}

/// Rising minutes, each up to `apart` after the one before, with this one among them or between them.
fn around(random: &mut Random, minute: u16, count: u16, apart: u16) -> Vec<u16> {
    let before = random.within(0, count - 1) * apart;
    let mut minutes = vec![minute.saturating_sub(before)];
    while minutes.len() < usize::from(count) {
        match minutes[minutes.len() - 1] + random.within(1, apart) {
            next @ 0..=LAST => minutes.push(next),
            _ => break,
        }
    }
    minutes
}

/// How long a train alone takes until it may leave with this leg, or until it is in with all of them.
fn until(train: &Train, leg: usize) -> u16 {
    let stops = leg.min(train.legs() - 1);
    train.runs[..leg].iter().chain(&train.stops[..stops]).sum()
}

/// The start from which a train, by its number from 0, just may leave a stop as booked there, if it has a
/// booking.
fn booked_start(random: &mut Random, line: &Line, number: usize) -> Option<u16> {
    let train = &line.trains[number];
    let bookings = line.used_bookings().iter();
    let own = bookings.filter(|booking| usize::from(booking.train) == number + 1);
    let start = |minute: u16, leg| minute.saturating_sub(until(train, leg));
    let starts: Vec<u16> = own
        .map(|booking| start(booking.minute, train.leg_from(booking.station)))
        .collect();
    (!starts.is_empty()).then(|| random.one_of(&starts))
}

/// What is wrong with a question.
#[derive(Clone, Copy, Debug, PartialEq, Eq)]
pub enum StartsFault {
    /// There is no minute.
    Empty,
    /// There are more than 24, rising, within the day and with as many entries.
    TooLong,
    /// A minute is that before it.
    Equal,
    /// A minute is below that before it.
    Falling,
    /// The last minutes, rising, are past the day, or the last one far past it.
    PastTheDay,
    /// There are fewer entries than minutes.
    FewEntries,
    /// The train is 0, or above the trains of the file by one or by more.
    Train,
    /// Two of these one after another.
    Two,
}

impl StartsFault {
    /// All of them.
    pub const ALL: [StartsFault; 8] = [
        StartsFault::Empty,
        StartsFault::TooLong,
        StartsFault::Equal,
        StartsFault::Falling,
        StartsFault::PastTheDay,
        StartsFault::FewEntries,
        StartsFault::Train,
        StartsFault::Two,
    ];
}

/// The question about a line with something wrong in it.
pub fn with_starts_fault(
    random: &mut Random,
    line: &Line,
    question: &Question,
    fault: StartsFault,
) -> Question {
    let mut wrong = question.clone();
    match fault {
        StartsFault::Empty => wrong.minutes.clear(),
        StartsFault::TooLong => lengthen(random, &mut wrong),
        StartsFault::Equal => put_behind(random, &mut wrong, |_, before| before),
        StartsFault::Falling => put_behind(random, &mut wrong, |random, before| {
            let any = random.within(0, before - 1);
            random.one_of(&[before - 1, any, 0])
        }),
        StartsFault::PastTheDay => put_past_the_day(random, &mut wrong),
        StartsFault::FewEntries => {
            let minutes = wrong.minutes.len().max(1);
            wrong.entries = random.one_of(&[0, minutes - 1, minutes / 2]);
        }
        StartsFault::Train => wrong.train = no_train(random, line),
        StartsFault::Two => {
            let single = &StartsFault::ALL[..7];
            let (first, second) = (random.one_of(single), random.one_of(single));
            let once = with_starts_fault(random, line, question, first);
            return with_starts_fault(random, line, &once, second);
        }
    }
    wrong
}

/// A list of more than 24 minutes: just more, twice as many, as many as the day has, or so many that fewer
/// bits would not tell their number from one in order.
fn lengthen(random: &mut Random, question: &mut Question) {
    let most = MOST_MINUTES as u16;
    let any = random.within(most + 1, 2 * most);
    let count = random.one_of(&[most + 1, most + 2, any, 2 * most, 257, 256 + most, LAST + 1]);
    let first = random.within(0, LAST + 1 - count);
    question.minutes = (first..first + count).collect();
    question.entries = question.minutes.len();
}

/// Puts a minute that is wrong behind one of the list in the place of the next one, which is often the last.
/// A list with fewer than two has one more then.
fn put_behind(
    random: &mut Random,
    question: &mut Question,
    next: impl Fn(&mut Random, u16) -> u16,
) {
    let minutes = &mut question.minutes;
    while minutes.len() < 2 {
        minutes.push(LAST);
    }
    let last = minutes.len() - 1;
    let any = 1 + random.below(last);
    let at = random.one_of(&[1, any, any, last]);
    // Below 1 there is no minute to fall to.
    minutes[at - 1] = minutes[at - 1].max(1);
    minutes[at] = next(random, minutes[at - 1]);
    question.entries = question.entries.max(minutes.len());
}

/// The last minutes are those from 2,880 on, or the last one is any past the day.
fn put_past_the_day(random: &mut Random, question: &mut Question) {
    let minutes = &mut question.minutes;
    if minutes.is_empty() {
        minutes.push(0);
    }
    let count = minutes.len();
    let past = 1 + random.below(count);
    let any = random.within(LAST + 1, u16::MAX);
    match random.below(4) {
        0 => minutes
            .splice(count - past.., LAST + 1..LAST + 1 + past as u16)
            .for_each(drop),
        1 => minutes[count - 1] = any,
        _ => {
            minutes[count - 1] = random.one_of(&[LAST + 1, LAST + 1, 4096, 9999, 32_768, u16::MAX])
        }
    }
}

/// A number that no train of the line has. Fewer bits would not tell some of them from one that it has.
fn no_train(random: &mut Random, line: &Line) -> u32 {
    let trains = u32::from(line.train_count);
    let train = 1 + random.below(line.used_trains().len()) as u32;
    let wrapped = train + (1 << random.one_of(&[4, 8, 16, 31]));
    random.one_of(&[0, trains + 1, trains + 1, 13, wrapped, u32::MAX])
}

#[cfg(test)]
mod tests {
    use independent::starts::starts_into;
    use independent::Refusal;

    use super::*;
    use crate::{due_small_line, small_line};

    fn lines(seed: u64) -> impl Iterator<Item = Line> {
        let mut random = Random::new(seed);
        std::iter::repeat_with(move || {
            let (stations, trains) = (random.within(2, 4), random.within(0, 2));
            let draw = random.one_of(&[small_line, due_small_line]);
            draw(&mut random, stations, trains)
        })
    }

    fn answer(line: &Line, question: &Question) -> Result<(), Refusal> {
        let file = independent::write(line).expect("a line within the limits");
        let mut lent = vec![0; question.entries];
        starts_into(&file, question.train, &question.minutes, &mut lent)
    }

    #[test]
    fn questions_are_in_order() {
        let (mut longest, mut shortest, mut last_minute, mut just_enough) = (0, 0, 0, 0);
        for (line, question) in questions(601, lines(602)).take(2_000) {
            assert_eq!(answer(&line, &question), Ok(()), "{question:?}");
            longest += usize::from(question.minutes.len() == MOST_MINUTES);
            shortest += usize::from(question.minutes.len() == 1);
            last_minute += usize::from(question.minutes.contains(&LAST));
            just_enough += usize::from(question.minutes.len() == question.entries);
        }
        let all = [longest, shortest, last_minute, just_enough];
        println!("longest, shortest, last minute, just enough: {all:?}");
        assert!(all.iter().all(|&times| times >= 100));
    }

    #[test]
    fn each_fault_is_one() {
        let mut random = Random::new(603);
        for (line, question) in questions(604, lines(605)).take(1_000) {
            for fault in StartsFault::ALL {
                let wrong = with_starts_fault(&mut random, &line, &question, fault);
                let refusal = answer(&line, &wrong).expect_err("a question with a fault");
                let numbers = (refusal.number, refusal.place);
                assert_eq!(numbers, (22, 0), "{fault:?}: {wrong:?}");
            }
        }
    }
}
