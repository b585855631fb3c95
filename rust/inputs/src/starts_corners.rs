//! What a question about starting minutes and its totals have that mistakes could hide behind, and the count
//! of it.

use independent::rules::free_arrival;
use independent::starts::{with_earliest, MOST_MINUTES};
use independent::{Limits, Line, Train};

use crate::tally::Tally;
use crate::Question;

/// Something that a question has, with the totals that answer it.
#[derive(Clone, Copy, Debug, PartialEq, Eq)]
pub enum StartsCorner {
    /// Some minutes have a timetable and some have none.
    Mixed,
    /// No minute has one.
    NoTimetable,
    /// A total is above the one before it.
    Rises,
    /// A total is below the one before it.
    Falls,
    /// A total above 0 is the one before it.
    Stays,
    /// There is one minute.
    One,
    /// There are 24.
    Most,
    /// One of them is the train's own earliest.
    OwnMinute,
    /// One of them is before it.
    Before,
    /// One of them is after the train's latest.
    AfterLatest,
    /// One of them is 2,879.
    LastMinute,
    /// There are more entries than minutes.
    MoreEntries,
    /// The train is the last of several.
    LastTrain,
    /// It has weight 0, and there is a total above 0.
    ZeroWeight,
    /// There are dues and it is not listed, it has a weight, and its free arrival moves between totals.
    FreeArrivalMoves,
    /// It is listed and has a weight, and the totals differ.
    Listed,
    /// Its bookings keep its free arrival where it is between two minutes with a total.
    Booked,
}

impl StartsCorner {
    /// All of them, in their order.
    pub const ALL: [StartsCorner; 17] = [
        StartsCorner::Mixed,
        StartsCorner::NoTimetable,
        StartsCorner::Rises,
        StartsCorner::Falls,
        StartsCorner::Stays,
        StartsCorner::One,
        StartsCorner::Most,
        StartsCorner::OwnMinute,
        StartsCorner::Before,
        StartsCorner::AfterLatest,
        StartsCorner::LastMinute,
        StartsCorner::MoreEntries,
        StartsCorner::LastTrain,
        StartsCorner::ZeroWeight,
        StartsCorner::FreeArrivalMoves,
        StartsCorner::Listed,
        StartsCorner::Booked,
    ];

    /// Whether that is so of an answered question.
    fn is_of(self, known: &Known) -> bool {
        let minutes = &known.question.minutes;
        let train = known.train();
        match self {
            StartsCorner::Mixed => known.without() > 0 && known.without() < minutes.len(),
            StartsCorner::NoTimetable => known.without() == minutes.len(),
            StartsCorner::Rises => known.any_two(|one, next| one.total < next.total),
            StartsCorner::Falls => known.any_two(|one, next| one.total > next.total),
            StartsCorner::Stays => {
                known.any_two(|one, next| one.total == next.total && one.total > 0)
            }
            StartsCorner::One => minutes.len() == 1,
            StartsCorner::Most => minutes.len() == MOST_MINUTES,
            StartsCorner::OwnMinute => minutes.contains(&train.earliest),
            StartsCorner::Before => minutes[0] < train.earliest,
            StartsCorner::AfterLatest => minutes[minutes.len() - 1] > train.latest,
            StartsCorner::LastMinute => minutes.contains(&Limits::MINUTE.most),
            StartsCorner::MoreEntries => known.question.entries > minutes.len(),
            StartsCorner::LastTrain => {
                known.number > 0 && known.number + 1 == known.line.used_trains().len()
            }
            StartsCorner::ZeroWeight => train.weight == 0 && known.costs(),
            StartsCorner::FreeArrivalMoves => {
                let unlisted = known.line.due_count > 0 && !known.is_listed();
                unlisted && train.weight > 0 && known.any_two(|one, next| one.free != next.free)
            }
            StartsCorner::Listed => {
                let differ = known.any_two(|one, next| one.total != next.total);
                known.is_listed() && train.weight > 0 && differ
            }
            StartsCorner::Booked => known.any_two(|one, next| one.free == next.free),
        }
    }
}

/// A minute with a timetable: the total, and the train's free arrival from there.
struct Start {
    total: u32,
    free: u32,
}

/// A question with its answer.
struct Known<'a> {
    line: &'a Line,
    question: &'a Question,
    /// The train's number from 0.
    number: usize,
    /// The minutes with a timetable, or none, in their order.
    starts: Vec<Option<Start>>,
}

impl Known<'_> {
    fn train(&self) -> &Train {
        &self.line.trains[self.number]
    }

    /// Whether the train is listed with a due minute.
    fn is_listed(&self) -> bool {
        self.line.listed_due(self.number).is_some()
    }

    /// How many minutes have no timetable.
    fn without(&self) -> usize {
        self.starts.iter().filter(|start| start.is_none()).count()
    }

    /// Whether a total is above 0.
    fn costs(&self) -> bool {
        self.starts.iter().flatten().any(|start| start.total > 0)
    }

    /// Whether `hold` holds of two minutes with a timetable, one after the other.
    fn any_two(&self, hold: impl Fn(&Start, &Start) -> bool) -> bool {
        let mut twos = self.starts.windows(2);
        twos.any(|two| matches!(two, [Some(one), Some(next)] if hold(one, next)))
    }
}

/// How many questions there were, and of how many each corner is.
#[derive(Default)]
pub struct StartsCorners {
    tally: Tally<{ StartsCorner::ALL.len() }>,
}

impl StartsCorners {
    /// Counts a question about a line, with the totals that answer it.
    pub fn count(&mut self, line: &Line, question: &Question, totals: &[Option<u32>]) {
        let number = question.train as usize - 1;
        let start = |(&minute, total): (&u16, &Option<u32>)| {
            let free = free_arrival(&with_earliest(line, number, minute), number);
            total.map(|total| Start { total, free })
        };
        let known = Known {
            line,
            question,
            number,
            starts: question.minutes.iter().zip(totals).map(start).collect(),
        };
        self.tally
            .count(StartsCorner::ALL.map(|corner| corner.is_of(&known)));
    }

    /// Of how many questions the corner is.
    pub fn times(&self, corner: StartsCorner) -> usize {
        self.tally.times(corner as usize)
    }

    /// Prints the counts, and holds that each corner was seen at least so often.
    pub fn ends(&self, name: &str, least: usize) {
        self.tally.ends(name, StartsCorner::ALL, least);
    }
}
