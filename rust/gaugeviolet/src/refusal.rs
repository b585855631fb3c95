//! What a refusal is: its number and place, its cause, and the sentence that says it to a planner.

use std::fmt;

/// Why the planner turned something down. Nothing that was lent has changed then.
///
/// As an error it shows its sentence; [`Refusal::in_numbers`] is what the programs print.
///
/// ```
/// let refusal = gaugeviolet::read(b"13\n").unwrap_err();
/// assert_eq!((refusal.number, refusal.place), (3, 1));
/// assert_eq!(refusal.cause(), Some(gaugeviolet::Cause::FileRange));
/// assert_eq!(refusal.in_numbers(), "refused 3 1");
/// assert!(refusal.to_string().starts_with("line 1: a number is outside its range"));
/// ```
#[derive(Clone, Copy, Debug, PartialEq, Eq, PartialOrd, Ord, Hash)]
pub struct Refusal {
    /// What is wrong, by the number that the rules give it; [`Cause`] lists them.
    pub number: u32,
    /// Where it is wrong: for 2, 3, 4 and 19 the line of the file, for 8 and 9 the line of the timetable,
    /// for 20 and 21 the line of the stop times; for 10 to 13 and 18 the lowest train, for 14 the lowest
    /// segment, for 15 the lowest station and for 16 the lowest list of which it is true. All of them count
    /// from 1. For 1, 5, 6, 7, 17 and 22 always 0.
    pub place: u32,
}

/// What can be wrong, each with its number. Later versions know more.
#[non_exhaustive]
#[derive(Clone, Copy, Debug, PartialEq, Eq, PartialOrd, Ord, Hash)]
pub enum Cause {
    /// The line file is too long.
    FileLength = 1,
    /// A field of the line file has the wrong form, the wrong byte follows it, or the file does not end
    /// where it should.
    FileForm = 2,
    /// A number of the line file is outside its range.
    FileRange = 3,
    /// A destination equals its origin.
    SameStation = 4,
    /// No timetable keeps every rule.
    NoTimetable = 5,
    /// The lent bytes are too few for the text.
    LentBytes = 6,
    /// The timetable is too long.
    TimetableLength = 7,
    /// As [`Cause::FileForm`], in the timetable.
    TimetableForm = 8,
    /// A number of the timetable is outside its range, or a count is not the line's.
    TimetableRange = 9,
    /// A train departs before its earliest minute.
    Earliest = 10,
    /// A run takes more or fewer minutes than the line says.
    Run = 11,
    /// A stop is too short.
    Stop = 12,
    /// A train arrives after its latest minute.
    Latest = 13,
    /// Trains on a segment do not keep their gap.
    Gap = 14,
    /// More trains stand at a station than it has tracks.
    Tracks = 15,
    /// An order list does not follow from the minutes.
    OrderList = 16,
    /// The total does not follow from the minutes.
    Total = 17,
    /// A train departs before its booking.
    Booking = 18,
    /// A booking or a due minute is out of order, or a booking not at a middle station of its train.
    OutOfPlace = 19,
    /// A line of the stop times has the wrong form, or they do not end where they should.
    StopTimesForm = 20,
    /// A trip, a stop or a sequence is not the next one on the line's paths.
    StopTimesPath = 21,
    /// The minutes for a train are no rising list of 1 to 24, more than the lent entries or past 2,879, or
    /// the file has no such train.
    Starts = 22,
}

impl Cause {
    /// All of them, by number.
    pub const ALL: [Cause; 22] = [
        Cause::FileLength,
        Cause::FileForm,
        Cause::FileRange,
        Cause::SameStation,
        Cause::NoTimetable,
        Cause::LentBytes,
        Cause::TimetableLength,
        Cause::TimetableForm,
        Cause::TimetableRange,
        Cause::Earliest,
        Cause::Run,
        Cause::Stop,
        Cause::Latest,
        Cause::Gap,
        Cause::Tracks,
        Cause::OrderList,
        Cause::Total,
        Cause::Booking,
        Cause::OutOfPlace,
        Cause::StopTimesForm,
        Cause::StopTimesPath,
        Cause::Starts,
    ];

    /// Its number in the rules.
    pub const fn number(self) -> u32 {
        self as u32
    }

    /// Whether it is about a timetable, and not about the line file or what is made of it.
    pub fn is_of_timetable(self) -> bool {
        (Cause::TimetableLength..=Cause::Booking).contains(&self)
    }

    /// Whether it is about stop times.
    pub fn is_of_stop_times(self) -> bool {
        matches!(self, Cause::StopTimesForm | Cause::StopTimesPath)
    }
}

impl fmt::Display for Refusal {
    fn fmt(&self, f: &mut fmt::Formatter<'_>) -> fmt::Result {
        f.write_str(&self.sentence())
    }
}

impl std::error::Error for Refusal {}

impl Refusal {
    /// What is wrong, or nothing for a number that the planner does not give.
    pub fn cause(&self) -> Option<Cause> {
        Cause::ALL
            .into_iter()
            .find(|cause| cause.number() == self.number)
    }

    /// `refused n p`, as the programs print it: n the number, p the place.
    pub fn in_numbers(&self) -> String {
        format!("refused {} {}", self.number, self.place)
    }

    /// The refusal in words: where it is wrong, if it has a place, and what is wrong there.
    ///
    /// ```
    /// let file = "3\n2\n2\n2\n2\nS 5 4\nS 5 4\n2\n1 1 0 200 1 20 0 20\n3 1 0 200 2 15 0 15\n";
    /// let refusal = gaugeviolet::read(file.as_bytes()).unwrap_err();
    /// assert_eq!(refusal.in_numbers(), "refused 4 9");
    /// assert_eq!(refusal.sentence(), "line 9: the destination equals the origin");
    /// ```
    ///
    /// A line without more is one of the line file. All places count from 1, the order lists over all
    /// segments. A refusal whose place is always 0 is told without it:
    ///
    /// ```
    /// // The last run ends at minute 10.
    /// let refusal = gaugeviolet::plan(b"2\n2\n2\n1\nS 5 4\n1\n1 2 0 9 1 10\n").unwrap_err();
    /// assert_eq!(refusal.sentence(), "no timetable keeps every rule");
    /// ```
    ///
    /// A number that the planner does not give is told by number and place. Where in the bytes the
    /// fault is, and what was found there, says [`Refusal::explanation`].
    pub fn sentence(&self) -> String {
        match self.cause() {
            None => format!(
                "refused with number {} at place {}, which has no sentence",
                self.number, self.place
            ),
            Some(cause) => match place_in_words(cause, self.place) {
                Some(place) => format!("{place}: {}", in_words(cause)),
                None => in_words(cause).to_string(),
            },
        }
    }
}

/// The place, for the causes that have one.
fn place_in_words(cause: Cause, place: u32) -> Option<String> {
    match cause {
        Cause::FileForm | Cause::FileRange | Cause::SameStation | Cause::OutOfPlace => {
            Some(format!("line {place}"))
        }
        Cause::TimetableForm | Cause::TimetableRange => {
            Some(format!("line {place} of the timetable"))
        }
        Cause::StopTimesForm | Cause::StopTimesPath => {
            Some(format!("line {place} of the stop times"))
        }
        Cause::Earliest | Cause::Run | Cause::Stop | Cause::Latest | Cause::Booking => {
            Some(format!("train {place}"))
        }
        Cause::Gap => Some(format!("segment {place}")),
        Cause::Tracks => Some(format!("station {place}")),
        Cause::OrderList => Some(format!("order list {place}")),
        _ => None,
    }
}

/// What is wrong, in the words of the rules.
fn in_words(cause: Cause) -> &'static str {
    match cause {
        Cause::FileLength => "the line file has more than 4,096 bytes",
        Cause::FileForm => {
            "a field has the wrong form (a number is one to four digits without a leading zero, a \
             kind is S, F or D), the wrong byte follows it, the file ends early, or bytes follow its \
             last line"
        }
        Cause::FileRange => {
            "a number is outside its range, or the number of segments is not that of the stations \
             less 1"
        }
        Cause::SameStation => "the destination equals the origin",
        Cause::NoTimetable => "no timetable keeps every rule",
        Cause::LentBytes => "the text has more bytes than were lent for it",
        Cause::TimetableLength => "the timetable has more than 4,096 bytes",
        Cause::TimetableForm => {
            "a field has the wrong form (a number is one to four digits without a leading zero, the \
             total up to seven), the wrong byte follows it, the text ends early, or bytes follow its \
             last line"
        }
        Cause::TimetableRange => {
            "a time is over 2,879, the number of trains or of order lists is not the line's, a list's \
             own count is over the number of trains, or a train's number is not one of the line's"
        }
        Cause::Earliest => "its first departure is before its earliest minute",
        Cause::Run => "on one of its segments arrival less departure is not its run",
        Cause::Stop => "at a middle station it departs before its arrival plus its stop",
        Cause::Latest => "its last arrival is after its latest minute",
        Cause::Gap => "two trains on it do not keep their gap",
        Cause::Tracks => "at some minute more trains stand there than it has tracks",
        Cause::OrderList => "it is not the trains of its segment and lane by departure minute",
        Cause::Total => "the total is not the weighted delay of the minutes",
        Cause::Booking => "at a middle station it departs before the minute booked there",
        Cause::OutOfPlace => {
            "a booking (by train and then station) or a due minute (by train) is not in rising order, \
             or a booking's station is not a middle one of its train's path"
        }
        Cause::StopTimesForm => {
            "it is not of the form T1,00:20:00,00:24:00,2,2 under the header (hours up to 47, seconds \
             00), arrival and departure differ where a train begins or ends, the text ends early, or \
             bytes follow its last line"
        }
        Cause::StopTimesPath => {
            "its trip, stop or sequence is not the next one on the paths of the line's trains"
        }
        Cause::Starts => {
            "the list of minutes is empty, has more than 24, does not rise from each to the next or goes \
             past 2,879, fewer entries are lent than it has minutes, or the line has no such train"
        }
    }
}
