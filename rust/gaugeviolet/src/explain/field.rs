//! The names of the fields of a line file, of a timetable and of stop times.

use std::fmt;

/// A field, by what it says. Trains, stations, segments, bookings, due minutes, order lists and columns
/// count from 1, and so do the places of trains in an order list. Later versions know more.
#[non_exhaustive]
#[derive(Clone, Copy, Debug, PartialEq, Eq, Hash)]
#[allow(missing_docs, reason = "each name says it, and `Display` in words")]
pub enum Field {
    StationCount,
    Tracks {
        station: u32,
    },
    SegmentCount,
    SegmentKind {
        segment: u32,
    },
    FollowingGap {
        segment: u32,
    },
    OpposingGap {
        segment: u32,
    },
    TrainCount,
    Origin {
        train: u32,
    },
    Destination {
        train: u32,
    },
    Earliest {
        train: u32,
    },
    Latest {
        train: u32,
    },
    Weight {
        train: u32,
    },
    Run {
        train: u32,
        segment: u32,
    },
    Stop {
        train: u32,
        station: u32,
    },
    BookingCount,
    BookedTrain {
        booking: u32,
    },
    BookedStation {
        booking: u32,
    },
    BookedMinute {
        booking: u32,
    },
    DueCount,
    DueTrain {
        due: u32,
    },
    DueMinute {
        due: u32,
    },
    Departure {
        train: u32,
        segment: u32,
    },
    Arrival {
        train: u32,
        segment: u32,
    },
    ListCount,
    ListLength {
        list: u32,
    },
    Listed {
        list: u32,
        place: u32,
    },
    Total,
    /// A column's name in the header of stop times.
    ColumnName {
        column: u32,
    },
    TripId {
        train: u32,
        station: u32,
    },
    ArrivalTime {
        train: u32,
        station: u32,
    },
    DepartureTime {
        train: u32,
        station: u32,
    },
    StopId {
        train: u32,
        station: u32,
    },
    StopSequence {
        train: u32,
        station: u32,
    },
    /// Nothing may stand there.
    End,
}

impl Field {
    /// Whether it is a minute of the day.
    pub(super) fn is_time(self) -> bool {
        matches!(
            self,
            Field::Earliest { .. }
                | Field::Latest { .. }
                | Field::BookedMinute { .. }
                | Field::DueMinute { .. }
                | Field::Departure { .. }
                | Field::Arrival { .. }
        )
    }

    /// Whether it is a number of minutes.
    pub(super) fn is_duration(self) -> bool {
        matches!(
            self,
            Field::Run { .. }
                | Field::Stop { .. }
                | Field::FollowingGap { .. }
                | Field::OpposingGap { .. }
        )
    }
}

impl fmt::Display for Field {
    fn fmt(&self, f: &mut fmt::Formatter<'_>) -> fmt::Result {
        match self {
            Field::StationCount => write!(f, "number of stations"),
            Field::Tracks { station } => write!(f, "station {station}: tracks"),
            Field::SegmentCount => write!(f, "number of segments"),
            Field::SegmentKind { segment } => write!(f, "segment {segment}: kind"),
            Field::FollowingGap { segment } => write!(f, "segment {segment}: following gap"),
            Field::OpposingGap { segment } => write!(f, "segment {segment}: opposing gap"),
            Field::TrainCount => write!(f, "number of trains"),
            Field::Origin { train } => write!(f, "train {train}: origin"),
            Field::Destination { train } => write!(f, "train {train}: destination"),
            Field::Earliest { train } => write!(f, "train {train}: earliest"),
            Field::Latest { train } => write!(f, "train {train}: latest"),
            Field::Weight { train } => write!(f, "train {train}: weight"),
            Field::Run { train, segment } => write!(f, "train {train}: run over segment {segment}"),
            Field::Stop { train, station } => write!(f, "train {train}: stop at station {station}"),
            Field::BookingCount => write!(f, "number of bookings"),
            Field::BookedTrain { booking } => write!(f, "booking {booking}: train"),
            Field::BookedStation { booking } => write!(f, "booking {booking}: station"),
            Field::BookedMinute { booking } => write!(f, "booking {booking}: minute"),
            Field::DueCount => write!(f, "number of due minutes"),
            Field::DueTrain { due } => write!(f, "due {due}: train"),
            Field::DueMinute { due } => write!(f, "due {due}: minute"),
            Field::Departure { train, segment } => {
                write!(f, "train {train}: departure on segment {segment}")
            }
            Field::Arrival { train, segment } => {
                write!(f, "train {train}: arrival on segment {segment}")
            }
            Field::ListCount => write!(f, "number of order lists"),
            Field::ListLength { list } => write!(f, "order list {list}: number of its trains"),
            Field::Listed { list, place } => {
                write!(f, "order list {list}: train {place} of the list")
            }
            Field::Total => write!(f, "total"),
            Field::ColumnName { column } => write!(f, "header: name of column {column}"),
            Field::TripId { train, station } => {
                write!(f, "train {train} at station {station}: trip_id")
            }
            Field::ArrivalTime { train, station } => {
                write!(f, "train {train} at station {station}: arrival_time")
            }
            Field::DepartureTime { train, station } => {
                write!(f, "train {train} at station {station}: departure_time")
            }
            Field::StopId { train, station } => {
                write!(f, "train {train} at station {station}: stop_id")
            }
            Field::StopSequence { train, station } => {
                write!(f, "train {train} at station {station}: stop_sequence")
            }
            Field::End => write!(f, "end of the text"),
        }
    }
}
