//! Minutes and counts as people say them.

use std::cmp::Ordering;

/// A minute as time of day: hours and minutes, with the second day marked.
///
/// ```
/// assert_eq!(gaugeviolet::time_of_day(365), "06:05");
/// assert_eq!(gaugeviolet::time_of_day(1450), "00:10 day 2");
/// ```
pub fn time_of_day(minute: u32) -> String {
    let (day, hour) = (minute / 1440, minute / 60 % 24);
    let time = format!("{hour:02}:{:02}", minute % 60);
    match day {
        0 => time,
        _ => format!("{time} day {}", day + 1),
    }
}

/// How an arrival stands to the minute at which it was due.
///
/// ```
/// assert_eq!(gaugeviolet::punctuality(723, 700), "23 minutes late");
/// assert_eq!(gaugeviolet::punctuality(700, 700), "on time");
/// assert_eq!(gaugeviolet::punctuality(699, 700), "1 minute early");
/// ```
pub fn punctuality(arrival: u32, due: u32) -> String {
    let minutes = counted(arrival.abs_diff(due), "minute");
    match arrival.cmp(&due) {
        Ordering::Less => format!("{minutes} early"),
        Ordering::Equal => "on time".to_string(),
        Ordering::Greater => format!("{minutes} late"),
    }
}

/// A count with its word, in the plural for any but 1.
///
/// ```
/// assert_eq!(gaugeviolet::counted(1, "train"), "1 train");
/// assert_eq!(gaugeviolet::counted(0, "train"), "0 trains");
/// ```
pub fn counted(count: u32, word: &str) -> String {
    match count {
        1 => format!("1 {word}"),
        _ => format!("{count} {word}s"),
    }
}
