//! Texts to damage, and the explanation of a refusal, which must not be missing.

use gaugeviolet::{Explanation, Refusal};
use inputs::shown;

/// A line file with three stations and two trains.
pub const FILE: &str = "3\n2\n2\n2\n2\nS 5 4\nD 5 4\n2\n1 3 0 200 1 20 0 20\n3 1 0 200 2 15 0 15\n";
pub const TIMETABLE: &str = "2\n0 20 20 40\n0 15 24 39\n3\n2 1 2\n1 1\n1 2\n18\n";
/// The stop times of the timetable.
pub const STOP_TIMES: &str = "trip_id,arrival_time,departure_time,stop_id,stop_sequence\n\
                              T1,00:00:00,00:00:00,1,1\n\
                              T1,00:20:00,00:20:00,2,2\n\
                              T1,00:40:00,00:40:00,3,3\n\
                              T2,00:00:00,00:00:00,3,1\n\
                              T2,00:15:00,00:24:00,2,2\n\
                              T2,00:39:00,00:39:00,1,3\n";

/// The explanation of the refusal of a file, or of the text that was lent with it.
pub fn explained(refusal: Refusal, file: &[u8], text: Option<&[u8]>) -> Explanation {
    let explanation = refusal.explanation(file, text);
    let bytes = text.unwrap_or(file);
    explanation.unwrap_or_else(|| panic!("{refusal} without explanation: {}", shown(bytes)))
}
