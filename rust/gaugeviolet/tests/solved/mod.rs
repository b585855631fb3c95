//! The library's answer to a line file, in the form of the independent planners.

use gaugeviolet::on_callers_stack::solve;
use gaugeviolet::{check, TIMETABLE_BYTES};
use independent::Refusal;
use inputs::Answer;

/// What the library answers: the text, which passes its check, or number and place with every lent byte as
/// before.
pub fn solved(file: &[u8]) -> Answer {
    let mut lent = [0xa5; TIMETABLE_BYTES];
    match solve(file, &mut lent) {
        Ok(length) => {
            let (text, past) = lent.split_at(length);
            assert!(past.iter().all(|&byte| byte == 0xa5), "bytes past the text");
            assert_eq!(check(file, text), Ok(()), "the check of what was printed");
            Ok(text.to_vec())
        }
        Err(refusal) => {
            let unchanged = lent.iter().all(|&byte| byte == 0xa5);
            assert!(unchanged, "a byte changed with {refusal}");
            let (number, place) = (refusal.number, refusal.place);
            Err(Refusal { number, place })
        }
    }
}
