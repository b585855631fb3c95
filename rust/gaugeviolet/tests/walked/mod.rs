//! Holds the length of the library's walk to the independent one.

use gaugeviolet::on_callers_stack::walk_length;
use inputs::{shown, LineWalk};

/// Holds that the library's walk takes up as many plans.
pub fn hold_length(walk: &LineWalk) {
    let file = independent::write(&walk.line).expect("a line within the limits");
    let length = walk_length(&file).map(u64::from);
    assert_eq!(length, Ok(walk.walked.plans), "{}", shown(&file));
}
