//! A planner held to other planners, file by file, with the count of what the files had.

use independent::plans::Found;
use independent::rules::{weighted_delay, Minutes};
use independent::{check, timetable, Line, Refusal};

use crate::{shown, Corners, LineWalk};

/// What a planner answers to a line file: the text of the best timetable, or why there is none.
pub type Answer = Result<Vec<u8>, Refusal>;

/// Holds that `plan` answers with the text of `best`, and that the check passes it.
fn compare(line: &Line, best: Option<&Minutes>, plan: &impl Fn(&[u8]) -> Answer) {
    let file = independent::write(line).expect("a line within the limits");
    let (number, place) = (5, 0);
    let text = best.map(|best| timetable::write(line, best));
    let answer = plan(&file);
    let expected = text.ok_or(Refusal { number, place });
    assert_eq!(answer, expected, "{}", shown(&file));
    if let Ok(timetable) = answer {
        assert_eq!(check(&file, &timetable), Ok(()), "{}", shown(&file));
    }
}

/// Holds a planner to the walks of some lines.
pub fn beside_walks(
    walks: impl Iterator<Item = LineWalk>,
    plan: impl Fn(&[u8]) -> Answer,
) -> Corners {
    let mut corners = Corners::default();
    for LineWalk { line, walked } in walks {
        compare(&line, walked.best.as_ref(), &plan);
        corners.count(&line, walked.best.as_ref());
    }
    corners
}

/// What the lines had on which a planner was held to another.
#[derive(Clone, Copy, Debug, Default, PartialEq, Eq)]
pub struct Outcomes {
    /// How many there were.
    pub lines: usize,
    /// How many of them have no timetable.
    pub without: usize,
    /// How many have one with a weighted delay.
    pub delayed: usize,
}

/// Holds a planner to another, which finds the best timetable of some lines.
pub fn beside_another(
    lines: impl Iterator<Item = Line>,
    find: impl Fn(&Line) -> Option<Found>,
    plan: impl Fn(&[u8]) -> Answer,
) -> Outcomes {
    let mut outcomes = Outcomes::default();
    for line in lines {
        let Some(Found { best, .. }) = find(&line) else {
            continue;
        };
        compare(&line, best.as_ref(), &plan);
        outcomes.lines += 1;
        outcomes.without += usize::from(best.is_none());
        let delay = best.map_or(0, |best| weighted_delay(&line, &best));
        outcomes.delayed += usize::from(delay > 0);
    }
    outcomes
}
