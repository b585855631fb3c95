//! Dues that are out of order or past a limit.

use independent::Line;

use crate::misbooked::near_limits;
use crate::Random;

/// What is wrong with the dues of a line.
#[derive(Clone, Copy, Debug, PartialEq, Eq)]
pub enum DueFault {
    /// Two of them are exchanged.
    Exchanged,
    /// One stands twice, with the same minute or another. Where every train is listed, they are then more
    /// than the trains.
    Doubled,
    /// A train is at its limit or past it.
    Train,
    /// A minute is at its limit or past it.
    Minute,
    /// A train is that of the due before, or the one below that, and the minute is past its limit.
    OrderBeforeMinute,
    /// Two of these one after another.
    Two,
}

impl DueFault {
    /// All of them.
    pub const ALL: [DueFault; 6] = [
        DueFault::Exchanged,
        DueFault::Doubled,
        DueFault::Train,
        DueFault::Minute,
        DueFault::OrderBeforeMinute,
        DueFault::Two,
    ];
}

/// The line, which has dues, with something wrong in them, or as it is where that cannot be: a single due is
/// exchanged with nothing. At a limit nothing need be wrong. Every number has four digits at most, so that
/// the fields say what the record does.
pub fn with_due_fault(random: &mut Random, line: &Line, fault: DueFault) -> Line {
    let mut wrong = *line;
    let count = usize::from(line.due_count);
    let (at, other) = (random.below(count), random.below(count));
    match fault {
        DueFault::Exchanged => wrong.dues.swap(at, other),
        DueFault::Doubled => double(random, &mut wrong, at),
        DueFault::Train => wrong.dues[at].train = near_limits(random, 1, line.train_count),
        DueFault::Minute => wrong.dues[at].minute = near_limits(random, 0, 2879),
        DueFault::OrderBeforeMinute => {
            let before = line.dues[at.saturating_sub(1)].train;
            wrong.dues[at].train = random.one_of(&[before, before.saturating_sub(1)]);
            wrong.dues[at].minute = random.one_of(&[2879, 2880, 9999]);
        }
        DueFault::Two => {
            let single = &DueFault::ALL[..5];
            let (first, second) = (random.one_of(single), random.one_of(single));
            let once = with_due_fault(random, line, first);
            return with_due_fault(random, &once, second);
        }
    }
    wrong
}

/// Puts a due in again behind itself or further on; the last one falls out where there is no room.
fn double(random: &mut Random, line: &mut Line, at: usize) {
    let (count, most) = (usize::from(line.due_count), line.dues.len());
    let mut again = line.dues[at];
    again.minute = random.one_of(&[again.minute, 0, 2879]);
    let place = (at + 1 + random.below(count - at)).min(most - 1);
    line.dues.copy_within(place..most - 1, place + 1);
    line.dues[place] = again;
    line.due_count = most.min(count + 1) as u16;
}
