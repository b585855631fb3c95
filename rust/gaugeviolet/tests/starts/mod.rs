//! Asks the library about starting minutes, with entries lent between guards, and holds it to the independent
//! code.

use std::hint::black_box;

use gaugeviolet::on_callers_stack::starts;
use gaugeviolet::NO_TIMETABLE;
use independent::starts::starts_into;
use inputs::{shown, Question};

/// Entries before and after the lent ones that nobody may touch.
const GUARD: usize = 32;

/// What is answered: a total for each minute, or none where there is no timetable; or number and place.
pub type Answer = Result<Vec<Option<u32>>, (u32, u32)>;

/// Holds that the library answers as the independent code does, and that no entry changes but those of the
/// minutes, and none at all with a refusal.
pub fn beside_independent(file: &[u8], question: &Question) -> Answer {
    let Question { train, minutes, .. } = question;
    let before = file.to_vec();
    let answer = answer(file, question);
    assert!(
        black_box(file) == before,
        "a byte of the lent file changed: {}",
        shown(&before)
    );
    let mut lent = vec![0; question.entries];
    let expected = starts_into(file, *train, minutes, &mut lent)
        .map(|()| lent[..minutes.len()].iter().map(total).collect())
        .map_err(|refusal| (refusal.number, refusal.place));
    assert_eq!(answer, expected, "{question:?} of {}", shown(file));
    answer
}

/// What the library answers.
fn answer(file: &[u8], question: &Question) -> Answer {
    let Question {
        train,
        minutes,
        entries,
    } = question;
    let former = former(GUARD + entries + GUARD);
    let mut buffer = former.clone();
    // Lent as a part of a longer list, which goes on rising.
    let next = minutes.last().map_or(0, |last| last.saturating_add(1));
    let longer = [&minutes[..], &[next]].concat();
    let list = &longer[..minutes.len()];
    let answer = starts(file, *train, list, &mut buffer[GUARD..GUARD + entries]);
    let told = || format!("{question:?} of {}", shown(file));
    assert!(black_box(list) == minutes, "a minute changed, {}", told());
    let filled = answer.map_or(0, |()| minutes.len());
    let (front, rest) = buffer.split_at(GUARD);
    let (totals, past) = rest.split_at(filled);
    assert!(
        front == &former[..GUARD],
        "an entry before those lent changed, {}",
        told()
    );
    assert!(
        past == &former[GUARD + filled..],
        "an entry past the list changed, {}",
        told()
    );
    answer
        .map(|()| totals.iter().map(total).collect())
        .map_err(|refusal| (refusal.number, refusal.place))
}

/// The former content of so many entries: each another, and none of it a total.
fn former(entries: usize) -> Vec<u32> {
    (0..entries as u32).map(|at| 0xa5a5_0000 + at).collect()
}

/// The total that an entry stands for.
fn total(entry: &u32) -> Option<u32> {
    (*entry != NO_TIMETABLE).then_some(*entry)
}
