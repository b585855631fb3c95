//! Starting minutes: the independent totals beside trying every order of each altered line.

use independent::exhaustive::best;
use independent::rules::weighted_delay;
use independent::starts::{starts, with_earliest};
use independent::Line;
use inputs::{questions, shown, small_lines, StartsCorners};

/// The total of a line by trying every order, or none where that takes too long.
fn by_every_order(line: &Line) -> Option<Option<u32>> {
    let best = best(line, 100_000).ok()?;
    Some(best.map(|best| weighted_delay(line, &best)))
}

#[test]
fn small_files_beside_every_order() {
    let mut corners = StartsCorners::default();
    let mut tried = 0;
    for (line, question) in questions(606, small_lines(607)).take(6_000) {
        let file = independent::write(&line).expect("a line within the limits");
        let totals = starts(&file, question.train, &question.minutes).expect("it is in order");
        for (&minute, &total) in question.minutes.iter().zip(&totals) {
            let altered = with_earliest(&line, question.train as usize - 1, minute);
            if let Some(expected) = by_every_order(&altered) {
                assert_eq!(
                    total,
                    expected,
                    "{question:?} at {minute} of {}",
                    shown(&file)
                );
                tried += 1;
            }
        }
        // What keeps the rules from a later minute keeps them from an earlier one.
        assert!(
            totals.is_sorted_by_key(Option::is_none),
            "{question:?} of {}",
            shown(&file)
        );
        corners.count(&line, &question, &totals);
    }
    println!("{tried} totals by every order");
    assert!(tried >= 40_000);
    corners.ends("small files", 100);
}
