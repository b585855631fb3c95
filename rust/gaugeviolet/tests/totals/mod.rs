//! Compares timetables with other totals than their own.

use inputs::{Fields, Pair, Planned};

use crate::checked::Compared;

/// Compares a timetable with each of these totals in the place of its own.
pub fn with_totals(
    compared: &mut Compared,
    planned: &Planned,
    totals: impl IntoIterator<Item = u64>,
) {
    let Pair { file, timetable } = planned.pair();
    let fields = Fields::of_text(&timetable);
    let total = *fields.places().last().expect("a timetable has fields");
    for number in totals {
        compared.pair(&file, &fields.text_with(total, &number.to_string()));
    }
}

/// Compares a timetable, which has this total, with all totals near it and others that fewer bits would not
/// tell from it.
pub fn near_and_wrapped(compared: &mut Compared, planned: &Planned, total: u64) {
    let near = total - 100..total + 100;
    let wrapped = [8, 16, 20, 21].map(|bits| total % (1 << bits));
    let longer = [8, 16, 20, 21, 22, 32, 63].map(|bits| total + (1 << bits));
    with_totals(compared, planned, near.chain(wrapped).chain(longer));
}
