//! Damage to a lawful timetable or to its line file, from one minute to whole lines.

use independent::rules::Minutes;
use independent::{timetable, Limits, Line, FILE_BYTES};

use crate::{damage_bytes, damage_lines, Fields, Pair, Planned, Random};

/// What is damaged.
#[derive(Clone, Copy, Debug, PartialEq, Eq, PartialOrd, Ord)]
pub enum Damage {
    /// Nothing.
    Nothing,
    /// One minute; lists and total stay.
    Minute,
    /// One minute, or the minutes of one leg; lists and total are those of the new minutes.
    Leg,
    /// A train from some leg on, earlier or later; lists and total are those of the new minutes.
    Train,
    /// An order list: an entry replaced, two exchanged, one more or one less.
    List,
    /// The count of trains, of lists, or a list's own.
    Count,
    /// The total.
    Total,
    /// Any field of the timetable, replaced by some number or by something that is none.
    Field,
    /// Any field of the line file; the timetable stays.
    LineField,
    /// A demand of the line file made a little harder: earliest, a stop, a booking, latest, a due minute, a
    /// gap or tracks. The timetable stays.
    Demand,
    /// A few bytes of the timetable, now and then of the line file.
    Bytes,
    /// A whole line of the timetable, or a space.
    Lines,
    /// The timetable ends early.
    CutShort,
    /// Bytes after the timetable: one, or up to 4,096, 4,097 or more in all.
    Length,
}

impl Damage {
    /// Every kind of damage.
    pub const ALL: [Damage; 14] = [
        Damage::Nothing,
        Damage::Minute,
        Damage::Leg,
        Damage::Train,
        Damage::List,
        Damage::Count,
        Damage::Total,
        Damage::Field,
        Damage::LineField,
        Damage::Demand,
        Damage::Bytes,
        Damage::Lines,
        Damage::CutShort,
        Damage::Length,
    ];
}

/// The texts of a planned line after one damage of this kind. Some damage leaves a lawful timetable,
/// and where there is nothing to damage, as in the minutes of no train, nothing is changed.
pub fn damaged(random: &mut Random, planned: &Planned, damage: Damage) -> Pair {
    let mut pair = planned.pair();
    let Pair { file, timetable } = &mut pair;
    match damage {
        Damage::Nothing => {}
        Damage::Minute => with_fields(timetable, |fields| one_minute(random, planned, fields)),
        Damage::Leg => *timetable = rewritten(planned, |rows| one_leg(random, rows)),
        Damage::Train => *timetable = rewritten(planned, |rows| from_a_leg_on(random, rows)),
        Damage::List => with_fields(timetable, |fields| one_list(random, planned, fields)),
        Damage::Count => with_fields(timetable, |fields| one_count(random, planned, fields)),
        Damage::Total => with_fields(timetable, |fields| total(random, fields)),
        Damage::Field => with_fields(timetable, |fields| one_field(random, fields)),
        Damage::LineField => with_fields(file, |fields| one_line_field(random, fields)),
        Damage::Demand => *file = harder(random, planned.line),
        Damage::Bytes => some_bytes(random, &mut pair),
        Damage::Lines => *timetable = damage_lines(random, timetable),
        Damage::CutShort => timetable.truncate(random.below(timetable.len())),
        Damage::Length => bytes_after(random, timetable),
    }
    pair
}

/// Changes a text that is in order, field by field.
fn with_fields(text: &mut Vec<u8>, change: impl FnOnce(&mut Fields)) {
    let mut fields = Fields::of_text(text);
    change(&mut fields);
    *text = fields.text();
}

/// Numbers at and past limits, too many digits, leading zeros, no numbers.
#[rustfmt::skip]
const FIELD_TEXTS: &[&str] = &[
    "0", "1", "2", "3", "10", "11", "12", "13", "14", "22", "23", "255", "256", "999", "2878",
    "2879", "2880", "9999", "10000", "65536", "65538", "99999", "999999", "9999999", "10000000",
    "4294967296", "00", "01", "0002", "", " ", "-1", "1 1", "1 ", " 1", "1\n", "\n1", "x", "1x",
    "\0", "S",
];

/// A row of minutes for each train.
type Rows = Vec<Vec<u16>>;

/// The timetable with its minutes changed, lists and total made anew.
fn rewritten(planned: &Planned, change: impl FnOnce(&mut Rows)) -> Vec<u8> {
    let mut rows = planned.minutes.rows(&planned.line);
    if !rows.is_empty() {
        change(&mut rows);
    }
    timetable::write(&planned.line, &Minutes::of_rows(&planned.line, &rows))
}

/// Another minute: mostly a near one.
fn other_minute(random: &mut Random, minute: u16) -> u16 {
    let some = random.within(4, 60);
    let near = random.one_of(&[1, 1, 1, 2, 3, some]);
    let other = match random.below(8) {
        0 => random.within(0, Limits::MINUTE.most),
        1..5 => minute + near,
        _ => minute.saturating_sub(near),
    };
    other.min(Limits::MINUTE.most)
}

fn one_minute(random: &mut Random, planned: &Planned, fields: &mut Fields) {
    let trains = usize::from(planned.line.train_count);
    if trains == 0 {
        return;
    }
    let line = 1 + random.below(trains);
    let at = random.below(fields.lines[line].len());
    let minute = fields.lines[line][at].parse().expect("a minute");
    let other = match random.below(8) {
        0 => random.one_of(&[2879, 2880, 2881, 3000, 9999]),
        _ => other_minute(random, minute),
    };
    fields.lines[line][at] = other.to_string();
}

fn one_field(random: &mut Random, fields: &mut Fields) {
    let (line, at) = random.one_of(&fields.places());
    fields.lines[line][at] = random.one_of(FIELD_TEXTS).to_string();
}

fn one_leg(random: &mut Random, rows: &mut Rows) {
    let train = random.below(rows.len());
    let row = &mut rows[train];
    let at = random.below(row.len());
    let other = other_minute(random, row[at]);
    if random.below(3) == 0 {
        row[at] = other;
    } else {
        let (leg, minutes) = (at / 2 * 2, i32::from(other) - i32::from(row[at]));
        shift(&mut row[leg..leg + 2], minutes);
    }
}

fn from_a_leg_on(random: &mut Random, rows: &mut Rows) {
    let train = random.below(rows.len());
    let row = &mut rows[train];
    let leg = random.below(row.len() / 2) * 2;
    let other = other_minute(random, row[leg]);
    let minutes = i32::from(other) - i32::from(row[leg]);
    shift(&mut row[leg..], minutes);
}

/// Moves all of `times` together, unless one of them would leave the day.
fn shift(times: &mut [u16], minutes: i32) {
    let moved = |&time: &u16| u16::try_from(i32::from(time) + minutes).ok();
    let within = |time: Option<u16>| time.is_some_and(|time| Limits::MINUTE.hold(time));
    if times.iter().map(moved).all(within) {
        for time in times {
            *time = moved(time).expect("within the day");
        }
    }
}

/// The line of a random order list, from 0.
fn list_line(random: &mut Random, planned: &Planned, fields: &Fields) -> usize {
    let first = usize::from(planned.line.train_count) + 2;
    first + random.below(fields.lines.len() - 1 - first)
}

fn one_list(random: &mut Random, planned: &Planned, fields: &mut Fields) {
    let line = list_line(random, planned, fields);
    let list = &mut fields.lines[line];
    let some_train = random.within(0, planned.line.train_count + 1).to_string();
    let entries = list.len() - 1;
    let at = 1 + random.below(entries + 1);
    match random.below(4) {
        0 => list.insert(at, some_train),
        _ if entries == 0 => list.push(some_train),
        1 => drop(list.remove(at.min(entries))),
        2 => list[at.min(entries)] = some_train,
        _ => list.swap(at.min(entries), 1 + random.below(entries)),
    }
    list[0] = (list.len() - 1).to_string();
}

fn one_count(random: &mut Random, planned: &Planned, fields: &mut Fields) {
    let line = match random.below(4) {
        0 => 0,
        1 => usize::from(planned.line.train_count) + 1,
        _ => list_line(random, planned, fields),
    };
    let count: u16 = fields.lines[line][0].parse().expect("a count");
    let trains = planned.line.train_count;
    let others = [
        count + 1,
        count.saturating_sub(1),
        0,
        trains,
        trains + 1,
        9999,
    ];
    fields.lines[line][0] = random.one_of(&others).to_string();
}

fn total(random: &mut Random, fields: &mut Fields) {
    let last = fields.lines.last_mut().expect("a timetable has lines");
    last[0] = other_total(random, &last[0]);
}

fn other_total(random: &mut Random, total: &str) -> String {
    let number: u32 = total.parse().expect("a total");
    match random.below(8) {
        0 => (number + 1).to_string(),
        1 => number.saturating_sub(1).to_string(),
        // What 16 bits would make of it, and what they would not tell from it.
        2 => (number % 65_536).to_string(),
        3 => (number + 65_536).to_string(),
        4 => format!("{total}0"),
        5 => format!("0{total}"),
        6 => random
            .one_of(&["9999999", "10000000", "99999999", ""])
            .to_string(),
        _ => random.below(10_000_000).to_string(),
    }
}

/// A number one more, one less or another; a kind another kind.
fn one_line_field(random: &mut Random, fields: &mut Fields) {
    let (line, at) = random.one_of(&fields.places());
    let field = &mut fields.lines[line][at];
    *field = match field.parse::<u16>() {
        Ok(number) => match random.below(4) {
            0 => random.within(0, 99),
            1 => number.saturating_sub(1),
            2 => number + random.within(1, 5),
            _ => number + 1,
        }
        .to_string(),
        Err(_) => random.one_of(&["S", "F", "D"]).to_string(),
    };
}

/// The file with one demand of the line harder, within the limits.
fn harder(random: &mut Random, mut line: Line) -> Vec<u8> {
    let station = random.below(usize::from(line.station_count));
    let segment = &mut line.segments[random.below(usize::from(line.station_count) - 1)];
    let train = &mut line.trains[random.below(usize::from(line.train_count).max(1))];
    let raise = |number: &mut u16, limits: Limits| *number = limits.most.min(*number + 1);
    match random.below(8) {
        0 => raise(&mut train.earliest, Limits::MINUTE),
        1 => raise(
            &mut train.stops[random.below(train.legs().max(1))],
            Limits::STOP,
        ),
        2 => train.latest = train.latest.saturating_sub(1),
        3 => raise(&mut segment.following, Limits::GAP),
        4 => raise(&mut segment.opposing, Limits::GAP),
        5 | 6 if line.booking_count > 0 => {
            let at = random.below(usize::from(line.booking_count));
            raise(&mut line.bookings[at].minute, Limits::MINUTE);
        }
        7 if line.due_count > 0 => {
            let due = &mut line.dues[random.below(usize::from(line.due_count))];
            due.minute = due.minute.saturating_sub(1);
        }
        _ => line.tracks[station] = 1.max(line.tracks[station] - 1),
    }
    independent::write(&line).expect("a line within the limits")
}

fn some_bytes(random: &mut Random, pair: &mut Pair) {
    let times = random.one_of(&[1, 1, 2, 5]);
    match random.below(8) {
        0 => damage_bytes(random, &mut pair.file, times),
        _ => damage_bytes(random, &mut pair.timetable, times),
    }
}

fn bytes_after(random: &mut Random, text: &mut Vec<u8>) {
    let byte = random.one_of(b"\n 01x\0");
    let lengths = [
        text.len() + 1,
        FILE_BYTES - 1,
        FILE_BYTES,
        FILE_BYTES + 1,
        FILE_BYTES + 2,
        65_536 + text.len(),
    ];
    text.resize(random.one_of(&lengths), byte);
}
