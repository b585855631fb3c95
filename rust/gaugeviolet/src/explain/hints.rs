//! What usually lies behind a fault in the form of a text, and what to do about it.

use super::column::Column;
use super::field::Field;
use super::quotation::Text;
use super::typed::Typed;
use super::walker::{After, Fault, Wrong};

const MARK: &[u8] = b"\xef\xbb\xbf";
const FEWER: &str = "the line has fewer fields than belong there";

/// The hint for a fault, the most likely one alone.
pub(super) fn hint(which: Text, text: &[u8], fault: &Fault) -> Option<String> {
    match fault.wrong {
        Wrong::Form => whole_text(text).or_else(|| in_place_of_field(which, text, fault)),
        Wrong::After(after) => after_field(text, fault, after).map(str::to_string),
        Wrong::Range if which == Text::StopTimes => Some("the second day ends at 47:59:00".into()),
        Wrong::Range if fault.field.is_time() => {
            Some("times are minutes from midnight; those of the second day go on from 1440".into())
        }
        Wrong::NotRepeated => {
            Some("where a train begins or ends it has one minute for both".into())
        }
        Wrong::NotNext => not_next(fault.field).map(str::to_string),
        _ => None,
    }
}

/// Trips and sequences in an order that other programs take.
fn not_next(field: Field) -> Option<&'static str> {
    match field {
        Field::TripId { .. } => {
            Some("trips stand by number, T2 before T10; every train has its own")
        }
        Field::StopSequence { .. } => Some("the sequence counts from 1 on each trip, without gaps"),
        _ => None,
    }
}

/// The way a whole file was saved.
fn whole_text(text: &[u8]) -> Option<String> {
    if text.starts_with(b"refused ") {
        return Some("the text is a refusal, which was saved in the place of an answer".into());
    }
    if text.starts_with(MARK) {
        let save = "save it as plain ASCII text or as UTF-8 without that mark";
        return Some(format!("the text begins with a byte-order mark; {save}"));
    }
    let marked = text.starts_with(b"\xff\xfe") || text.starts_with(b"\xfe\xff");
    // Without a mark too, every other byte of UTF-16 is 0 where the characters are ASCII.
    let every_other = |from| text.len() > 1 && text.iter().skip(from).step_by(2).all(|&b| b == 0);
    if marked || every_other(0) != every_other(1) {
        return Some("the text is saved as UTF-16; save it as plain ASCII text".into());
    }
    if !text.contains(&b'\n') && text.contains(&b'\r') {
        let save = "save it with line feeds";
        return Some(format!("the lines end with carriage returns alone; {save}"));
    }
    None
}

/// Something else stands where a field is due.
fn in_place_of_field(which: Text, text: &[u8], fault: &Fault) -> Option<String> {
    let token = &text[fault.from..fault.to];
    if fault.field == Field::End {
        return after_the_end(&text[fault.from..]);
    }
    // Where the file may end or go on with another section, what is blank was not meant as that section.
    let blank = after_the_end(&text[fault.from..]);
    if let (Field::BookingCount | Field::DueCount, Some(hint)) = (fault.field, blank) {
        return Some(hint);
    }
    match (text.get(fault.from), token) {
        (None, _) if text.is_empty() => Some("the file is empty".into()),
        (None, _) => Some(format!("the text ends before the field `{}`", fault.field)),
        (_, []) if begins_line(text, fault) => Some("the line is empty; take it away".into()),
        (_, []) => Some(FEWER.into()),
        _ if which == Text::StopTimes => Column::at(text, fault).hint(),
        (_, b" ") => Some(spaces(text, fault).into()),
        _ => Typed::at(text, fault).hint(),
    }
}

fn after_the_end(rest: &[u8]) -> Option<String> {
    let blank = rest.iter().all(|byte| b"\n\r \t".contains(byte));
    blank.then(|| "there is a blank line at the end; take it away".into())
}

fn begins_line(text: &[u8], fault: &Fault) -> bool {
    fault.from == 0 || text[fault.from - 1] == b'\n'
}

/// A space where a field is due: at the beginning of a line, doubled, or at the end of a line.
fn spaces(text: &[u8], fault: &Fault) -> &'static str {
    if space_ends_line(text, fault) {
        "there is a space at the end of the line; take it away"
    } else if begins_line(text, fault) {
        "there is a space at the beginning of the line; take it away"
    } else {
        "there are two spaces; fields are separated by one"
    }
}

/// Whether nothing but spaces stands between the fault and the end of its line.
fn space_ends_line(text: &[u8], fault: &Fault) -> bool {
    let rest = text[fault.from..].trim_ascii_start();
    let passed = &text[fault.from..text.len() - rest.len()];
    rest.is_empty() || passed.contains(&b'\n')
}

/// Something else follows a field than has to.
fn after_field(text: &[u8], fault: &Fault, after: After) -> Option<&'static str> {
    let found = text.get(fault.from);
    match (after, found) {
        (After::LineFeed, None) => {
            Some("every line ends with a line feed, the last one too; press Enter after it")
        }
        (After::Space | After::Comma, None) => Some("the text ends within this line"),
        (After::LineFeed, Some(_)) if space_ends_line(text, fault) => {
            Some("there is a space at the end of the line; take it away")
        }
        (After::LineFeed, Some(_)) => Some("the line has more fields than belong there"),
        (After::Space | After::Comma, Some(_)) => Some(FEWER),
    }
}
