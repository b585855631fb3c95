//! Damage to the text of a line file, a timetable or stop times.

use crate::Random;

/// The bytes that a line file is made of, with neighbours that are easily taken for them.
const NEAR: &[u8] = b"0123456789 \nSFDsfdEGR\t\r:/+-.,\0\x1f!\x7f\x80\xb0\xff";

/// Replaces, inserts, deletes or swaps bytes, one after another, as often as `times` says.
pub fn damage_bytes(random: &mut Random, text: &mut Vec<u8>, times: usize) {
    for _ in 0..times {
        let at = random.below(text.len() + 1);
        let byte = if random.below(4) == 0 {
            random.below(256) as u8
        } else {
            random.one_of(NEAR)
        };
        match random.below(4) {
            0 => text.insert(at, byte),
            _ if at == text.len() => text.push(byte),
            1 => text[at] = byte,
            2 => drop(text.remove(at)),
            _ => {
                let other = random.below(text.len());
                text.swap(at, other);
            }
        }
    }
}

/// Every text that comes of replacing, inserting or leaving out one byte, or exchanging two.
pub fn with_one_byte_damaged(text: &[u8]) -> Vec<Vec<u8>> {
    let mut texts = Vec::new();
    for at in 0..=text.len() {
        let (before, after) = text.split_at(at);
        texts.extend((0..=255).map(|byte| [before, &[byte], after].concat()));
        if let Some((_, after)) = after.split_first() {
            texts.extend((0..=255).map(|byte| [before, &[byte], after].concat()));
            texts.push([before, after].concat());
        }
        for other in at + 1..text.len() {
            let mut swapped = text.to_vec();
            swapped.swap(at, other);
            texts.push(swapped);
        }
    }
    texts
}

/// Leaves out, doubles or swaps whole lines, or joins or parts fields: damage that keeps the bytes
/// of a line file and breaks its order.
pub fn damage_lines(random: &mut Random, text: &[u8]) -> Vec<u8> {
    let mut lines: Vec<Vec<u8>> = text
        .split_inclusive(|&byte| byte == b'\n')
        .map(<[u8]>::to_vec)
        .collect();
    let at = random.below(lines.len());
    let other = random.below(lines.len());
    match random.below(6) {
        0 => drop(lines.remove(at)),
        1 => lines.insert(at, lines[other].clone()),
        2 => lines.swap(at, other),
        3 => lines[at].insert(0, random.one_of(b" \n0")),
        4 => {
            let end = lines[at].len() - 1;
            lines[at].insert(end, random.one_of(b" \r0"));
        }
        _ => turn_one_separator(random, &mut lines[at]),
    }
    lines.concat()
}

/// Turns one space or comma of a line, if it has any, into a line feed, into two of it or into nothing.
fn turn_one_separator(random: &mut Random, line: &mut Vec<u8>) {
    let separates = |&at: &usize| line[at] == b' ' || line[at] == b',';
    let separators: Vec<usize> = (0..line.len()).filter(separates).collect();
    if separators.is_empty() {
        return;
    }
    let at = random.one_of(&separators);
    match random.below(3) {
        0 => line[at] = b'\n',
        1 => line.insert(at, line[at]),
        _ => drop(line.remove(at)),
    }
}
