//! The check on the examples of the scope document: the samples pass, and what breaks a rule is
//! refused with its number and place.

use std::path::{Path, PathBuf};

use gaugeviolet::{check, Refusal, TIMETABLE_BYTES};
use independent::rules::Minutes;
use independent::timetable;

macro_rules! sample {
    ($name:literal) => {
        include_bytes!(concat!("../../../samples/", $name)) as &[u8]
    };
}

const FILE_A: &[u8] = sample!("a.line");
const TIMETABLE_A: &[u8] = b"2\n0 20 20 40\n0 15 24 39\n2\n2 1 2\n2 2 1\n18\n";

fn refused(number: u32, place: u32) -> Result<(), Refusal> {
    Err(Refusal { number, place })
}

/// What the check says of these minutes with the lists and the total that follow from them.
fn checked(file: &[u8], rows: &[&[u16]]) -> Result<(), Refusal> {
    let line = independent::read(file).expect("a line file");
    let rows: Vec<Vec<u16>> = rows.iter().map(|row| row.to_vec()).collect();
    check(
        file,
        &timetable::write(&line, &Minutes::of_rows(&line, &rows)),
    )
}

/// `text` with its line `place` (from 1) replaced.
fn with(text: &[u8], place: usize, replaced: &str) -> Vec<u8> {
    let mut lines: Vec<&[u8]> = text.split_inclusive(|&byte| byte == b'\n').collect();
    let replaced = format!("{replaced}\n");
    lines[place - 1] = replaced.as_bytes();
    lines.concat()
}

/// What the check says of the timetable of file A with one line replaced.
fn a_with(place: usize, replaced: &str) -> Result<(), Refusal> {
    check(FILE_A, &with(TIMETABLE_A, place, replaced))
}

#[test]
fn each_sample_passes_with_its_line_file() {
    let folder = Path::new(env!("CARGO_MANIFEST_DIR")).join("../../samples");
    let files = std::fs::read_dir(folder).expect("the samples");
    let timetables: Vec<PathBuf> = files
        .map(|file| file.expect("a sample").path())
        .filter(|path| path.extension().is_some_and(|end| end == "timetable"))
        .collect();
    for path in &timetables {
        let timetable = std::fs::read(path).expect("a timetable");
        let file = std::fs::read(path.with_extension("line")).expect("its line file");
        assert_eq!(check(&file, &timetable), Ok(()), "{}", path.display());
    }
    assert!(timetables.len() >= 12, "only {} samples", timetables.len());
}

#[test]
fn e1_file_a() {
    assert_eq!(sample!("a.timetable"), TIMETABLE_A);
    assert_eq!(check(FILE_A, TIMETABLE_A), Ok(()));
    let second: &[u16] = &[0, 15, 24, 39];
    let rows = |first, second| checked(FILE_A, &[first, second]);
    assert_eq!(rows(&[0, 20, 20, 40], second), Ok(()));
    // Train 2 first on segment 1 is lawful too, and costs more.
    assert_eq!(rows(&[34, 54, 54, 74], &[0, 15, 15, 30]), Ok(()));
    assert_eq!(rows(&[33, 53, 53, 73], &[0, 15, 15, 30]), refused(14, 1));
    assert_eq!(rows(&[0, 20, 20, 41], second), refused(11, 1));
    assert_eq!(rows(&[0, 20, 20, 40], &[0, 14, 24, 39]), refused(11, 2));
    assert_eq!(rows(&[0, 20, 19, 39], second), refused(12, 1));
    assert_eq!(rows(&[0, 20, 181, 201], second), refused(13, 1));
    assert_eq!(rows(&[0, 20, 20, 40], &[0, 15, 23, 38]), refused(14, 1));
    assert_eq!(rows(&[0, 20, 20, 40], &[2, 17, 24, 39]), refused(14, 2));
}

#[test]
fn e1_earliest_a_minute_later() {
    let later = with(FILE_A, 9, "1 3 1 200 1 20 0 20");
    assert_eq!(check(&later, TIMETABLE_A), refused(10, 1));
    let later = with(FILE_A, 10, "3 1 1 200 2 15 0 15");
    assert_eq!(check(&later, TIMETABLE_A), refused(10, 2));
}

#[test]
fn e1_text_lists_and_total() {
    let mut long = TIMETABLE_A.to_vec();
    long.resize(TIMETABLE_BYTES + 1, b'\n');
    assert_eq!(check(FILE_A, &long), refused(7, 0));
    assert_eq!(check(FILE_A, &long[1..]), refused(8, 1));
    assert_eq!(check(FILE_A, &long[..TIMETABLE_BYTES]), refused(8, 8));
    assert_eq!(check(FILE_A, b""), refused(8, 1));
    assert_eq!(a_with(3, "0 15 24 039"), refused(8, 3));
    assert_eq!(a_with(3, "0 15 24"), refused(8, 3));
    assert_eq!(a_with(1, "3"), refused(9, 1));
    assert_eq!(a_with(3, "0 15 24 2880"), refused(9, 3));
    assert_eq!(a_with(4, "4"), refused(9, 4));
    assert_eq!(a_with(5, "3 1 2 2"), refused(9, 5));
    assert_eq!(a_with(6, "2 2 3"), refused(9, 6));
    assert_eq!(a_with(5, "2 2 1"), refused(16, 1));
    assert_eq!(a_with(6, "2 1 2"), refused(16, 2));
    assert_eq!(a_with(6, "2 2 2"), refused(16, 2));
    assert_eq!(a_with(6, "1 2"), refused(16, 2));
    assert_eq!(a_with(6, "0"), refused(16, 2));
    assert_eq!(a_with(7, "17"), refused(17, 0));
    assert_eq!(a_with(7, "19"), refused(17, 0));
    assert_eq!(a_with(7, "0"), refused(17, 0));
}

#[test]
fn the_file_comes_before_the_timetable() {
    let long = [b'1'; TIMETABLE_BYTES + 1];
    assert_eq!(check(&long, &long), refused(1, 0));
    assert_eq!(check(sample!("e13-empty.line"), &long), refused(2, 1));
    assert_eq!(check(sample!("e13-01.line"), TIMETABLE_A), refused(2, 1));
    assert_eq!(check(sample!("e13-13.line"), TIMETABLE_A), refused(3, 1));
    let same = with(FILE_A, 9, "1 1 0 200 1 20 0 20");
    assert_eq!(check(&same, &long), refused(4, 9));
}

#[test]
fn e2_they_cannot_meet_at_one_track() {
    assert_eq!(check(sample!("e2.line"), TIMETABLE_A), refused(15, 2));
}

#[test]
fn e3_to_e6_latest() {
    assert_eq!(check(sample!("e3.line"), TIMETABLE_A), Ok(()));
    assert_eq!(check(sample!("e4.line"), TIMETABLE_A), refused(13, 2));
    let e2 = sample!("e2.timetable");
    assert_eq!(check(sample!("e5.line"), e2), refused(13, 1));
    assert_eq!(check(sample!("e6.line"), e2), Ok(()));
}

#[test]
fn e7_to_e9_gaps() {
    let e7 = |first: &[u16], second: &[u16]| checked(sample!("e7.line"), &[first, second]);
    assert_eq!(e7(&[3, 13], &[0, 4]), Ok(()));
    assert_eq!(e7(&[2, 12], &[0, 4]), refused(14, 1));
    // The fast train behind the slow one keeps the gap at departure only.
    assert_eq!(e7(&[0, 10], &[3, 7]), refused(14, 1));
    assert_eq!(e7(&[0, 10], &[8, 12]), refused(14, 1));
    assert_eq!(e7(&[0, 10], &[9, 13]), Ok(()));
    // Both orders of E8 are lawful.
    let e8 = |first: &[u16], second: &[u16]| checked(sample!("e8.line"), &[first, second]);
    assert_eq!(e8(&[0, 10], &[9, 13]), Ok(()));
    assert_eq!(e8(&[3, 13], &[0, 4]), Ok(()));
    let e9 = |first: &[u16], second: &[u16]| checked(sample!("e9.line"), &[first, second]);
    assert_eq!(e9(&[7, 17], &[0, 4]), Ok(()));
    assert_eq!(e9(&[6, 16], &[0, 4]), refused(14, 1));
    assert_eq!(e9(&[3, 13], &[0, 4]), refused(14, 1));
}

#[test]
fn e10_the_last_minute_counts() {
    let e10 = |first: &[u16], second: &[u16]| checked(sample!("e10.line"), &[first, second]);
    assert_eq!(e10(&[0, 10, 20, 30], &[1, 21, 21, 31]), Ok(()));
    // At minute 20 train 1 still stands there.
    let passing = [0, 20, 20, 30];
    assert_eq!(e10(&[0, 10, 20, 30], &passing), refused(15, 2));
    // It may not leave earlier.
    assert_eq!(e10(&[0, 10, 19, 29], &passing), refused(12, 1));
}

#[test]
fn e11_no_trains() {
    let file = sample!("e11.line");
    assert_eq!(check(file, b"0\n1\n0\n0\n"), Ok(()));
    assert_eq!(check(file, b"1\n1\n0\n0\n"), refused(9, 1));
    assert_eq!(check(file, b"0\n2\n0\n0\n"), refused(9, 2));
    assert_eq!(check(file, b"0\n1\n1 1\n0\n"), refused(9, 3));
    assert_eq!(check(file, b"0\n1\n1\n0\n"), refused(8, 3));
    assert_eq!(check(file, b"0\n1\n0\n1\n"), refused(17, 0));
    assert_eq!(check(file, b"0\n1\n0\n"), refused(8, 4));
}

#[test]
fn e12_one_train() {
    let timetable = sample!("e12-10.timetable");
    assert_eq!(check(sample!("e12-10.line"), timetable), Ok(()));
    assert_eq!(check(sample!("e12-9.line"), timetable), refused(13, 1));
    assert_eq!(checked(sample!("e12-10.line"), &[&[1, 11]]), refused(13, 1));
    assert_eq!(checked(sample!("e12-10.line"), &[&[0, 9]]), refused(11, 1));
}
