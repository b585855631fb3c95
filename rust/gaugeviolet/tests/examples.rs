//! The examples of the scope document that are about reading: file A, E13 and E14.

use gaugeviolet::{read, rewrite, Refusal, FILE_BYTES};

const FILE_A: &[u8] = b"3\n2\n2\n2\n2\nS 5 4\nS 5 4\n2\n1 3 0 200 1 20 0 20\n3 1 0 200 2 15 0 15\n";

/// Holds that reading and rewriting refuse `file`, and that no lent byte changes.
fn refused(file: &[u8], number: u32, place: u32) {
    let refusal = Refusal { number, place };
    assert_eq!(read(file), Err(refusal));
    let mut lent = [0xA5; FILE_BYTES];
    assert_eq!(rewrite(file, &mut lent), Err(refusal));
    assert_eq!(lent, [0xA5; FILE_BYTES]);
}

/// File A with another first line.
fn file_a_after(first: &str) -> Vec<u8> {
    [first.as_bytes(), &FILE_A[1..]].concat()
}

#[test]
fn file_a_is_read_and_written_again() {
    assert_eq!(read(FILE_A), Ok(()));
    let mut lent = [0xA5; FILE_BYTES];
    assert_eq!(rewrite(FILE_A, &mut lent), Ok(FILE_A.len()));
    let (text, rest) = lent.split_at(FILE_A.len());
    assert_eq!(text, FILE_A);
    assert!(rest.iter().all(|&byte| byte == 0xA5));
}

#[test]
fn file_a_with_lent_bytes_one_too_few() {
    let mut lent = vec![0xA5; FILE_A.len() - 1];
    let too_few = Refusal {
        number: 6,
        place: 0,
    };
    assert_eq!(rewrite(FILE_A, &mut lent), Err(too_few));
    assert!(lent.iter().all(|&byte| byte == 0xA5));
}

#[test]
fn the_samples_are_these_examples() {
    assert_eq!(include_bytes!("../../../samples/a.line"), FILE_A);
    assert_eq!(include_bytes!("../../../samples/e13-empty.line"), b"");
    assert_eq!(
        include_bytes!("../../../samples/e13-01.line")[..],
        file_a_after("01")
    );
    assert_eq!(
        include_bytes!("../../../samples/e13-13.line")[..],
        file_a_after("13")
    );
}

#[test]
fn e13_empty_file() {
    refused(b"", 2, 1);
}

#[test]
fn e13_first_line_01() {
    refused(b"01\n", 2, 1);
    refused(&file_a_after("01"), 2, 1);
}

#[test]
fn e13_first_line_13() {
    refused(b"13\n", 3, 1);
    refused(&file_a_after("13"), 3, 1);
}

#[test]
fn e14_4097_bytes() {
    refused(&[b'1'; FILE_BYTES + 1], 1, 0);
    let mut file = FILE_A.to_vec();
    file.resize(FILE_BYTES + 1, b'\n');
    refused(&file, 1, 0);
    // One byte less, and what is wrong are the bytes after the last line.
    refused(&file[..FILE_BYTES], 2, 11);
}
