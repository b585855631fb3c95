//! The length of the library's walk beside the independent walk: both take up the same plans.

mod walked;

use gaugeviolet::on_callers_stack::walk_length;
use inputs::{dense_walk, short_walks, Corners, Random};
use walked::hold_length;

#[test]
fn lines_of_every_shape() {
    let mut corners = Corners::default();
    let mut split = 0;
    for walk in short_walks(85, 2_000).take(10_000) {
        hold_length(&walk);
        split += usize::from(walk.walked.plans > 1);
        corners.count(&walk.line, walk.walked.best.as_ref());
    }
    println!("{split} walks of more than one plan");
    assert!(split >= 4_000);
    corners.ends("lines of every shape", 500);
}

#[test]
fn long_walks() {
    let mut random = Random::new(86);
    for size in [(6, 8), (8, 9)] {
        for _ in 0..3 {
            hold_length(&dense_walk(&mut random, size, 200_000, 1_000_000));
        }
    }
}

#[test]
fn refused_as_reading_is() {
    for file in [&b""[..], b"01\n", b"13\n", &[b'1'; 4097]] {
        let refusal = gaugeviolet::read(file).expect_err("no line file");
        assert_eq!(walk_length(file), Err(refusal));
    }
}
