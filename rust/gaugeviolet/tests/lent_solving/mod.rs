//! Lends solving every number of bytes, and files that it refuses.

use gaugeviolet::check;
use gaugeviolet::on_callers_stack::{solve, walk_length};
use inputs::LineWalk;

use crate::solved::solved;

/// Lends no byte, one, one too few, and just enough. Returns how many of the files have a timetable, and how
/// many have none.
pub fn lend_every_number(walks: impl Iterator<Item = LineWalk>) -> (usize, usize) {
    let (mut texts, mut without) = (0, 0);
    for walk in walks {
        let file = independent::write(&walk.line).expect("a line within the limits");
        let Ok(text) = solved(&file) else {
            let refusal = solve(&file, &mut []).unwrap_err();
            assert_eq!((refusal.number, refusal.place), (5, 0));
            without += 1;
            continue;
        };
        for few in [0, 1, text.len() - 1] {
            let mut lent = vec![0xa5; few];
            let refusal = solve(&file, &mut lent).unwrap_err();
            assert_eq!((refusal.number, refusal.place), (6, 0));
            assert!(lent.iter().all(|&byte| byte == 0xa5));
        }
        let mut lent = vec![0xa5; text.len()];
        assert_eq!(solve(&file, &mut lent), Ok(text.len()));
        assert_eq!(lent, text);
        texts += 1;
    }
    println!("{texts} with a timetable, {without} without");
    (texts, without)
}

/// Holds that every function refuses a line of one train with these sections past the third alike.
pub fn refused_by_all(sections: &str) {
    let front = "3\n1\n1\n1\n2\nS 1 1\nS 1 1\n1\n1 3 0 99 1 5 0 5\n";
    let file = format!("{front}{sections}").into_bytes();
    let refusal = gaugeviolet::read(&file).expect_err("no line file");
    let mut lent = [0xa5; 64];
    assert_eq!(solve(&file, &mut lent), Err(refusal));
    assert!(lent.iter().all(|&byte| byte == 0xa5));
    assert_eq!(walk_length(&file), Err(refusal));
    assert_eq!(check(&file, b""), Err(refusal));
}
