//! What the independent check says of planned lines after every kind of damage: each number with
//! many places. A comparison of two checks over these inputs has then seen them all.

use inputs::{booked_planned, booked_small_planned, damaged, planned, sizes, small_planned};
use inputs::{due_planned, due_small_planned};
use inputs::{Damage, Planned, Random, Seen, Traffic};

/// Counts what the check says of the planned line after this damage.
fn count(seen: &mut Seen, random: &mut Random, planned: &Planned, damage: Damage) {
    let pair = damaged(random, planned, damage);
    let answer = independent::check(&pair.file, &pair.timetable);
    seen.input(answer.map_err(|refusal| (refusal.number, refusal.place)));
}

#[test]
fn every_number_is_seen_with_many_places() {
    let mut random = Random::new(30);
    let mut seen = Seen::default();
    // Every size, and the greatest one often enough to meet its last lists and lines.
    for (stations, trains) in sizes().chain([(12, 12); 60]) {
        let traffic = random.one_of(&[Traffic::Mixed, Traffic::Full]);
        let planned = planned(&mut random, stations, trains, traffic);
        for _ in 0..50 {
            for damage in Damage::ALL {
                count(&mut seen, &mut random, &planned, damage);
            }
        }
    }
    seen.print("planned lines");
    // All trains, segments, middle stations, lists and lines that there can be. Line 38 is past the
    // last one; line 37 is the total, which has no range.
    let all_places = [
        (7, 1),
        (8, 38),
        (9, 36),
        (10, 12),
        (11, 12),
        (12, 12),
        (13, 12),
        (14, 11),
        (15, 10),
        (16, 22),
        (17, 1),
    ];
    for (number, places) in all_places {
        assert_eq!(seen.places(number), places, "places of number {number}");
        assert!(seen.times(number) >= 1000, "number {number}");
    }
    for number in [0, 2, 3] {
        assert!(seen.times(number) >= 1000, "number {number}");
    }
    assert!(seen.times(4) > 0);
}

/// The same with bookings: 18 with every train, and the other numbers as before.
#[test]
fn every_number_is_seen_with_bookings() {
    let mut random = Random::new(34);
    let mut seen = Seen::default();
    for (stations, trains) in sizes().chain([(12, 12); 30]) {
        let traffic = random.one_of(&[Traffic::Mixed, Traffic::Full]);
        let planned = booked_planned(&mut random, stations, trains, traffic);
        for _ in 0..25 {
            for damage in Damage::ALL {
                count(&mut seen, &mut random, &planned, damage);
            }
        }
    }
    seen.print("planned lines with bookings");
    for (number, places) in [(10, 12), (11, 12), (12, 12), (13, 12), (18, 12)] {
        assert_eq!(seen.places(number), places, "places of number {number}");
    }
    for number in (7..=17).chain([0, 2, 3, 18, 19]) {
        assert!(seen.times(number) >= 150, "number {number}");
    }
}

/// The same with dues, half of them with bookings.
#[test]
fn every_number_is_seen_with_dues() {
    let mut random = Random::new(36);
    let mut seen = Seen::default();
    for (stations, trains) in sizes().chain([(12, 12); 30]) {
        let traffic = random.one_of(&[Traffic::Mixed, Traffic::Full]);
        let planned = due_planned(&mut random, stations, trains, traffic);
        for _ in 0..25 {
            for damage in Damage::ALL {
                count(&mut seen, &mut random, &planned, damage);
            }
        }
    }
    seen.print("planned lines with dues");
    for (number, places) in [(10, 12), (11, 12), (12, 12), (13, 12), (18, 12)] {
        assert_eq!(seen.places(number), places, "places of number {number}");
    }
    for number in (7..=17).chain([0, 2, 3, 18, 19]) {
        assert!(seen.times(number) >= 150, "number {number}");
    }
}

/// Counts what the check says of 1,000 lines as `draw` draws them after every kind of damage.
fn count_damaged(seed: u64, draw: fn(&mut Random) -> Planned) -> Seen {
    let mut random = Random::new(seed);
    let mut seen = Seen::default();
    for _ in 0..1000 {
        let planned = draw(&mut random);
        for damage in Damage::ALL {
            for _ in 0..3 {
                count(&mut seen, &mut random, &planned, damage);
            }
        }
    }
    seen
}

#[test]
fn tight_small_lines() {
    let seen = count_damaged(31, small_planned);
    seen.print("small lines");
    for number in 7..=17 {
        assert!(seen.times(number) >= 20, "number {number}");
    }
}

#[test]
fn tight_small_lines_with_bookings() {
    let seen = count_damaged(35, booked_small_planned);
    seen.print("small lines with bookings");
    for number in 7..=19 {
        assert!(seen.times(number) >= 20, "number {number}");
    }
}

#[test]
fn tight_small_lines_with_dues() {
    let seen = count_damaged(37, due_small_planned);
    seen.print("small lines with dues");
    for number in 7..=19 {
        assert!(seen.times(number) >= 20, "number {number}");
    }
}

/// Each kind of damage gives the numbers that it is there for.
#[test]
fn each_damage_does_its_part() {
    let mut random = Random::new(32);
    let lines: Vec<Planned> = (0..60)
        .map(|at| planned(&mut random, 2 + at % 11, 3 + at % 10, Traffic::Mixed))
        .collect();
    let parts: [(Damage, &[u32]); 14] = [
        (Damage::Nothing, &[0]),
        (Damage::Minute, &[9, 11]),
        (Damage::Leg, &[0, 10, 11, 12, 13, 14, 15]),
        (Damage::Train, &[0, 10, 12, 13, 14, 15]),
        (Damage::List, &[9, 16]),
        (Damage::Count, &[8, 9]),
        (Damage::Total, &[8, 17]),
        (Damage::Field, &[8, 9, 11]),
        (Damage::LineField, &[0, 2, 3, 9, 10, 11, 12, 13, 14, 15, 17]),
        (Damage::Demand, &[0, 10, 12, 13, 14, 15]),
        (Damage::Bytes, &[2, 8, 9, 11, 17]),
        (Damage::Lines, &[8, 9]),
        (Damage::CutShort, &[8]),
        (Damage::Length, &[7, 8]),
    ];
    for (damage, numbers) in parts {
        let mut seen = Seen::default();
        for planned in &lines {
            for _ in 0..40 {
                count(&mut seen, &mut random, planned, damage);
            }
        }
        seen.print(&format!("{damage:?}"));
        for &number in numbers {
            assert!(seen.times(number) >= 5, "{damage:?} and number {number}");
        }
    }
}

/// The timetable of every length cut at every byte, also as part of the whole.
#[test]
fn cut_short_at_every_byte() {
    let mut random = Random::new(33);
    let mut seen = Seen::default();
    for (stations, trains) in [(2, 0), (2, 1), (3, 2), (12, 12)] {
        let pair = planned(&mut random, stations, trains, Traffic::Mixed).pair();
        for end in 0..pair.timetable.len() {
            let answer = independent::check(&pair.file, &pair.timetable[..end]);
            let refusal = answer.expect_err("a part is no timetable");
            assert_eq!(refusal.number, 8);
            seen.input(Err((refusal.number, refusal.place)));
        }
    }
    seen.print("cut short");
    assert!(seen.places(8) >= 25);
}
