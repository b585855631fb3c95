//! Sections of dues, good and bad: what the independent reader says of a text beside what the writer says
//! of the record, and beside the papers word by word.

mod texts;

use independent::{read, Due, Line, Refusal};
use inputs::{damage_bytes, damage_lines, due_full_size, due_saturday, with_bookings, with_dues};
use inputs::{with_due_fault, with_one_byte_damaged, Booked, Density, DueAt, DueFault, Fields};
use inputs::{Random, Seen, Style};
use texts::{count, count_record, FIELD_TEXTS, SMALL};

/// What the papers say of two dues behind the trains of [`SMALL`] and an empty section of bookings: the
/// count of the dues stands on line 15.
fn by_the_papers(dues: [Due; 2]) -> Result<(), Refusal> {
    let mut before = 0;
    for (Due { train, minute }, place) in dues.into_iter().zip(16..) {
        let number = if !(1..=3).contains(&train) {
            3
        } else if train <= before {
            19
        } else if minute > 2879 {
            3
        } else {
            before = train;
            continue;
        };
        return Err(Refusal { number, place });
    }
    Ok(())
}

/// Every two dues of every train, and of those next to the limits.
#[test]
fn every_two_dues_by_the_papers() {
    let line = read(SMALL).expect("a line file");
    let minutes = [0, 1, 2878, 2879, 2880, 9999];
    let all: Vec<Due> = (0..=4)
        .flat_map(|train| minutes.map(|minute| Due { train, minute }))
        .collect();
    let mut seen = Seen::default();
    for &first in &all {
        for &second in &all {
            let mut due = line;
            due.due_count = 2;
            due.dues[..2].copy_from_slice(&[first, second]);
            let expected = by_the_papers([first, second]);
            assert_eq!(count_record(&mut seen, &due), expected, "{due:?}");
        }
    }
    seen.print("two dues");
    assert!(seen.inputs() == 900 && seen.times(0) == 48 && seen.times(19) >= 90);
}

/// A random line with dues, of any size, half of them with bookings.
fn due_line(random: &mut Random) -> Line {
    let (stations, trains) = (random.within(2, 12), random.within(1, 12));
    let density = random.one_of(&[Density::Sparse, Density::Dense]);
    let mut line = inputs::line(random, stations, trains, density);
    if random.below(2) == 0 {
        line = with_bookings(random, &line, &[Booked::AnyTime, Booked::LastMinute]);
    }
    with_dues(random, &line, &DueAt::ALL)
}

/// Writing a record says what reading its fields does, and changes no lent byte.
#[test]
fn a_record_and_its_text_are_refused_alike() {
    let mut random = Random::new(250);
    let mut seen = Seen::default();
    for fault in DueFault::ALL.into_iter().cycle().take(30_000) {
        let line = match random.below(20) {
            0 => due_full_size(&mut random),
            _ => due_line(&mut random),
        };
        let wrong = with_due_fault(&mut random, &line, fault);
        let _ = count_record(&mut seen, &wrong);
    }
    seen.print("wrong dues");
    assert!(seen.times(0) >= 5000 && seen.times(3) >= 5000 && seen.times(19) >= 8000);
    assert!(seen.places(19) >= 120 && seen.places(3) >= 120);
}

/// Each kind of fault gives the number that it is there for.
#[test]
fn each_fault_does_its_part() {
    let mut random = Random::new(251);
    for fault in DueFault::ALL {
        let mut seen = Seen::default();
        for _ in 0..500 {
            let line = due_line(&mut random);
            let _ = count_record(&mut seen, &with_due_fault(&mut random, &line, fault));
        }
        seen.print(&format!("{fault:?}"));
        let parts: &[(u32, usize)] = match fault {
            DueFault::Exchanged => &[(19, 200)],
            DueFault::Doubled => &[(19, 100), (3, 150)],
            DueFault::Train => &[(3, 200), (19, 50)],
            DueFault::Minute => &[(3, 150)],
            DueFault::OrderBeforeMinute => &[(19, 250), (3, 50)],
            DueFault::Two => &[(3, 150), (19, 150)],
        };
        for &(number, least) in parts {
            assert!(seen.times(number) >= least, "{fault:?} and {number}");
        }
    }
}

/// Each field of the section at and past its limits, and in forms that are none.
#[test]
fn each_field_of_the_section_altered() {
    let mut random = Random::new(252);
    let mut seen = Seen::default();
    for at in 0..100 {
        let line = match at {
            0 => due_full_size(&mut random),
            _ => due_line(&mut random),
        };
        let fields = Fields::of(&line);
        let counts = 2 * line.station_count + line.train_count + line.booking_count;
        let first = usize::from(counts) + 3;
        for place in fields.places().into_iter().filter(|place| place.0 >= first) {
            for text in FIELD_TEXTS {
                let _ = count(&mut seen, &fields.text_with(place, text));
            }
        }
    }
    seen.print("altered fields");
    assert!(seen.times(0) >= 2000 && seen.times(2) >= 15_000);
    assert!(seen.times(3) >= 6000 && seen.times(19) >= 1000);
}

#[test]
fn damaged_and_cut_short() {
    let mut seen = Seen::default();
    for section in [&b"0\n2\n1 30\n3 0\n"[..], b"1\n2 3 7\n1\n2 2879\n"] {
        for damaged in with_one_byte_damaged(&[SMALL, section].concat()) {
            let _ = count(&mut seen, &damaged);
        }
    }
    let mut random = Random::new(253);
    for _ in 0..10_000 {
        let text = Fields::of(&due_line(&mut random)).text();
        let _ = count(&mut seen, &damage_lines(&mut random, &text));
        let mut bytes = text.clone();
        damage_bytes(&mut random, &mut bytes, 1);
        let _ = count(&mut seen, &bytes);
        let _ = count(&mut seen, &[&text[..], b"1\n"].concat());
    }
    let mut line = due_full_size(&mut random);
    let whole = Fields::of(&line).text();
    line.due_count = 0;
    let mut ends = vec![Fields::of(&line).text().len()];
    line.booking_count = 0;
    ends.push(Fields::of(&line).text().len());
    for end in 0..whole.len() {
        let answer = count(&mut seen, &whole[..end]);
        assert_eq!(answer.is_ok(), ends.contains(&end));
    }
    seen.print("damaged and cut short");
    assert!(seen.times(0) >= 2000 && seen.times(2) >= 50_000);
    assert!(seen.times(3) >= 1000 && seen.times(19) >= 200);
}

/// Saturdays with dues are written back byte for byte.
#[test]
fn saturdays_round_trip() {
    let mut random = Random::new(254);
    let mut seen = Seen::default();
    for style in Style::ALL.into_iter().cycle().take(2000) {
        let line = due_saturday(&mut random, style);
        assert_eq!(count(&mut seen, &Fields::of(&line).text()), Ok(line));
    }
    assert_eq!(seen.times(0), 2000);
}
