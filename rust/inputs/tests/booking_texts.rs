//! Sections of bookings, good and bad: what the independent reader says of a text beside what the writer
//! says of the record, and beside the papers word by word.

mod texts;

use independent::{read, write, Booking, Line, Refusal};
use inputs::{booked_full_size, booked_saturday, damage_bytes, damage_lines, misbooked};
use inputs::{with_bookings, with_one_byte_damaged, Booked, Density, Fields, Misbooking};
use inputs::{Random, Seen, Style};
use texts::{count, count_record, FIELD_TEXTS, SMALL};

/// What the papers say of two bookings behind the trains of [`SMALL`], whose count stands on line 14.
fn by_the_papers(bookings: [Booking; 2]) -> Result<(), Refusal> {
    let middle: [&[u16]; 3] = [&[2, 3], &[3], &[]];
    let mut before = (0, 0);
    for (booking, place) in bookings.into_iter().zip(15..) {
        let Booking {
            train,
            station,
            minute,
        } = booking;
        let number = if !(1..=3).contains(&train) || !(1..=4).contains(&station) {
            3
        } else if !middle[usize::from(train) - 1].contains(&station) || (train, station) <= before {
            19
        } else if minute > 2879 {
            3
        } else {
            before = (train, station);
            continue;
        };
        return Err(Refusal { number, place });
    }
    Ok(())
}

/// Every two bookings of every train and station, and of those next to the limits.
#[test]
fn every_two_bookings_by_the_papers() {
    let line = read(SMALL).expect("a line file");
    let mut all = Vec::new();
    for (train, station) in (0..=4).flat_map(|train| (0..=5).map(move |it| (train, it))) {
        all.extend([0, 2879, 2880].map(|minute| Booking {
            train,
            station,
            minute,
        }));
    }
    let mut seen = Seen::default();
    for &first in &all {
        for &second in &all {
            let mut booked = line;
            booked.booking_count = 2;
            booked.bookings[..2].copy_from_slice(&[first, second]);
            let expected = by_the_papers([first, second]);
            assert_eq!(count_record(&mut seen, &booked), expected, "{booked:?}");
        }
    }
    seen.print("two bookings");
    assert!(seen.inputs() == 8100 && seen.times(0) >= 12 && seen.times(19) >= 1000);
}

/// A random line with bookings, of any size.
fn booked_line(random: &mut Random) -> Line {
    loop {
        let (stations, trains) = (random.within(3, 12), random.within(1, 12));
        let density = random.one_of(&[Density::Sparse, Density::Dense]);
        let line = inputs::line(random, stations, trains, density);
        let booked = with_bookings(random, &line, &[Booked::AnyTime, Booked::LastMinute]);
        if booked.booking_count > 0 {
            return booked;
        }
    }
}

/// Writing a record says what reading its fields does, and changes no lent byte.
#[test]
fn a_record_and_its_text_are_refused_alike() {
    let mut random = Random::new(95);
    let mut seen = Seen::default();
    for misbooking in Misbooking::ALL.into_iter().cycle().take(45_000) {
        let line = match random.below(20) {
            0 => booked_full_size(&mut random),
            _ => booked_line(&mut random),
        };
        let wrong = misbooked(&mut random, &line, misbooking);
        let _ = count_record(&mut seen, &wrong);
    }
    seen.print("wrong bookings");
    assert!(seen.times(0) >= 5000 && seen.times(3) >= 5000 && seen.times(19) >= 15_000);
    assert!(seen.places(19) >= 120 && seen.places(3) >= 120);
}

/// Each kind of fault gives the number that it is there for.
#[test]
fn each_misbooking_does_its_part() {
    let mut random = Random::new(96);
    for misbooking in Misbooking::ALL {
        let mut seen = Seen::default();
        for _ in 0..500 {
            let line = booked_line(&mut random);
            let wrong = misbooked(&mut random, &line, misbooking);
            let _ = count(&mut seen, &Fields::of(&wrong).text());
        }
        seen.print(&format!("{misbooking:?}"));
        let (number, least) = match misbooking {
            Misbooking::Exchanged | Misbooking::OffThePath => (19, 150),
            Misbooking::Doubled | Misbooking::Origin | Misbooking::Destination => (19, 500),
            Misbooking::Two => (19, 300),
            Misbooking::Train | Misbooking::Station => (3, 200),
            Misbooking::Minute => (3, 120),
        };
        assert!(seen.times(number) >= least, "{misbooking:?}");
    }
}

/// Each field of the section at and past its limits, and in forms that are none.
#[test]
fn each_field_of_the_section_altered() {
    let mut random = Random::new(97);
    let mut seen = Seen::default();
    for at in 0..60 {
        let line = match at {
            0 => booked_full_size(&mut random),
            _ => booked_line(&mut random),
        };
        let fields = Fields::of(&line);
        let first = usize::from(2 * line.station_count + line.train_count) + 2;
        for place in fields.places().into_iter().filter(|place| place.0 >= first) {
            for text in FIELD_TEXTS {
                let _ = count(&mut seen, &fields.text_with(place, text));
            }
        }
    }
    seen.print("altered fields");
    assert!(seen.times(0) >= 2000 && seen.times(2) >= 30_000);
    assert!(seen.times(3) >= 10_000 && seen.times(19) >= 5000);
}

#[test]
fn damaged_and_cut_short() {
    let mut seen = Seen::default();
    for damaged in with_one_byte_damaged(&[SMALL, b"2\n1 2 30\n2 3 0\n"].concat()) {
        let _ = count(&mut seen, &damaged);
    }
    let mut random = Random::new(98);
    for _ in 0..10_000 {
        let text = Fields::of(&booked_line(&mut random)).text();
        let _ = count(&mut seen, &damage_lines(&mut random, &text));
        let mut bytes = text.clone();
        damage_bytes(&mut random, &mut bytes, 1);
        let _ = count(&mut seen, &bytes);
        let _ = count(&mut seen, &[&text[..], b"1\n"].concat());
    }
    let whole = Fields::of(&booked_full_size(&mut random)).text();
    let with_no_section = independent::read(&whole).map(|line| Line {
        booking_count: 0,
        ..line
    });
    let front = write(&with_no_section.expect("a line file")).expect("within the limits");
    for end in 0..whole.len() {
        let answer = count(&mut seen, &whole[..end]);
        assert_eq!(answer.is_ok(), end == front.len());
    }
    seen.print("damaged and cut short");
    assert!(seen.times(0) >= 2000 && seen.times(2) >= 50_000);
    assert!(seen.times(3) >= 1000 && seen.times(19) >= 200);
}

/// Saturdays with and without bookings are written back byte for byte.
#[test]
fn saturdays_round_trip() {
    let mut random = Random::new(99);
    let mut seen = Seen::default();
    for style in Style::ALL.into_iter().cycle().take(2000) {
        let line = booked_saturday(&mut random, style);
        assert_eq!(count(&mut seen, &Fields::of(&line).text()), Ok(line));
    }
    assert_eq!(seen.times(0), 2000);
}
