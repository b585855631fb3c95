//! Stop times, good and bad: what the independent reader says of a text beside what the writer makes of the
//! minutes, and the numbers that each fault brings.

use std::collections::BTreeMap;

use independent::stop_times::{read, write};
use independent::{Line, Refusal};
use inputs::{
    any_minutes, full_size, shown, sizes, with_every_field_altered, with_one_byte_damaged,
};
use inputs::{with_stop_times_fault, Density, Random, Seen, StopTimesFault};

/// Counts what reading says, and holds that what is accepted is written back byte for byte.
fn count(seen: &mut Seen, line: &Line, text: &[u8]) -> Result<(), Refusal> {
    let answer = read(line, text);
    if let Ok(minutes) = &answer {
        assert_eq!(write(line, minutes), text, "{}", shown(text));
    }
    let answer = answer.map(|_| ());
    seen.input(answer.map_err(|refusal| (refusal.number, refusal.place)));
    answer
}

#[test]
fn minutes_of_every_size_read_back() {
    let mut random = Random::new(400);
    for (stations, trains) in sizes() {
        for density in [Density::Sparse, Density::Dense] {
            let line = inputs::line(&mut random, stations, trains, density);
            let minutes = any_minutes(&mut random, &line);
            assert_eq!(read(&line, &write(&line, &minutes)), Ok(minutes));
        }
    }
}

/// Each fault brings the numbers that it is to bring, and no other.
#[test]
fn the_numbers_of_each_fault() {
    let expected: [(StopTimesFault, &[u32]); 15] = [
        (StopTimesFault::Nothing, &[0]),
        (StopTimesFault::OtherTime, &[0, 20]),
        (StopTimesFault::BothTimes, &[0]),
        (StopTimesFault::TimeText, &[0, 20]),
        (StopTimesFault::NumberText, &[0, 20, 21]),
        (StopTimesFault::OtherNumber, &[0, 21]),
        (StopTimesFault::OtherEnd, &[20, 21]),
        (StopTimesFault::NumberAndTime, &[0, 20, 21]),
        (StopTimesFault::Two, &[0, 20, 21]),
        (StopTimesFault::Header, &[20]),
        (StopTimesFault::LineEnd, &[20]),
        (StopTimesFault::Lines, &[0, 20, 21]),
        (StopTimesFault::Bytes, &[0, 20, 21]),
        (StopTimesFault::CutShort, &[20]),
        (StopTimesFault::After, &[20]),
    ];
    let mut random = Random::new(401);
    let mut seen = Seen::default();
    let mut brought: BTreeMap<StopTimesFault, BTreeMap<u32, usize>> = BTreeMap::new();
    let mut lines: Vec<Line> = sizes()
        .filter(|&(_, trains)| trains > 0)
        .map(|(stations, trains)| inputs::line(&mut random, stations, trains, Density::Dense))
        .collect();
    lines.extend((0..20).map(|_| full_size(&mut random)));
    for line in lines {
        let text = write(&line, &any_minutes(&mut random, &line));
        for fault in StopTimesFault::ALL.into_iter().cycle().take(15 * 30) {
            let wrong = with_stop_times_fault(&mut random, &text, fault);
            let number = count(&mut seen, &line, &wrong)
                .err()
                .map_or(0, |it| it.number);
            *brought.entry(fault).or_default().entry(number).or_default() += 1;
        }
    }
    seen.print("faults of stop times");
    println!("{brought:?}");
    for (fault, numbers) in expected {
        let brought = &brought[&fault];
        assert!(brought.keys().eq(numbers), "{fault:?} brought {brought:?}");
        assert!(brought.values().all(|&times| times >= 20), "{fault:?}");
    }
    assert!(seen.places(20) >= 145 && seen.places(21) >= 140);
}

/// Line 1 is the header: it is never refused by 21.
#[test]
fn every_field_and_every_byte() {
    let mut random = Random::new(402);
    let line = inputs::line(&mut random, 4, 3, Density::Sparse);
    let text = write(&line, &any_minutes(&mut random, &line));
    let mut seen = Seen::default();
    for wrong in with_every_field_altered(&text) {
        let _ = count(&mut seen, &line, &wrong);
    }
    for wrong in with_one_byte_damaged(&text) {
        let answer = count(&mut seen, &line, &wrong);
        assert_ne!(
            answer,
            Err(Refusal {
                number: 21,
                place: 1
            })
        );
    }
    seen.print("every field and every byte");
    assert!(seen.times(0) >= 500 && seen.times(20) >= 100_000 && seen.times(21) >= 500);
}
