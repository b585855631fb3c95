//! Holds the library's check to the independent one, pair by pair, and counts.

use independent::rules::Minutes;
use independent::Line;
use inputs::{damage_bytes, damage_lines, damaged, shown, sizes};
use inputs::{Damage, Pair, Planned, Random, Seen, Traffic};

/// What has been compared so far.
#[derive(Default)]
pub struct Compared {
    pub seen: Seen,
}

impl Compared {
    /// Compares the check of one pair.
    pub fn pair(&mut self, file: &[u8], timetable: &[u8]) {
        let expected = independent::check(file, timetable);
        let expected = expected.map_err(|refusal| (refusal.number, refusal.place));
        let answer = gaugeviolet::check(file, timetable);
        let answer = answer.map_err(|refusal| (refusal.number, refusal.place));
        assert!(
            answer == expected,
            "{answer:?} and not {expected:?} for {} with {}",
            shown(file),
            shown(timetable)
        );
        self.seen.input(expected);
    }

    /// Compares the check of a line with its minutes, and the lists and the total that follow from them.
    pub fn planned(&mut self, planned: &Planned) {
        let Pair { file, timetable } = planned.pair();
        self.pair(&file, &timetable);
    }

    /// The same of a row of minutes for each train.
    pub fn rows(&mut self, line: &Line, rows: &[Vec<u16>]) {
        let minutes = Minutes::of_rows(line, rows);
        let line = *line;
        self.planned(&Planned { line, minutes });
    }

    /// Compares every damage, so many times, to a line and its minutes.
    pub fn every_damage(&mut self, random: &mut Random, planned: &Planned, times: usize) {
        for _ in 0..times {
            for damage in Damage::ALL {
                let Pair { file, timetable } = damaged(random, planned, damage);
                self.pair(&file, &timetable);
            }
        }
    }

    /// Compares every damage to lines of every size. The greatest size is there often enough to meet its
    /// last lists and lines.
    pub fn every_damage_to_every_size(
        &mut self,
        random: &mut Random,
        drawn: impl Fn(&mut Random, u16, u16, Traffic) -> Planned,
    ) {
        for (stations, trains) in sizes().chain([(12, 12); 60]) {
            let traffic = random.one_of(&[Traffic::Mixed, Traffic::Full]);
            let planned = drawn(random, stations, trains, traffic);
            self.every_damage(random, &planned, 50);
        }
    }

    /// Compares a good timetable with its line file damaged.
    pub fn damaged_file(&mut self, random: &mut Random, Pair { file, timetable }: &Pair) {
        for _ in 0..50 {
            let times = random.one_of(&[1, 1, 2, 5]);
            let mut bytes = file.clone();
            damage_bytes(random, &mut bytes, times);
            self.pair(&bytes, timetable);
            self.pair(&damage_lines(random, file), timetable);
        }
    }

    /// Compares a pair with its timetable and then its file cut short at every byte.
    pub fn cut_short(&mut self, Pair { file, timetable }: &Pair) {
        // Lent as a part of the whole text: a reader that looks past the end finds a good one.
        for end in 0..timetable.len() {
            self.pair(file, &timetable[..end]);
            self.pair(file, &[&timetable[..end], b"\n"].concat());
        }
        for end in 0..file.len() {
            self.pair(&file[..end], timetable);
        }
    }
}
