//! Where trains stand, each beside the others that stand at the same station at the same time: a stand
//! has a row of its own there, and the train's line goes along it.

use gaugeviolet::{Timetable, Wait};

/// A train that stands at a station for a minute or more.
pub struct Stand {
    pub train: u32,
    pub station: u32,
    pub from: u32,
    pub until: u32,
    /// The leg that ends it.
    pub leg: usize,
    /// From 0; each next one is further from the station's line, by turns below and above it.
    pub row: u32,
    /// The wait that it has, after its stop or in the yard of its origin.
    pub wait: Option<Wait>,
}

impl Stand {
    /// In the yard of its own origin a train takes no track.
    pub fn in_yard(&self) -> bool {
        self.leg == 0
    }
}

/// All stands, train by train in travel order. `apart` is how many minutes two in one row have between
/// them at least.
pub fn stands(timetable: &Timetable, apart: u32) -> Vec<Stand> {
    let waits = timetable.waits();
    let mut stands: Vec<Stand> = timetable
        .numbers()
        .flat_map(|train| stands_of(timetable, &waits, train))
        .collect();
    let mut by_start: Vec<usize> = (0..stands.len()).collect();
    by_start.sort_by_key(|&at| (stands[at].station, stands[at].from));
    for (done, &at) in by_start.iter().enumerate() {
        let stand = &stands[at];
        let there = by_start[..done].iter().map(|&before| &stands[before]);
        let beside = there
            .filter(|before| before.station == stand.station && before.until + apart >= stand.from);
        let taken: Vec<u32> = beside.map(|before| before.row).collect();
        let free = (0..).find(|row| !taken.contains(row));
        stands[at].row = free.expect("rows without end");
    }
    stands
}

fn stands_of(timetable: &Timetable, waits: &[Wait], train: u32) -> Vec<Stand> {
    let own = waits.iter().filter(|wait| wait.train == train);
    let path = timetable.line().train(train);
    let legs = timetable.legs(train);
    let stand = |leg: usize| Stand {
        train,
        station: path.station(leg),
        from: match leg {
            0 => path.earliest,
            _ => legs[leg - 1].arrival,
        },
        until: legs[leg].departure,
        leg,
        row: 0,
        wait: own
            .clone()
            .find(|wait| wait.station == path.station(leg))
            .cloned(),
    };
    let stands = (0..legs.len()).map(stand);
    stands.filter(|stand| stand.from < stand.until).collect()
}
