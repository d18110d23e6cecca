//! The job, the same for every store and made once from a seed: a plan of 1,000 records, in each of which stands how
//! many doors a master key opens; edits that move doors from one master to another; and, after each round of edits, a
//! chart. In a round every record is in one edit: a chart by Reads leaves a settled lock on each record, which only a
//! purge takes back, and that only after the record is written anew.

use model::generate::Random;

pub const SEED: u64 = 1;

pub const RECORDS: usize = 1000;

/// Edits between two charts.
pub const EDITS: usize = RECORDS / 2;

/// Moves doors from the first record to the second.
pub struct Edit {
    pub records: [u64; 2],
    doors: u64,
    /// What it writes, for a store that has to be told before it has read.
    pub written: [u64; 2],
}

impl Edit {
    /// What the edit writes if it has read this.
    pub fn moved(&self, [from, to]: [u64; 2]) -> [u64; 2] {
        [from.wrapping_sub(self.doors), to.wrapping_add(self.doors)]
    }
}

pub struct Round {
    pub edits: Vec<Edit>,
    /// The values after these, which the charts have to show.
    pub chart: Vec<u64>,
}

pub struct Job {
    pub start: Vec<u64>,
    pub rounds: Vec<Round>,
}

impl Job {
    pub fn new(rounds: usize) -> Job {
        let mut random = Random::new(SEED);
        let start: Vec<u64> = (0..RECORDS).map(|_| random.next()).collect();
        let mut values = start.clone();
        let rounds = (0..rounds).map(|_| Round::new(&mut random, &mut values)).collect();
        Job { start, rounds }
    }
}

impl Round {
    fn new(random: &mut Random, values: &mut [u64]) -> Round {
        let mut edits = Vec::with_capacity(EDITS);
        for pair in shuffled(random).chunks_exact(2) {
            let [from, to] = [pair[0], pair[1]];
            let mut edit = Edit { records: [from as u64, to as u64], doors: random.next(), written: [0; 2] };
            edit.written = edit.moved([values[from], values[to]]);
            [values[from], values[to]] = edit.written;
            edits.push(edit);
        }
        Round { edits, chart: values.to_vec() }
    }
}

/// The records in any order.
fn shuffled(random: &mut Random) -> Vec<usize> {
    let mut records: Vec<usize> = (0..RECORDS).collect();
    for last in (1..RECORDS).rev() {
        records.swap(last, random.from(0, last as u64) as usize);
    }
    records
}
