//! Lays out the words of a store by document 01's table, in any order of rows.

use crate::record::{Lock, Mode, Version};
use crate::store::{Access, Counts, Edit, State, Store};

/// Where the tables begin: records, edit slots, versions, locks, accesses.
pub fn starts(c: &Counts) -> [usize; 5] {
    let records = 8;
    let edits = records + 3 * c.records as usize;
    let versions = edits + 4 * c.edits as usize;
    let locks = versions + 4 * c.versions as usize;
    [
        records,
        edits,
        versions,
        locks,
        locks + 5 * c.locks as usize,
    ]
}

/// Rows of one table, handed out to chains.
struct Rows {
    start: usize,
    width: usize,
    /// The rows not handed out; the last is the next to go.
    left: Vec<u64>,
}

impl Rows {
    fn new(start: usize, width: usize, count: u64, choose: &mut dyn FnMut(u64) -> u64) -> Rows {
        let mut left: Vec<u64> = (1..=count).rev().collect();
        for i in (1..left.len()).rev() {
            let other = i - choose(i as u64 + 1) as usize;
            left.swap(i, other);
        }
        Rows { start, width, left }
    }

    /// Lays out a chain, its next words included, and gives its first index.
    fn chain(&mut self, words: &mut [u64], rows: &[Vec<u64>]) -> u64 {
        let indices: Vec<u64> = rows.iter().filter_map(|_| self.left.pop()).collect();
        for (i, row) in rows.iter().enumerate() {
            let next = indices.get(i + 1).copied().unwrap_or(0);
            let at = self.start + (indices[i] as usize - 1) * self.width;
            words[at..][..self.width - 1].copy_from_slice(row);
            words[at + self.width - 1] = next;
        }
        indices.first().copied().unwrap_or(0)
    }

    /// All rows left, in a chain; their other words stay.
    fn free(&mut self, words: &mut [u64]) -> u64 {
        let row = |&index: &u64| {
            let at = self.start + (index as usize - 1) * self.width;
            words[at..][..self.width - 1].to_vec()
        };
        let rows: Vec<Vec<u64>> = self.left.iter().rev().map(row).collect();
        self.chain(words, &rows)
    }
}

fn version_row(v: &Version) -> Vec<u64> {
    vec![v.point, v.value, 0]
}

fn lock_row(l: &Lock, record: usize) -> Vec<u64> {
    let mode = if l.mode == Mode::Read { 1 } else { 2 };
    vec![l.low, l.high, mode + 4 * l.owner, record as u64]
}

fn access_row(a: &Access) -> Vec<u64> {
    let read = a.read.map_or(0, |tr| tr + 1);
    let written = u64::from(a.written.is_some());
    vec![a.record as u64, read, written, a.written.unwrap_or(0)]
}

fn slot_words(edit: &Edit, first: u64) -> [u64; 4] {
    let (state, point) = match edit.state {
        State::Free => (0, 0),
        State::Open => (1, 0),
        State::Committed(point) => (2, point),
        State::Aborted => (3, 0),
    };
    [state, u64::from(edit.generation), first, point]
}

/// The words of a store. `choose(n)` is below n; 0 everywhere gives rows in rising order and zero in free rows.
pub fn lay_out(store: &Store, choose: &mut dyn FnMut(u64) -> u64) -> Vec<u64> {
    let c = &store.counts;
    let [records, edits, versions, locks, accesses] = starts(c);
    let mut words: Vec<u64> = (0..c.words()).map(|_| choose(u64::MAX)).collect();
    let mut versions = Rows::new(versions, 4, c.versions, choose);
    let mut locks = Rows::new(locks, 5, c.locks, choose);
    let mut accesses = Rows::new(accesses, 5, c.accesses, choose);
    for (r, record) in store.records.iter().enumerate() {
        let rows: Vec<Vec<u64>> = record.versions.iter().map(version_row).collect();
        let first_version = versions.chain(&mut words, &rows);
        let rows: Vec<Vec<u64>> = record.locks.iter().map(|l| lock_row(l, r)).collect();
        let first_lock = locks.chain(&mut words, &rows);
        let laid = [first_version, first_lock, record.floor];
        words[records + 3 * r..][..3].copy_from_slice(&laid);
    }
    for (i, edit) in store.edits.iter().enumerate() {
        let rows: Vec<Vec<u64>> = edit.accesses.iter().map(access_row).collect();
        let first = accesses.chain(&mut words, &rows);
        words[edits + 4 * i..][..4].copy_from_slice(&slot_words(edit, first));
    }
    words[..5].copy_from_slice(&[c.records, c.edits, c.versions, c.locks, c.accesses]);
    words[5] = versions.free(&mut words);
    words[6] = locks.free(&mut words);
    words[7] = accesses.free(&mut words);
    words
}
