//! What joining does to the lock rows of a store, call by call: runs that are to show something of it have to meet each
//! case.

use crate::record::Lock;
use crate::store::Store;

/// How often each case came.
#[derive(Clone, Copy, Debug, Default, PartialEq, Eq)]
pub struct Joined {
    /// A settled read row that took in one row of before.
    pub one: u64,
    /// One that took in two or more.
    pub more: u64,
    /// One that came to stand with one point between it and another.
    pub gaps: u64,
    /// One that a purge shortened.
    pub shortened: u64,
}

impl Joined {
    pub fn add(&mut self, other: Joined) {
        self.one += other.one;
        self.more += other.more;
        self.gaps += other.gaps;
        self.shortened += other.shortened;
    }

    /// The counts with their names.
    pub fn counts(&self) -> [(&'static str, u64); 4] {
        [
            ("joins: one row taken in", self.one),
            ("joins: two rows or more taken in", self.more),
            ("joins: a gap of one point stays", self.gaps),
            ("joins: a row shortened by a purge", self.shortened),
        ]
    }

    /// Counts what one call has done to a store.
    pub fn step(&mut self, before: &Store, after: &Store) {
        for (old, new) in before.records.iter().zip(&after.records) {
            let (old_rows, new_rows) = (settled_reads(&old.locks), settled_reads(&new.locks));
            for row in new_rows.iter().filter(|row| !old_rows.contains(row)) {
                let inside = |r: &&&Lock| row.low <= r.low && r.high <= row.high;
                match old_rows.iter().filter(inside).count() {
                    0 => {}
                    1 => self.one += 1,
                    _ => self.more += 1,
                }
                let gap = |r: &&&Lock| r.low == row.high + 2 || row.low == r.high + 2;
                self.gaps += u64::from(new_rows.iter().any(|r| gap(&r)));
                let shortened = |r: &&Lock| r.low < row.low && r.high == row.high;
                let purged = old.floor < new.floor;
                self.shortened += u64::from(purged && old_rows.iter().any(shortened));
            }
        }
    }
}

fn settled_reads(locks: &[Lock]) -> Vec<&Lock> {
    locks.iter().filter(|l| l.is_settled_read()).collect()
}
