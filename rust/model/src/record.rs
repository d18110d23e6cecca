//! One record: its versions, its locks and its floor.
//!
//! Locks stand in a table of one row each (`Table`); the questions about points do not depend on which.
//! Sets of points are given by a test for one point. Such a test changes only at the ends of
//! locks, so the least point of a set is found among those ends.

use crate::reply::Value;

#[derive(Clone, Copy, Debug, PartialEq, Eq)]
pub struct Version {
    pub point: u64,
    pub value: u64,
}

#[derive(Clone, Copy, Debug, PartialEq, Eq)]
pub enum Mode {
    Read,
    Write,
}

/// A lock on the points low..high. Owner 0 is settled, otherwise the owner is a slot.
#[derive(Clone, Copy, Debug, PartialEq, Eq)]
pub struct Lock {
    pub low: u64,
    pub high: u64,
    pub mode: Mode,
    pub owner: u64,
}

impl Lock {
    pub fn covers(&self, point: u64) -> bool {
        self.low <= point && point <= self.high
    }

    pub fn is_settled_read(&self) -> bool {
        self.owner == 0 && self.mode == Mode::Read
    }

    /// Do the two overlap or adjoin? There is a point between them if not.
    pub fn touches(&self, other: &Lock) -> bool {
        let (first, second) = if self.low <= other.low {
            (self, other)
        } else {
            (other, self)
        };
        second.low <= first.high || second.low - first.high == 1
    }
}

/// How a record's lock rows stand.
#[derive(Clone, Copy, Debug, PartialEq, Eq)]
pub enum Table {
    /// Document 01: a row for each lock, in the order in which they came.
    Plain,
    /// Document 02, M-105: in rising order of low point, and settled read rows that overlap or adjoin are one row.
    Joined,
}

#[derive(Clone, Debug, PartialEq, Eq)]
pub struct Record {
    /// Newest first.
    pub versions: Vec<Version>,
    pub locks: Vec<Lock>,
    pub floor: u64,
}

impl Record {
    /// Brings the rows, whatever they are, into the form of the table: sorts them all, then goes up once and lengthens
    /// the last settled read row by each that touches it.
    pub fn tidy(&mut self, table: Table) {
        if table == Table::Plain {
            return;
        }
        self.locks.sort_by_key(|l| l.low);
        let mut rows: Vec<Lock> = vec![];
        let mut last = None;
        for lock in self.locks.drain(..) {
            match last.map(|i: usize| &mut rows[i]) {
                Some(read) if lock.is_settled_read() && read.touches(&lock) => {
                    read.high = read.high.max(lock.high);
                    continue;
                }
                _ if lock.is_settled_read() => last = Some(rows.len()),
                _ => {}
            }
            rows.push(lock);
        }
        self.locks = rows;
    }

    /// The newest version at or below a point.
    pub fn newest_at(&self, point: u64) -> Option<Version> {
        self.versions.iter().copied().find(|v| v.point <= point)
    }

    /// The value at the point of a version read; 0 is the never written state.
    pub fn value_of(&self, point: u64) -> Value {
        self.versions
            .iter()
            .find(|v| v.point == point)
            .map(|v| v.value)
    }

    /// The locks that stop `slot` from taking a lock of this mode on the point.
    pub fn against(&self, slot: u64, mode: Mode, point: u64) -> impl Iterator<Item = &Lock> {
        self.locks.iter().filter(move |l| {
            l.owner != slot && l.covers(point) && (mode == Mode::Write || l.mode == Mode::Write)
        })
    }

    fn is_blocked(&self, slot: u64, mode: Mode, point: u64) -> bool {
        self.against(slot, mode, point).next().is_some()
    }

    /// The least blocked point of low..high. It is low or the low end of a lock.
    pub fn first_blocked(&self, slot: u64, mode: Mode, low: u64, high: u64) -> Option<u64> {
        self.locks
            .iter()
            .map(|l| l.low)
            .chain([low])
            .filter(|&p| low <= p && p <= high && self.is_blocked(slot, mode, p))
            .min()
    }

    /// The least point of low..high that is not blocked. It is low or just after a lock.
    pub fn first_free(&self, slot: u64, mode: Mode, low: u64, high: u64) -> Option<u64> {
        self.locks
            .iter()
            .map(|l| l.high + 1)
            .chain([low])
            .filter(|&p| low <= p && p <= high && !self.is_blocked(slot, mode, p))
            .min()
    }

    /// Is every point of low..high under some lock of the slot?
    pub fn covered(&self, slot: u64, low: u64, high: u64) -> bool {
        let own = |p: u64| self.locks.iter().any(|l| l.owner == slot && l.covers(p));
        // The least uncovered point is low or just after a lock.
        !self
            .locks
            .iter()
            .map(|l| l.high + 1)
            .chain([low])
            .any(|p| low <= p && p <= high && !own(p))
    }

    pub fn write_locked_by(&self, slot: u64, point: u64) -> bool {
        self.locks
            .iter()
            .any(|l| l.owner == slot && l.mode == Mode::Write && l.covers(point))
    }
}
