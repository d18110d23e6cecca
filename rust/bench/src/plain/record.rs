//! One record in vectors: its versions, its locks and its floor.

use zohetiwa::{Answer, Purged, Refusal, Value};

#[derive(Clone, Copy)]
pub struct Version {
    pub point: u64,
    pub value: u64,
}

#[derive(Clone, Copy, PartialEq, Eq)]
pub enum Mode {
    Read,
    Write,
}

/// A lock on low..=high; owner 0 is settled.
#[derive(Clone, Copy)]
pub struct Lock {
    pub low: u64,
    pub high: u64,
    pub mode: Mode,
    pub owner: u8,
}

#[derive(Default)]
pub struct Record {
    /// Rising in point.
    versions: Vec<Version>,
    /// Rising in low point; settled read locks that overlap or adjoin are one.
    locks: Vec<Lock>,
    pub floor: u64,
}

impl Record {
    pub fn become_like(&mut self, other: &Record) {
        self.versions.clone_from(&other.versions);
        self.locks.clone_from(&other.locks);
        self.floor = other.floor;
    }

    /// How many versions lie at or below the point. Most asks are about the newest.
    fn below(&self, point: u64) -> usize {
        match self.versions.last() {
            Some(newest) if newest.point > point => self.versions.partition_point(|v| v.point <= point),
            _ => self.versions.len(),
        }
    }

    /// Point and value of the newest version at or below the point.
    pub fn newest_at(&self, point: u64) -> (u64, Value) {
        match self.below(point) {
            0 => (0, Value::Never),
            n => (self.versions[n - 1].point, Value::Written(self.versions[n - 1].value)),
        }
    }

    /// Does a version stand on the point?
    pub fn stands(&self, point: u64) -> bool {
        point > 0 && self.newest_at(point).0 == point
    }

    pub fn save(&mut self, version: Version) {
        self.versions.insert(self.below(version.point), version);
    }

    /// How many rows the locks have.
    pub fn rows(&self) -> usize {
        self.locks.len()
    }

    /// Adds a lock of an edit, or a settled write lock.
    pub fn lock(&mut self, lock: Lock) {
        let place = self.locks.partition_point(|l| l.low < lock.low);
        self.locks.insert(place, lock);
    }

    /// Leaves a settled read lock, joined with all that it touches.
    pub fn leave_read(&mut self, low: u64, high: u64) {
        let mut joined = Lock { low, high, mode: Mode::Read, owner: 0 };
        self.locks.retain(|l| {
            let touches = l.owner == 0 && l.mode == Mode::Read && l.low <= high + 1 && low <= l.high + 1;
            if touches {
                joined.low = joined.low.min(l.low);
                joined.high = joined.high.max(l.high);
            }
            !touches
        });
        self.lock(joined);
    }

    /// The least point of low..=high that others block for the slot, and the lowest owner that blocks it.
    pub fn first_blocked(&self, slot: u8, mode: Mode, low: u64, high: u64) -> Option<(u64, u8)> {
        let mut best = (high + 1, 0);
        for lock in &self.locks {
            if lock.low > best.0 {
                break;
            }
            if lock.owner != slot && (mode == Mode::Write || lock.mode == Mode::Write) && lock.high >= low {
                let point = lock.low.max(low);
                if point < best.0 || (point == best.0 && lock.owner < best.1) {
                    best = (point, lock.owner);
                }
            }
        }
        (best.0 <= high).then_some(best)
    }

    /// The least point from `point` on that none of these locks is on. They rise, so once one starts later all do.
    fn first_off<'a>(locks: impl Iterator<Item = &'a Lock>, mut point: u64) -> u64 {
        for lock in locks {
            if lock.low > point {
                break;
            }
            point = point.max(lock.high + 1);
        }
        point
    }

    /// The least point from `point` on that no other owner has a lock on.
    pub fn first_free(&self, slot: u8, point: u64) -> u64 {
        Record::first_off(self.locks.iter().filter(|l| l.owner != slot), point)
    }

    /// The last point of the run from `from` on that lies under own locks; below `from` if there is none.
    pub fn reach(&self, slot: u8, from: u64) -> u64 {
        Record::first_off(self.locks.iter().filter(|l| l.owner == slot), from) - 1
    }

    fn written_by(&self, slot: u8) -> impl Iterator<Item = &Lock> {
        self.locks.iter().filter(move |l| l.owner == slot && l.mode == Mode::Write)
    }

    /// The least point from `point` on under an own write lock.
    pub fn next_written(&self, slot: u8, point: u64) -> Option<u64> {
        self.written_by(slot).filter(|l| point <= l.high).map(|l| l.low.max(point)).min()
    }

    /// The greatest point up to `point` under an own write lock.
    pub fn last_written(&self, slot: u8, point: u64) -> Option<u64> {
        self.written_by(slot).filter(|l| l.low <= point).map(|l| l.high.min(point)).max()
    }

    /// Drops the slot's locks: how many there were.
    pub fn free_locks(&mut self, slot: u8) -> usize {
        let before = self.locks.len();
        self.locks.retain(|l| l.owner != slot);
        before - self.locks.len()
    }

    pub fn purge(&mut self, b: u64) -> Answer<Purged> {
        let newest = self.newest_at(b).0;
        if newest <= self.floor {
            return Ok(Purged { versions: 0, locks: 0 });
        }
        if self.locks.iter().take_while(|l| l.low <= newest).any(|l| l.owner != 0) {
            return Err(Refusal::LockedBelow);
        }
        let gone = self.below(newest) - 1;
        self.versions.drain(..gone);
        let before = self.locks.len();
        self.locks.retain_mut(|l| {
            // Locks of edits in use lie above the new floor already. The order stays.
            l.low = l.low.max(newest + 1);
            l.low <= l.high
        });
        self.floor = newest;
        Ok(Purged { versions: gone as u64, locks: (before - self.locks.len()) as u64 })
    }
}
