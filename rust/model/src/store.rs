//! The shared plan store of document 01, kept in vectors; its lock rows are those of document 02 (M-105), or of
//! document 01 alone, for a comparison of the two.
//!
//! The call Point has no script line and is left out.
//! Rows are only counted: a vector's length is the number of rows in use.

use crate::record::{Lock, Mode, Record, Table, Version};
use crate::reply::{Answer, At, End, Refusal, Reply, Want};

pub const LAST: u64 = (1 << 46) - 1;

#[derive(Clone, Copy, Debug, PartialEq, Eq)]
pub struct Counts {
    pub records: u64,
    pub edits: u64,
    pub versions: u64,
    pub locks: u64,
    pub accesses: u64,
}

impl Counts {
    pub fn in_range(&self) -> bool {
        (1..=1024).contains(&self.records)
            && (1..=63).contains(&self.edits)
            && (1..=4095).contains(&self.versions)
            && (1..=4095).contains(&self.locks)
            && (1..=4095).contains(&self.accesses)
    }

    /// The words of the lent slice. Only for counts in range.
    pub fn words(&self) -> u64 {
        8 + 3 * self.records
            + 4 * self.edits
            + 4 * self.versions
            + 5 * self.locks
            + 5 * self.accesses
    }
}

#[derive(Clone, Copy, Debug, PartialEq, Eq)]
pub struct Access {
    pub record: usize,
    /// The point of the version read.
    pub read: Option<u64>,
    /// The pending value.
    pub written: Option<u64>,
}

#[derive(Clone, Copy, Debug, PartialEq, Eq)]
pub enum State {
    Free,
    Open,
    Committed(u64),
    Aborted,
}

/// An edit slot.
#[derive(Clone, Debug, PartialEq, Eq)]
pub struct Edit {
    pub state: State,
    pub generation: u16,
    pub accesses: Vec<Access>,
}

#[derive(Clone, Debug, PartialEq, Eq)]
pub struct Store {
    pub counts: Counts,
    pub table: Table,
    pub records: Vec<Record>,
    /// Slot s is `edits[s - 1]`.
    pub edits: Vec<Edit>,
}

impl Store {
    /// Format: an empty store, or 16.
    pub fn format(counts: Counts) -> Result<Store, Refusal> {
        Store::format_as(Table::Joined, counts)
    }

    /// The same, with a table of lock rows of this form.
    pub fn format_as(table: Table, counts: Counts) -> Result<Store, Refusal> {
        if !counts.in_range() {
            return Err(Refusal::BadFormat);
        }
        let record = Record {
            versions: vec![],
            locks: vec![],
            floor: 0,
        };
        let edit = Edit {
            state: State::Free,
            generation: 0,
            accesses: vec![],
        };
        Ok(Store {
            counts,
            table,
            records: vec![record; counts.records as usize],
            edits: vec![edit; counts.edits as usize],
        })
    }

    pub fn begin(&mut self) -> Answer {
        let free = self.edits.iter().position(|e| e.state == State::Free);
        let index = free.ok_or(Refusal::NoFreeSlot)?;
        self.edits[index] = Edit {
            state: State::Open,
            generation: self.edits[index].generation.wrapping_add(1),
            accesses: vec![],
        };
        Ok(Reply::Edit(self.handle(index as u64 + 1)))
    }

    pub fn write(&mut self, handle: u64, record: u64, value: u64) -> Answer {
        let slot = self.open_edit(handle)?;
        let record = self.record(record)?;
        self.access_room(slot, record)?;
        self.access(slot, record).written = Some(value);
        Ok(Reply::Ok)
    }

    pub fn lock(&mut self, handle: u64, record: u64, low: u64, high: u64, want: Want) -> Answer {
        let slot = self.open_edit(handle)?;
        let record = self.record(record)?;
        if low > LAST || high > LAST || low > high {
            return Err(Refusal::BadPoint);
        }
        let place = &self.records[record];
        if low <= place.floor {
            return Err(Refusal::AtFloor);
        }
        let blocked = |from| place.first_blocked(slot, Mode::Write, from, high);
        let (first, end) = match want {
            Want::All => match blocked(low) {
                Some(point) => return Err(self.cause(slot, record, Mode::Write, point)),
                None => (low, high),
            },
            Want::Part => match place.first_free(slot, Mode::Write, low, high) {
                None => return Err(self.cause(slot, record, Mode::Write, low)),
                Some(first) => (first, blocked(first).map_or(high, |p| p - 1)),
            },
        };
        self.lock_room()?;
        let lock = Lock {
            low: first,
            high: end,
            mode: Mode::Write,
            owner: slot,
        };
        self.add_lock(record, lock);
        Ok(Reply::Locked(first, end))
    }

    pub fn read(&mut self, handle: u64, record: u64, m: u64, want: Want) -> Answer {
        let slot = self.open_edit(handle)?;
        let record = self.record(record)?;
        if m == 0 || m > LAST {
            return Err(Refusal::BadPoint);
        }
        let place = &self.records[record];
        if let Some(access) = self.find_access(slot, record) {
            if let Some(value) = access.written {
                return Ok(Reply::Own(value));
            }
            if let Some(tr) = access.read {
                return Ok(Reply::Again(tr, place.value_of(tr)));
            }
        }
        if m <= place.floor {
            return Err(Refusal::AtFloor);
        }
        // The newest below m, never the one at m.
        let version = place.newest_at(m - 1);
        let tr = version.map_or(0, |v| v.point);
        let end = match place.first_blocked(slot, Mode::Read, tr + 1, m) {
            None => m,
            Some(point) if want == Want::Part && point > tr + 1 => point - 1,
            Some(point) => return Err(self.cause(slot, record, Mode::Read, point)),
        };
        self.access_room(slot, record)?;
        self.lock_room()?;
        let lock = Lock {
            low: tr + 1,
            high: end,
            mode: Mode::Read,
            owner: slot,
        };
        self.add_lock(record, lock);
        self.access(slot, record).read = Some(tr);
        Ok(Reply::Read(tr, end, version.map(|v| v.value)))
    }

    pub fn commit(&mut self, handle: u64, at: At, end: End) -> Answer {
        let slot = self.open_edit(handle)?;
        if let At::Point(point) = at {
            if point == 0 || point > LAST {
                return Err(Refusal::BadPoint);
            }
        }
        let (Some(earliest), Some(latest)) = (self.earliest(slot), self.latest(slot)) else {
            self.finish(slot, State::Aborted, end);
            return Ok(Reply::NoPoint);
        };
        let point = match at {
            At::Earliest => earliest,
            At::Latest => latest,
            At::Point(point) if self.in_common(slot, point) => point,
            At::Point(_) => return Err(Refusal::NotCommon),
        };
        let written: Vec<(usize, u64)> = self.edits[slot as usize - 1]
            .accesses
            .iter()
            .filter_map(|a| a.written.map(|value| (a.record, value)))
            .collect();
        if self.free_versions() < written.len() as u64 {
            return Err(Refusal::NoVersionRow);
        }
        for (record, value) in written {
            let versions = &mut self.records[record].versions;
            versions.push(Version { point, value });
            versions.sort_by_key(|v| std::cmp::Reverse(v.point));
        }
        self.finish(slot, State::Committed(point), end);
        Ok(Reply::Commit(point))
    }

    pub fn abort(&mut self, handle: u64, end: End) -> Answer {
        let slot = self.open_edit(handle)?;
        self.finish(slot, State::Aborted, end);
        Ok(Reply::Ok)
    }

    pub fn settle(&mut self, handle: u64) -> Answer {
        let slot = self.slot(handle)?;
        if self.edits[slot as usize - 1].state == State::Open {
            return Err(Refusal::StillOpen);
        }
        self.settle_slot(slot);
        Ok(Reply::Ok)
    }

    pub fn purge(&mut self, record: u64, b: u64) -> Answer {
        let record = self.record(record)?;
        if b > LAST {
            return Err(Refusal::BadPoint);
        }
        let place = &mut self.records[record];
        let v = match place.newest_at(b) {
            Some(version) if version.point != place.floor => version.point,
            _ => return Ok(Reply::Purged(0, 0)),
        };
        if place.locks.iter().any(|l| l.owner != 0 && l.low <= v) {
            return Err(Refusal::InUse);
        }
        let (versions, locks) = (place.versions.len(), place.locks.len());
        place.versions.retain(|w| w.point >= v);
        place.locks.retain(|l| l.owner != 0 || l.high > v);
        for lock in place.locks.iter_mut().filter(|l| l.owner == 0) {
            lock.low = lock.low.max(v + 1);
        }
        place.tidy(self.table);
        place.floor = v;
        Ok(Reply::Purged(
            (versions - place.versions.len()) as u64,
            (locks - place.locks.len()) as u64,
        ))
    }

    pub fn view(&self, record: u64, point: u64) -> Answer {
        let record = self.record(record)?;
        if point > LAST {
            return Err(Refusal::BadPoint);
        }
        let place = &self.records[record];
        if point < place.floor {
            return Err(Refusal::AtFloor);
        }
        Ok(match place.newest_at(point) {
            Some(version) => Reply::At(version.point, Some(version.value)),
            None => Reply::At(0, None),
        })
    }

    /// The handle that is good for a slot now.
    pub fn handle(&self, slot: u64) -> u64 {
        u64::from(self.edits[slot as usize - 1].generation) * 64 + slot
    }

    /// The slot of a handle, or 2.
    fn slot(&self, handle: u64) -> Result<u64, Refusal> {
        let slot = handle % 64;
        if slot == 0 || slot > self.counts.edits {
            return Err(Refusal::NoSuchEdit);
        }
        if self.edits[slot as usize - 1].state == State::Free || self.handle(slot) != handle {
            return Err(Refusal::NoSuchEdit);
        }
        Ok(slot)
    }

    /// The slot of an open edit, or 2, or 3.
    fn open_edit(&self, handle: u64) -> Result<u64, Refusal> {
        let slot = self.slot(handle)?;
        if self.edits[slot as usize - 1].state != State::Open {
            return Err(Refusal::Ended);
        }
        Ok(slot)
    }

    fn record(&self, record: u64) -> Result<usize, Refusal> {
        if record >= self.counts.records {
            return Err(Refusal::NoSuchRecord);
        }
        Ok(record as usize)
    }

    fn find_access(&self, slot: u64, record: usize) -> Option<&Access> {
        let mut accesses = self.edits[slot as usize - 1].accesses.iter();
        accesses.find(|a| a.record == record)
    }

    /// The access of a record by an edit, made if it is not there.
    fn access(&mut self, slot: u64, record: usize) -> &mut Access {
        let accesses = &mut self.edits[slot as usize - 1].accesses;
        let index = accesses.iter().position(|a| a.record == record);
        let index = index.unwrap_or_else(|| {
            accesses.push(Access {
                record,
                read: None,
                written: None,
            });
            accesses.len() - 1
        });
        &mut accesses[index]
    }

    fn add_lock(&mut self, record: usize, lock: Lock) {
        let place = &mut self.records[record];
        place.locks.push(lock);
        place.tidy(self.table);
    }

    pub fn free_versions(&self) -> u64 {
        let used: usize = self.records.iter().map(|r| r.versions.len()).sum();
        self.counts.versions - used as u64
    }

    pub fn free_locks(&self) -> u64 {
        let used: usize = self.records.iter().map(|r| r.locks.len()).sum();
        self.counts.locks - used as u64
    }

    pub fn free_accesses(&self) -> u64 {
        let used: usize = self.edits.iter().map(|e| e.accesses.len()).sum();
        self.counts.accesses - used as u64
    }

    /// 10 if the record is new to the edit and no access row is free.
    fn access_room(&self, slot: u64, record: usize) -> Result<(), Refusal> {
        if self.find_access(slot, record).is_none() && self.free_accesses() == 0 {
            return Err(Refusal::NoAccessRow);
        }
        Ok(())
    }

    fn lock_room(&self) -> Result<(), Refusal> {
        if self.free_locks() == 0 {
            return Err(Refusal::NoLockRow);
        }
        Ok(())
    }

    /// What blocks a call at a blocked point: 9, or 8 with the lowest slot's handle.
    fn cause(&self, slot: u64, record: usize, mode: Mode, point: u64) -> Refusal {
        let place = &self.records[record];
        let owners = || place.against(slot, mode, point).map(|l| l.owner);
        let version_there = place.versions.iter().any(|v| v.point == point);
        match owners().min() {
            Some(lowest) if lowest > 0 && !version_there => Refusal::Held(self.handle(lowest)),
            _ => Refusal::Frozen,
        }
    }

    /// Is the point in the common set of the edit?
    pub fn in_common(&self, slot: u64, point: u64) -> bool {
        (1..=LAST).contains(&point)
            && self.edits[slot as usize - 1].accesses.iter().all(|a| {
                let place = &self.records[a.record];
                let may_write = a.written.is_none() || place.write_locked_by(slot, point);
                let may_read = match a.read {
                    None => true,
                    Some(tr) => tr < point && place.covered(slot, tr + 1, point),
                };
                may_write && may_read
            })
    }

    /// The least point of the common set. It is 1 or the low end of an own lock: a record read
    /// at tr has an own lock that starts at tr + 1.
    pub fn earliest(&self, slot: u64) -> Option<u64> {
        self.own_locks(slot)
            .map(|l| l.low)
            .chain([1])
            .filter(|&p| self.in_common(slot, p))
            .min()
    }

    /// The greatest point of the common set. It is LAST or the high end of an own lock.
    pub fn latest(&self, slot: u64) -> Option<u64> {
        self.own_locks(slot)
            .map(|l| l.high)
            .chain([LAST])
            .filter(|&p| self.in_common(slot, p))
            .max()
    }

    fn own_locks(&self, slot: u64) -> impl Iterator<Item = &Lock> {
        let locks = self.records.iter().flat_map(|r| r.locks.iter());
        locks.filter(move |l| l.owner == slot)
    }

    /// Ends an open edit and obeys the flag.
    fn finish(&mut self, slot: u64, state: State, end: End) {
        self.edits[slot as usize - 1].state = state;
        if end == End::Settle {
            self.settle_slot(slot);
        }
    }

    /// Settles an ended edit: its locks go, its slot is free, a commit leaves settled locks. Its rows go first, so that
    /// none is needed.
    fn settle_slot(&mut self, slot: u64) {
        for record in &mut self.records {
            record.locks.retain(|l| l.owner != slot);
        }
        let edit = &mut self.edits[slot as usize - 1];
        let accesses = std::mem::take(&mut edit.accesses);
        let state = std::mem::replace(&mut edit.state, State::Free);
        let State::Committed(t) = state else { return };
        for access in accesses {
            let mut leave = |low, mode| {
                let lock = Lock {
                    low,
                    high: t,
                    mode,
                    owner: 0,
                };
                self.add_lock(access.record, lock);
            };
            if let Some(tr) = access.read {
                leave(tr + 1, Mode::Read);
            }
            if access.written.is_some() {
                leave(t, Mode::Write);
            }
        }
    }
}
