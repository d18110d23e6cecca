//! The store of document 01 in plain vectors, as fast as that is plainly written: what the proved store is timed
//! against. It checks nothing of itself, has no layout, and counts rows only to refuse where there is no room and for
//! the replies of purges. Its locks are in order and joined, as document 02 (M-105) has them.
//!
//! `Plain<true>` keeps an edit's accesses in order, to find one by halving, and lists the records that an edit has
//! locked, to settle it by these alone. The layout has neither; `Plain<false>` does without them too.

mod calls;
mod common;
mod record;

use record::{Lock, Mode, Record, Version};
use zohetiwa::*;

#[derive(Clone, Copy, PartialEq, Eq)]
enum State {
    Free,
    Open,
    Committed(u64),
    Aborted,
}

#[derive(Clone, Copy)]
struct Access {
    record: u32,
    written: bool,
    value: u64,
    /// One more than the point read; 0 if there was no read.
    from: u64,
}

struct Edit {
    state: State,
    generation: u16,
    /// Rising in record if indexed, else in the order in which they came.
    accesses: Vec<Access>,
    /// The records that it has write-locked, one entry for each Lock; empty if not indexed.
    locked: Vec<u32>,
}

impl Edit {
    /// Where the access of the record stands, or would.
    fn find<const INDEXED: bool>(&self, record: usize) -> Result<usize, usize> {
        let record = record as u32;
        if INDEXED {
            self.accesses.binary_search_by_key(&record, |a| a.record)
        } else {
            self.accesses.iter().position(|a| a.record == record).ok_or(self.accesses.len())
        }
    }
}

pub struct Plain<const INDEXED: bool> {
    counts: Counts,
    records: Vec<Record>,
    /// Slot s is `edits[s - 1]`.
    edits: Vec<Edit>,
    /// Bit s - 1 is set while slot s is free.
    free: u64,
    /// Rows in use.
    versions: usize,
    locks: usize,
    accesses: usize,
}

impl<const INDEXED: bool> Plain<INDEXED> {
    /// An empty store; the counts are those of a good Format.
    pub fn new(counts: Counts) -> Self {
        let edit = || Edit { state: State::Free, generation: 0, accesses: vec![], locked: vec![] };
        Plain {
            counts,
            records: (0..counts.records).map(|_| Record::default()).collect(),
            edits: (0..counts.edits).map(|_| edit()).collect(),
            free: (1 << counts.edits) - 1,
            versions: 0,
            locks: 0,
            accesses: 0,
        }
    }

    /// Becomes the other store, in the memory that its vectors have: a run from here then grows them no more than a
    /// store does that has been in use.
    pub fn become_like(&mut self, other: &Self) {
        for (mine, theirs) in self.records.iter_mut().zip(&other.records) {
            mine.become_like(theirs);
        }
        for (mine, theirs) in self.edits.iter_mut().zip(&other.edits) {
            (mine.state, mine.generation) = (theirs.state, theirs.generation);
            mine.accesses.clone_from(&theirs.accesses);
            mine.locked.clone_from(&theirs.locked);
        }
        self.free = other.free;
        (self.versions, self.locks, self.accesses) = (other.versions, other.locks, other.accesses);
    }

    /// Rows in use: versions, locks, accesses.
    pub fn used(&self) -> [usize; 3] {
        [self.versions, self.locks, self.accesses]
    }

    fn handle(&self, slot: u8) -> Handle {
        Handle::of_word(u64::from(self.edits[slot as usize - 1].generation) * 64 + u64::from(slot))
    }

    /// The slot of a handle.
    fn slot(&self, handle: Handle) -> Answer<u8> {
        let slot = handle.word() % 64;
        match self.edits.get((slot as usize).wrapping_sub(1)) {
            Some(edit) if edit.state != State::Free && u64::from(edit.generation) == handle.word() / 64 => {
                Ok(slot as u8)
            }
            _ => Err(Refusal::NoEdit),
        }
    }

    fn open(&self, handle: Handle) -> Answer<u8> {
        let slot = self.slot(handle)?;
        match self.edits[slot as usize - 1].state {
            State::Open => Ok(slot),
            _ => Err(Refusal::EditEnded),
        }
    }

    fn record(&self, record: u64) -> Answer<usize> {
        if record < self.records.len() as u64 {
            Ok(record as usize)
        } else {
            Err(Refusal::NoRecord)
        }
    }

    /// 8 or 9, for a point that the owner (0 if settled) blocks.
    fn judge(&self, record: usize, point: u64, owner: u8) -> Refusal {
        if owner == 0 || self.records[record].stands(point) {
            Refusal::Frozen
        } else {
            Refusal::Held(self.handle(owner))
        }
    }

    /// Room for the edit's access of the record, which stands or would stand at the place given.
    fn access_room(&self, place: Result<usize, usize>) -> Answer<()> {
        if place.is_err() && self.accesses == self.counts.accesses {
            return Err(Refusal::NoAccessRow);
        }
        Ok(())
    }

    fn lock_room(&self) -> Answer<()> {
        if self.locks == self.counts.locks {
            return Err(Refusal::NoLockRow);
        }
        Ok(())
    }

    /// The edit's access of the record, made if it is not there.
    fn access(&mut self, slot: u8, record: usize, place: Result<usize, usize>) -> &mut Access {
        let accesses = &mut self.edits[slot as usize - 1].accesses;
        let index = place.unwrap_or_else(|index| {
            accesses.insert(index, Access { record: record as u32, written: false, value: 0, from: 0 });
            self.accesses += 1;
            index
        });
        &mut accesses[index]
    }

    fn add_lock(&mut self, record: usize, lock: Lock) {
        self.records[record].lock(lock);
        self.locks += 1;
    }

    /// Ends an open edit.
    fn end(&mut self, slot: u8, state: State, finish: Finish) {
        self.edits[slot as usize - 1].state = state;
        if finish == Finish::Settle {
            self.settle_slot(slot);
        }
    }

    fn settle_slot(&mut self, slot: u8) {
        let edit = &mut self.edits[slot as usize - 1];
        if INDEXED {
            let touched = edit.locked.drain(..).chain(edit.accesses.iter().map(|a| a.record));
            self.locks -= touched.map(|record| self.records[record as usize].free_locks(slot)).sum::<usize>();
        } else {
            self.locks -= self.records.iter_mut().map(|record| record.free_locks(slot)).sum::<usize>();
        }
        self.accesses -= edit.accesses.len();
        for access in edit.accesses.drain(..) {
            let State::Committed(high) = edit.state else { break };
            let record = &mut self.records[access.record as usize];
            self.locks -= record.rows();
            if access.from > 0 {
                record.leave_read(access.from, high);
            }
            if access.written {
                record.lock(Lock { low: high, high, mode: Mode::Write, owner: 0 });
            }
            self.locks += record.rows();
        }
        edit.state = State::Free;
        self.free |= 1 << (slot - 1);
    }

    /// The commit at a point of the common set.
    fn save(&mut self, slot: u8, point: u64, finish: Finish) -> Answer<Commit> {
        let accesses = &self.edits[slot as usize - 1].accesses;
        let written = accesses.iter().filter(|a| a.written).count();
        if self.versions + written > self.counts.versions {
            return Err(Refusal::NoVersionRow);
        }
        for access in accesses.iter().filter(|a| a.written) {
            self.records[access.record as usize].save(Version { point, value: access.value });
        }
        self.versions += written;
        self.end(slot, State::Committed(point), finish);
        Ok(Commit::At(Point::of_word(point)))
    }
}
