//! The calls on the plain vectors, with the refusals in the order of document 01.

use super::record::{Lock, Mode};
use super::{Plain, State};
use crate::rows::Store;
use zohetiwa::*;

impl<const INDEXED: bool> Store for Plain<INDEXED> {
    fn begin(&mut self) -> Answer<Handle> {
        if self.free == 0 {
            return Err(Refusal::NoSlot);
        }
        let slot = self.free.trailing_zeros() as u8 + 1;
        self.free &= self.free - 1;
        let edit = &mut self.edits[slot as usize - 1];
        edit.state = State::Open;
        edit.generation = edit.generation.wrapping_add(1);
        Ok(self.handle(slot))
    }

    fn write(&mut self, handle: Handle, record: u64, value: u64) -> Answer<()> {
        let slot = self.open(handle)?;
        let record = self.record(record)?;
        let place = self.edits[slot as usize - 1].find::<INDEXED>(record);
        self.access_room(place)?;
        let access = self.access(slot, record, place);
        (access.written, access.value) = (true, value);
        Ok(())
    }

    fn lock(&mut self, handle: Handle, record: u64, low: Point, high: Point, extent: Extent) -> Answer<Locked> {
        let slot = self.open(handle)?;
        let record = self.record(record)?;
        if high > LAST || low > high {
            return Err(Refusal::BadPoint);
        }
        let place = &self.records[record];
        let (mut first, mut last) = (low.word(), high.word());
        if first <= place.floor {
            return Err(Refusal::BelowFloor);
        }
        if let Some((point, owner)) = place.first_blocked(slot, Mode::Write, first, last) {
            if extent == Extent::All {
                return Err(self.judge(record, point, owner));
            } else if first < point {
                last = point - 1;
            } else {
                first = place.first_free(slot, first);
                if first > last {
                    return Err(self.judge(record, point, owner));
                }
                last = place.first_blocked(slot, Mode::Write, first, last).map_or(last, |(point, _)| point - 1);
            }
        }
        self.lock_room()?;
        self.add_lock(record, Lock { low: first, high: last, mode: Mode::Write, owner: slot });
        if INDEXED {
            self.edits[slot as usize - 1].locked.push(record as u32);
        }
        Ok(Locked { first: Point::of_word(first), last: Point::of_word(last) })
    }

    fn read(&mut self, handle: Handle, record: u64, m: Point, extent: Extent) -> Answer<Read> {
        let slot = self.open(handle)?;
        let record = self.record(record)?;
        let m = m.word();
        if m == 0 || m > LAST.word() {
            return Err(Refusal::BadPoint);
        }
        let edit = &self.edits[slot as usize - 1];
        let place = edit.find::<INDEXED>(record);
        if let Ok(index) = place {
            let access = &edit.accesses[index];
            if access.written {
                return Ok(Read::Own(access.value));
            }
            let (tr, value) = self.records[record].newest_at(access.from - 1);
            return Ok(Read::Again { tr: Point::of_word(tr), value });
        }
        let there = &self.records[record];
        if m <= there.floor {
            return Err(Refusal::BelowFloor);
        }
        let (tr, value) = there.newest_at(m - 1);
        let mut end = m;
        if let Some((point, owner)) = there.first_blocked(slot, Mode::Read, tr + 1, m) {
            if extent == Extent::All || point == tr + 1 {
                return Err(self.judge(record, point, owner));
            }
            end = point - 1;
        }
        self.access_room(place)?;
        self.lock_room()?;
        self.access(slot, record, place).from = tr + 1;
        self.add_lock(record, Lock { low: tr + 1, high: end, mode: Mode::Read, owner: slot });
        Ok(Read::New { tr: Point::of_word(tr), end: Point::of_word(end), value })
    }

    fn commit(&mut self, handle: Handle, pick: Pick, finish: Finish) -> Answer<Commit> {
        let slot = self.open(handle)?;
        let found = match pick {
            Pick::Earliest => self.earliest(slot),
            Pick::Latest => self.latest(slot),
            Pick::Named(point) if point.word() == 0 || point > LAST => return Err(Refusal::BadPoint),
            Pick::Named(point) if self.in_common(slot, point.word()) => Some(point.word()),
            Pick::Named(_) if self.earliest(slot).is_some() => return Err(Refusal::NotCommon),
            Pick::Named(_) => None,
        };
        if let Some(point) = found {
            return self.save(slot, point, finish);
        }
        self.end(slot, State::Aborted, finish);
        Ok(Commit::NoPoint)
    }

    fn abort(&mut self, handle: Handle, finish: Finish) -> Answer<()> {
        let slot = self.open(handle)?;
        self.end(slot, State::Aborted, finish);
        Ok(())
    }

    fn settle(&mut self, handle: Handle) -> Answer<()> {
        let slot = self.slot(handle)?;
        if self.edits[slot as usize - 1].state == State::Open {
            return Err(Refusal::EditOpen);
        }
        self.settle_slot(slot);
        Ok(())
    }

    fn purge(&mut self, record: u64, b: Point) -> Answer<Purged> {
        let record = self.record(record)?;
        if b > LAST {
            return Err(Refusal::BadPoint);
        }
        let purged = self.records[record].purge(b.word())?;
        self.versions -= purged.versions as usize;
        self.locks -= purged.locks as usize;
        Ok(purged)
    }

    fn view(&self, record: u64, p: Point) -> Answer<Shown> {
        let record = self.record(record)?;
        if p > LAST {
            return Err(Refusal::BadPoint);
        }
        if p.word() < self.records[record].floor {
            return Err(Refusal::BelowFloor);
        }
        let (point, value) = self.records[record].newest_at(p.word());
        Ok(Shown { point: Point::of_word(point), value })
    }
}
