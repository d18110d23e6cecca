//! "A store is sound when", each clause that speaks of the meaning.
//! What the vectors cannot say wrongly (chains, written marks, modes) is left to `words`.

use crate::record::{Lock, Mode, Record, Table};
use crate::store::{State, Store, LAST};

/// The first clause that fails, in words.
pub fn check(store: &Store) -> Result<(), String> {
    counts(store)?;
    for (r, record) in store.records.iter().enumerate() {
        let at = |text: &str| format!("record {r}: {text}");
        versions(record).map_err(|e| at(&e))?;
        locks(store, record).map_err(|e| at(&e))?;
        if store.table == Table::Joined {
            joined(&record.locks).map_err(|e| at(&e))?;
        }
        owned_versions(store, r).map_err(|e| at(&e))?;
    }
    for slot in 1..=store.counts.edits {
        edit(store, slot).map_err(|e| format!("slot {slot}: {e}"))?;
    }
    Ok(())
}

fn that(holds: bool, text: &str) -> Result<(), String> {
    if holds {
        Ok(())
    } else {
        Err(text.to_string())
    }
}

fn counts(store: &Store) -> Result<(), String> {
    let c = &store.counts;
    that(c.in_range(), "a count is out of range")?;
    that(
        store.records.len() as u64 == c.records,
        "wrong number of records",
    )?;
    that(
        store.edits.len() as u64 == c.edits,
        "wrong number of edit slots",
    )?;
    let versions: usize = store.records.iter().map(|r| r.versions.len()).sum();
    let locks: usize = store.records.iter().map(|r| r.locks.len()).sum();
    let accesses: usize = store.edits.iter().map(|e| e.accesses.len()).sum();
    that(versions as u64 <= c.versions, "more versions than rows")?;
    that(locks as u64 <= c.locks, "more locks than rows")?;
    that(accesses as u64 <= c.accesses, "more accesses than rows")
}

fn versions(record: &Record) -> Result<(), String> {
    let points: Vec<u64> = record.versions.iter().map(|v| v.point).collect();
    that(
        points.windows(2).all(|w| w[0] > w[1]),
        "versions do not fall",
    )?;
    that(points.iter().all(|&p| p != 0), "a version at point 0")?;
    that(
        points.iter().all(|&p| record.floor <= p && p <= LAST),
        "a version outside floor..LAST",
    )?;
    that(
        record.floor == 0 || points.last() == Some(&record.floor),
        "no version at the floor",
    )
}

fn locks(store: &Store, record: &Record) -> Result<(), String> {
    for lock in &record.locks {
        that(
            record.floor < lock.low && lock.low <= lock.high && lock.high <= LAST,
            "a lock outside floor + 1..LAST or with low above high",
        )?;
        that(
            lock.owner == 0 || in_use(store, lock.owner),
            "a lock of a slot that is not in use",
        )?;
        that(
            record.locks.iter().all(|other| may_stand(lock, other)),
            "a write lock shares a point with a lock of another owner",
        )?;
    }
    Ok(())
}

/// Lows rise, equal ones in any order, and no two settled read rows overlap or adjoin.
fn joined(locks: &[Lock]) -> Result<(), String> {
    that(
        locks.windows(2).all(|w| w[0].low <= w[1].low),
        "locks do not rise",
    )?;
    let reads: Vec<&Lock> = locks.iter().filter(|l| l.is_settled_read()).collect();
    for (i, read) in reads.iter().enumerate() {
        that(
            reads[i + 1..].iter().all(|other| !read.touches(other)),
            "two settled read rows that should be one",
        )?;
    }
    Ok(())
}

fn in_use(store: &Store, slot: u64) -> bool {
    slot <= store.counts.edits && store.edits[slot as usize - 1].state != State::Free
}

fn may_stand(a: &Lock, b: &Lock) -> bool {
    let both_read = a.mode == Mode::Read && b.mode == Mode::Read;
    let apart = a.high < b.low || b.high < a.low;
    a.owner == b.owner || both_read || apart
}

/// Each version above the floor has a write lock on its point, settled or of its writer.
fn owned_versions(store: &Store, r: usize) -> Result<(), String> {
    let record = &store.records[r];
    for version in record.versions.iter().filter(|v| v.point > record.floor) {
        let fits = |lock: &Lock| {
            lock.mode == Mode::Write
                && lock.covers(version.point)
                && (lock.owner == 0 || wrote_at(store, lock.owner, r, version.point))
        };
        that(
            record.locks.iter().any(fits),
            "a version without its write lock",
        )?;
    }
    Ok(())
}

fn wrote_at(store: &Store, slot: u64, r: usize, point: u64) -> bool {
    let edit = &store.edits[slot as usize - 1];
    let mut accesses = edit.accesses.iter();
    edit.state == State::Committed(point) && accesses.any(|a| a.record == r && a.written.is_some())
}

fn edit(store: &Store, slot: u64) -> Result<(), String> {
    let edit = &store.edits[slot as usize - 1];
    for (i, access) in edit.accesses.iter().enumerate() {
        let others = &edit.accesses[i + 1..];
        that(
            others.iter().all(|other| other.record != access.record),
            "a record named twice",
        )?;
        let Some(record) = store.records.get(access.record) else {
            return Err("an access of no existing record".to_string());
        };
        let Some(tr) = access.read else { continue };
        that(
            record.versions.iter().any(|v| v.point == tr) || tr == 0 && record.floor == 0,
            "a point read is no present version",
        )?;
        that(
            record
                .locks
                .iter()
                .any(|l| l.owner == slot && l.mode == Mode::Read && l.low == tr + 1),
            "no own read lock starts just after a point read",
        )?;
    }
    match edit.state {
        State::Committed(t) => that(store.in_common(slot, t), "commit point not common"),
        State::Free => that(edit.accesses.is_empty(), "a free slot has accesses"),
        State::Open | State::Aborted => Ok(()),
    }
}
