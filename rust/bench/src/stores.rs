//! The stores that are timed. Filled ones are made by public calls, so that what is timed can come up.

use zohetiwa::*;

pub const SMALL: Counts = Counts { records: 2, edits: 2, versions: 4, locks: 8, accesses: 8 };

pub const LARGEST: Counts = Counts { records: 1024, edits: 63, versions: 4095, locks: 4095, accesses: 4095 };

/// The rounds that fill the largest store: one open edit each.
pub const ROUNDS: u64 = 63;

/// Records that each round writes, and that each open edit reads and writes.
const SHARE: u64 = 32;

/// The last records of the largest store stay untouched by `filled`.
const TOUCHED: u64 = 1024 - SHARE;

pub fn fresh(counts: Counts) -> Vec<u64> {
    let mut words = vec![0; counts.length()];
    format(&mut words, counts).expect("a store");
    words
}

/// The point of a reading at seat 0.
pub fn at(reading: u64) -> Point {
    point(Reading(reading), Seat(0)).expect("a point")
}

/// An edit that writes these records and is committed at the point of the reading.
pub fn save(words: &mut [u64], records: impl Iterator<Item = u64>, reading: u64) -> Answer<()> {
    let edit = begin(words)?;
    for record in records {
        lock(words, edit, record, at(reading), at(reading), Extent::All)?;
        write(words, edit, record, reading)?;
    }
    assert_eq!(commit(words, edit, Pick::Earliest, Finish::Settle)?, Commit::At(at(reading)));
    Ok(())
}

/// An open edit that has read 32 records and written 32 others.
fn open(words: &mut [u64], round: u64) -> Answer<()> {
    let edit = begin(words)?;
    for i in 0..SHARE {
        read(words, edit, (round * SHARE + i) % TOUCHED, at(ROUNDS + 1), Extent::All)?;
        write(words, edit, (round * SHARE + SHARE + i) % TOUCHED, i)?;
    }
    Ok(())
}

/// The largest store after `rounds` edits that each saved 32 versions, and with as many open edits. 63 rounds leave
/// 2,016 versions, 4,032 locks, half of them settled, and 4,032 accesses.
pub fn filled(rounds: u64) -> Vec<u64> {
    let mut words = fresh(LARGEST);
    for round in 0..rounds {
        save(&mut words, (0..SHARE).map(|i| (round * SHARE + i) % TOUCHED), round + 1).expect("room");
    }
    for round in 0..rounds {
        open(&mut words, round).expect("room");
    }
    words
}

/// Where the parts of the largest store begin, by the layout of document 01.
const SLOTS: usize = 8 + 3 * LARGEST.records;
const VERSIONS: usize = SLOTS + 4 * LARGEST.edits;
const LOCKS: usize = VERSIONS + 4 * LARGEST.versions;
const ACCESSES: usize = LOCKS + 5 * LARGEST.locks;

/// The header's first free row of each table, and the first rows of record 0.
const FREE_VERSION: usize = 5;
const FREE_LOCK: usize = 6;
const FREE_ACCESS: usize = 7;
const FIRST_VERSION: usize = 8;
const FIRST_LOCK: usize = 9;

/// The row after this one in a chain of the first `last` rows; after the last of all rows none is free.
fn next(row: usize, last: usize) -> u64 {
    if row == last { 0 } else { row as u64 + 1 }
}

/// The largest store with the first `locks` lock rows on record 0, each with the low and high point, the mode and the
/// owner that `row` makes of its number. The rows are written by the layout of document 01, since each call would check
/// the whole store again.
fn with_locks(mut words: Vec<u64>, locks: usize, row: impl Fn(u64) -> (u64, u64, u64)) -> Vec<u64> {
    for i in 1..=locks {
        let (low, high, mode) = row(i as u64);
        words[LOCKS + 5 * (i - 1)..LOCKS + 5 * i].copy_from_slice(&[low, high, mode, 0, next(i, locks)]);
    }
    words[FIRST_LOCK] = 1;
    words[FREE_LOCK] = next(locks, LARGEST.locks);
    words
}

/// That many locks of one open edit on record 0, at one point each.
pub fn one_record(locks: usize) -> Vec<u64> {
    let mut words = fresh(LARGEST);
    begin(&mut words).expect("an edit");
    with_locks(words, locks, |i| (i, i, 2 + 4))
}

/// The same of a committed edit that read record 0 at 0: all of them lie between that and its point.
pub fn one_committed(locks: usize) -> Vec<u64> {
    let mut words = fresh(LARGEST);
    begin(&mut words).expect("an edit");
    let mut words = with_locks(words, locks, |i| (i, i, if i == 1 { 1 + 4 } else { 2 + 4 }));
    words[SLOTS..SLOTS + 4].copy_from_slice(&[2, 1, 1, locks as u64]);
    words[ACCESSES..ACCESSES + 5].copy_from_slice(&[0, 1, 0, 0, 0]);
    words[FREE_ACCESS] = next(1, LARGEST.accesses);
    words
}

/// That many versions of record 0, each under a settled write lock.
pub fn one_written(rows: usize) -> Vec<u64> {
    let mut words = with_locks(fresh(LARGEST), rows, |i| (i, i, 2));
    for i in 1..=rows {
        let point = (rows + 1 - i) as u64;
        words[VERSIONS + 4 * (i - 1)..VERSIONS + 4 * i].copy_from_slice(&[point, point, 0, next(i, rows)]);
    }
    words[FIRST_VERSION] = 1;
    words[FREE_VERSION] = next(rows, LARGEST.versions);
    words
}
