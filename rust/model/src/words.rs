//! The lent words of a store, read by the layout of document 01.
//! The clauses that only words can break (length and counts, chains, the record of a lock row, states, generations,
//! commit points, written marks, modes) are judged here; `sound` judges the others on what the words mean.

use crate::record::{Lock, Mode, Record, Table, Version};
use crate::sound;
use crate::store::{Access, Counts, Edit, State, Store};

const HEADER: usize = 8;
const RECORD: usize = 3;
const EDIT: usize = 4;
const VERSION: usize = 4;
const LOCK: usize = 5;
const ACCESS: usize = 5;

/// Is the slice a sound store? Any words have an answer.
pub fn sound(words: &[u64]) -> bool {
    decode(words).is_some()
}

/// The store that sound words mean; `None` if they are not sound.
pub fn decode(words: &[u64]) -> Option<Store> {
    Some(decode_whole(words)?.0)
}

/// Words in use that no clause judges and that no reply shows.
#[derive(Clone, Debug, Default, PartialEq, Eq)]
pub struct Unjudged {
    /// The third word of each version: record, point, word.
    pub thirds: Vec<(usize, u64, u64)>,
    /// The value word of each access that is not written: slot, record, word.
    pub values: Vec<(u64, usize, u64)>,
}

/// The store that sound words mean, and the words of its rows that the store leaves out.
pub fn decode_whole(words: &[u64]) -> Option<(Store, Unjudged)> {
    let counts = counts(words)?;
    let mut rest = &words[HEADER..];
    let mut table = |count: u64, width: usize| {
        let (rows, after) = rest.split_at(count as usize * width);
        rest = after;
        rows
    };
    let records = table(counts.records, RECORD);
    let edits = table(counts.edits, EDIT);
    let mut versions = Chains::new(table(counts.versions, VERSION), VERSION);
    let mut locks = Chains::new(table(counts.locks, LOCK), LOCK);
    let mut accesses = Chains::new(table(counts.accesses, ACCESS), ACCESS);
    let mut unjudged = Unjudged::default();
    let store = Store {
        counts,
        table: Table::Joined,
        records: decode_records(records, &mut versions, &mut locks, &mut unjudged)?,
        edits: decode_edits(edits, &mut accesses, &mut unjudged)?,
    };
    versions.walk(words[5])?;
    locks.walk(words[6])?;
    accesses.walk(words[7])?;
    let every = versions.every_row_met() && locks.every_row_met() && accesses.every_row_met();
    let whole = every && sound::check(&store).is_ok();
    whole.then_some((store, unjudged))
}

fn decode_records(
    words: &[u64],
    versions: &mut Chains,
    locks: &mut Chains,
    unjudged: &mut Unjudged,
) -> Option<Vec<Record>> {
    let mut records = vec![];
    for (r, record) in words.chunks_exact(RECORD).enumerate() {
        let rows = versions.walk(record[0])?;
        let third = |row: &&[u64]| (r, row[0], row[2]);
        unjudged.thirds.extend(rows.iter().map(third));
        records.push(Record {
            versions: rows.into_iter().map(version).collect(),
            locks: decode_locks(&locks.walk(record[1])?, r)?,
            floor: record[2],
        });
    }
    Some(records)
}

fn decode_edits(
    words: &[u64],
    accesses: &mut Chains,
    unjudged: &mut Unjudged,
) -> Option<Vec<Edit>> {
    let mut edits = vec![];
    for (slot, words) in (1..).zip(words.chunks_exact(EDIT)) {
        let rows = accesses.walk(words[2])?;
        let edit = edit(words, &rows)?;
        for (row, access) in rows.iter().zip(&edit.accesses) {
            if access.written.is_none() {
                unjudged.values.push((slot, access.record, row[3]));
            }
        }
        edits.push(edit);
    }
    Some(edits)
}

/// The counts of the header, if they are in range and the length is theirs.
fn counts(words: &[u64]) -> Option<Counts> {
    let &[records, edits, versions, locks, accesses, ..] = words else {
        return None;
    };
    let counts = Counts {
        records,
        edits,
        versions,
        locks,
        accesses,
    };
    let fits = counts.in_range() && words.len() as u64 == counts.words();
    fits.then_some(counts)
}

/// The rows of a table and which of them a chain has met. A row's last word is its next index.
struct Chains<'a> {
    rows: &'a [u64],
    width: usize,
    met: Vec<bool>,
}

impl<'a> Chains<'a> {
    fn new(rows: &'a [u64], width: usize) -> Chains<'a> {
        let met = vec![false; rows.len() / width];
        Chains { rows, width, met }
    }

    /// The rows of the chain that starts at an index. `None` if a link goes past the table, or to a row that was met
    /// before on this chain or another; each step meets a new row, so a walk ends.
    fn walk(&mut self, first: u64) -> Option<Vec<&'a [u64]>> {
        let mut found = vec![];
        let mut next = first;
        while next != 0 {
            let index = usize::try_from(next).ok()? - 1;
            let met = self.met.get_mut(index)?;
            if *met {
                return None;
            }
            *met = true;
            let row = &self.rows[index * self.width..][..self.width];
            found.push(row);
            next = row[self.width - 1];
        }
        Some(found)
    }

    fn every_row_met(&self) -> bool {
        self.met.iter().all(|&met| met)
    }
}

fn version(row: &[u64]) -> Version {
    Version {
        point: row[0],
        value: row[1],
    }
}

/// The locks of a record's chain; `None` if a row has another mode or names another record.
fn decode_locks(rows: &[&[u64]], record: usize) -> Option<Vec<Lock>> {
    let lock = |row: &&[u64]| {
        let mode = match row[2] % 4 {
            1 => Mode::Read,
            2 => Mode::Write,
            _ => return None,
        };
        let lock = Lock {
            low: row[0],
            high: row[1],
            mode,
            owner: row[2] / 4,
        };
        (row[3] == record as u64).then_some(lock)
    };
    rows.iter().map(lock).collect()
}

/// An edit slot with its accesses; `None` if a word is not among those listed.
fn edit(words: &[u64], rows: &[&[u64]]) -> Option<Edit> {
    let state = match (words[0], words[3]) {
        (0, 0) => State::Free,
        (1, 0) => State::Open,
        (2, point) => State::Committed(point),
        (3, 0) => State::Aborted,
        _ => return None,
    };
    let access = |row: &&[u64]| {
        let written = match row[2] {
            0 => None,
            1 => Some(row[3]),
            _ => return None,
        };
        Some(Access {
            record: usize::try_from(row[0]).ok()?,
            read: row[1].checked_sub(1),
            written,
        })
    };
    Some(Edit {
        state,
        generation: u16::try_from(words[1]).ok()?,
        accesses: rows.iter().map(access).collect::<Option<_>>()?,
    })
}

/// The store with its locks and accesses in one order: two stores mean the same if these are equal. Of sound words
/// only locks with equal low points can stand in another order than the model's.
pub fn ordered(mut store: Store) -> Store {
    for record in &mut store.records {
        let key = |l: &Lock| (l.owner, l.mode == Mode::Write, l.low, l.high);
        record.locks.sort_by_key(key);
    }
    for edit in &mut store.edits {
        edit.accesses.sort_by_key(|a| a.record);
    }
    store
}

/// The words that Format writes: the counts, free chains in rising order, and zero elsewhere. For counts in range.
pub fn fresh(counts: &Counts) -> Vec<u64> {
    let Counts {
        records,
        edits,
        versions,
        locks,
        accesses,
    } = *counts;
    let mut words = vec![records, edits, versions, locks, accesses, 1, 1, 1];
    words.resize(
        HEADER + RECORD * records as usize + EDIT * edits as usize,
        0,
    );
    for (count, width) in [(versions, VERSION), (locks, LOCK), (accesses, ACCESS)] {
        for row in 1..=count {
            words.resize(words.len() + width - 1, 0);
            words.push(if row < count { row + 1 } else { 0 });
        }
    }
    words
}
