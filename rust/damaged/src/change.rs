//! Words of a store changed at random, by kind. The store is sound before, so its chains can be followed.

use model::generate::Random;
use model::store::LAST;

/// What a word is by the layout of document 01.
#[derive(Clone, Copy, Debug, PartialEq, Eq, PartialOrd, Ord)]
pub enum Kind {
    Count,
    Head,
    Link,
    Point,
    Owner,
    LockRecord,
    State,
    Generation,
    Floor,
    CommitPoint,
    AccessRecord,
    PointRead,
    Mark,
    Value,
    /// Three words: the first row of a chain goes to another chain.
    Moved,
    /// Three words: a floor becomes 0, and a lock of the record the settled write lock that its version then needs.
    Lowered,
    /// Two words: a floor and the version on it get another point.
    Shifted,
    /// Two words: a point read and the low end of its read lock shift together.
    ReadShifted,
    /// Three words: two neighbours on the chain of a record's locks change places.
    Swapped,
    /// Seven or eight words: a settled read lock becomes two, which overlap, adjoin or leave a gap of one point.
    Split,
}

/// How often each kind is taken: points and owners more, as most of the clauses are about them.
const KINDS: [Kind; 20] = [
    Kind::Count,
    Kind::Head,
    Kind::Head,
    Kind::Link,
    Kind::Link,
    Kind::Point,
    Kind::Point,
    Kind::Point,
    Kind::Point,
    Kind::Owner,
    Kind::Owner,
    Kind::LockRecord,
    Kind::State,
    Kind::Generation,
    Kind::Floor,
    Kind::CommitPoint,
    Kind::AccessRecord,
    Kind::PointRead,
    Kind::Mark,
    Kind::Value,
];

pub const ALL: [Kind; 20] = [
    Kind::Count,
    Kind::Head,
    Kind::Link,
    Kind::Point,
    Kind::Owner,
    Kind::LockRecord,
    Kind::State,
    Kind::Generation,
    Kind::Floor,
    Kind::CommitPoint,
    Kind::AccessRecord,
    Kind::PointRead,
    Kind::Mark,
    Kind::Value,
    Kind::Moved,
    Kind::Lowered,
    Kind::Shifted,
    Kind::ReadShifted,
    Kind::Swapped,
    Kind::Split,
];

/// A changed word.
#[derive(Clone, Copy, Debug)]
pub struct Change {
    pub kind: Kind,
    #[allow(dead_code)] // Shown with a difference.
    pub at: usize,
    #[allow(dead_code)] // Shown with a difference.
    pub word: u64,
}

/// Rows of a table: where it begins, their width, their count, and those on the chain of a record or an edit.
struct Rows {
    start: usize,
    width: usize,
    count: usize,
    used: Vec<usize>,
}

impl Rows {
    fn new(words: &[u64], start: usize, width: usize, count: u64, heads: impl Iterator<Item = usize>) -> Rows {
        let mut used = vec![];
        for head in heads {
            let mut row = words[head] as usize;
            while row != 0 {
                used.push(row - 1);
                row = words[start + row * width - 1] as usize;
            }
        }
        Rows { start, width, count: count as usize, used }
    }

    /// Where a row begins; rows count from 1.
    fn at(&self, row: u64) -> usize {
        self.start + (row as usize - 1) * self.width
    }

    /// A word of some row, mostly of one in use.
    fn word(&self, word: usize, random: &mut Random) -> usize {
        let row = if !self.used.is_empty() && random.percent(85) {
            random.pick(&self.used)
        } else {
            random.from(0, self.count as u64 - 1) as usize
        };
        self.start + row * self.width + word
    }
}

/// Where the words of a sound store lie.
struct Tables {
    records: Rows,
    edits: Rows,
    versions: Rows,
    locks: Rows,
    accesses: Rows,
}

impl Tables {
    fn new(words: &[u64]) -> Tables {
        let records = 8;
        let edits = records + 3 * words[0] as usize;
        let versions = edits + 4 * words[1] as usize;
        let locks = versions + 4 * words[2] as usize;
        let accesses = locks + 5 * words[3] as usize;
        let heads =
            |start: usize, width: usize, count: u64, word| (0..count as usize).map(move |i| start + i * width + word);
        let of_records = |word| heads(records, 3, words[0], word);
        let mut tables = Tables {
            records: Rows::new(words, records, 3, words[0], std::iter::empty()),
            edits: Rows::new(words, edits, 4, words[1], std::iter::empty()),
            versions: Rows::new(words, versions, 4, words[2], of_records(0)),
            locks: Rows::new(words, locks, 5, words[3], of_records(1)),
            accesses: Rows::new(words, accesses, 5, words[4], heads(edits, 4, words[1], 2)),
        };
        let used = |r: &usize| words[records + 3 * r..][..3] != [0, 0, 0];
        tables.records.used = (0..words[0] as usize).filter(used).collect();
        tables
    }

    /// A place of the kind.
    fn place(&self, kind: Kind, random: &mut Random) -> usize {
        match kind {
            Kind::Count => random.from(0, 4) as usize,
            Kind::Head => match random.from(0, 4) {
                0 => random.from(5, 7) as usize,
                1 | 2 => self.records.word(random.from(0, 1) as usize, random),
                _ => self.edits.word(2, random),
            },
            Kind::Link => match random.from(0, 2) {
                0 => self.versions.word(3, random),
                1 => self.locks.word(4, random),
                _ => self.accesses.word(4, random),
            },
            Kind::Point => match random.from(0, 2) {
                0 => self.versions.word(0, random),
                end => self.locks.word(end as usize - 1, random),
            },
            Kind::Owner => self.locks.word(2, random),
            Kind::LockRecord => self.locks.word(3, random),
            Kind::State => self.edits.word(0, random),
            Kind::Generation => self.edits.word(1, random),
            Kind::Floor => self.records.word(2, random),
            Kind::CommitPoint => self.edits.word(3, random),
            Kind::AccessRecord => self.accesses.word(0, random),
            Kind::PointRead => self.accesses.word(1, random),
            Kind::Mark => self.accesses.word(2, random),
            Kind::Value => match random.from(0, 2) {
                0 => self.accesses.word(3, random),
                word => self.versions.word(word as usize, random),
            },
            Kind::Moved | Kind::Lowered | Kind::Shifted | Kind::ReadShifted | Kind::Swapped | Kind::Split => {
                unreachable!("changes of several words have no one place")
            }
        }
    }

    /// Another word for a place: near, of a place like it, small, a point of the store, or at an end.
    fn word(&self, words: &[u64], kind: Kind, at: usize, random: &mut Random) -> u64 {
        let old = words[at];
        match random.from(0, 9) {
            0..=2 => random.pick(&[old.wrapping_add(1), old.wrapping_sub(1)]),
            3..=4 => words[self.place(kind, random)],
            5..=6 if kind == Kind::Owner => random.from(1, 2) + 4 * random.from(0, self.edits.count as u64 + 1),
            5..=6 if kind == Kind::State => random.from(0, 3),
            5..=6 => {
                let point = words[self.place(Kind::Point, random)];
                random.pick(&[point, point.wrapping_add(1), point.wrapping_sub(1)])
            }
            7..=8 => random.from(0, 12),
            _ => {
                let any = random.next();
                random.pick(&[0, 65_535, 65_536, 5_000, LAST, LAST + 1, 1 << 63, u64::MAX, any])
            }
        }
    }

    /// Changes one word.
    fn change(&self, words: &mut [u64], random: &mut Random) -> Change {
        let kind = random.pick(&KINDS);
        let at = self.place(kind, random);
        let old = words[at];
        while words[at] == old {
            words[at] = self.word(words, kind, at, random);
        }
        Change { kind, at, word: words[at] }
    }

    /// A head of a table's chains: the free one, or one of a record or an edit.
    fn head(&self, table: usize, random: &mut Random) -> usize {
        match table {
            _ if random.percent(40) => 5 + table,
            2 => self.edits.word(2, random),
            word => self.records.word(word, random),
        }
    }

    /// Moves the first row of a chain to the front of another. `None` if the chains met are empty or the same.
    fn moved(&self, words: &mut [u64], random: &mut Random) -> Option<Change> {
        let table = random.from(0, 2) as usize;
        let rows = [&self.versions, &self.locks, &self.accesses][table];
        let (from, to) = (self.head(table, random), self.head(table, random));
        let row = words[from];
        if from == to || row == 0 {
            return None;
        }
        let link = rows.at(row) + rows.width - 1;
        words[from] = words[link];
        words[link] = words[to];
        words[to] = row;
        Some(Change { kind: Kind::Moved, at: from, word: words[from] })
    }

    /// Lowers a floor to 0. `None` if the record met has floor 0 or no lock.
    fn lowered(&self, words: &mut [u64], random: &mut Random) -> Option<Change> {
        let at = self.records.word(2, random);
        let (floor, lock) = (words[at], words[at - 1]);
        if floor == 0 || lock == 0 {
            return None;
        }
        let lock = self.locks.at(lock);
        words[at] = 0;
        words[lock] = floor;
        words[lock + 2] = 2;
        Some(Change { kind: Kind::Lowered, at, word: 0 })
    }

    /// Shifts a floor with its version, the last of its chain. `None` if the record met has floor 0.
    fn shifted(&self, words: &mut [u64], random: &mut Random) -> Option<Change> {
        let at = self.records.word(2, random);
        let floor = words[at];
        if floor == 0 {
            return None;
        }
        let mut row = words[at - 2];
        while words[self.versions.at(row) + 3] != 0 {
            row = words[self.versions.at(row) + 3];
        }
        let word = random.pick(&[floor - 1, floor + 1, LAST, LAST + 1, u64::MAX]);
        words[at] = word;
        words[self.versions.at(row)] = word;
        Some(Change { kind: Kind::Shifted, at, word })
    }

    /// Shifts the point read of an edit's first access, with the read lock that starts just after it. `None` if the
    /// slot met has no such access.
    fn read_shifted(&self, words: &mut [u64], random: &mut Random) -> Option<Change> {
        let slot = random.from(1, self.edits.count as u64);
        let access = match words[self.edits.at(slot) + 2] {
            0 => return None,
            row => self.accesses.at(row),
        };
        let (record, after) = (words[access], words[access + 1]);
        let mut row = words[self.records.at(record + 1) + 1];
        while row != 0 {
            let lock = self.locks.at(row);
            if words[lock] == after && words[lock + 2] == 1 + 4 * slot {
                let word = random.pick(&[after + 1, after - 1]);
                words[access + 1] = word;
                words[lock] = word;
                return Some(Change { kind: Kind::ReadShifted, at: access + 1, word });
            }
            row = words[lock + 4];
        }
        None
    }

    /// The places of all words that lead to a lock of a record: the head of its chain or the link of the lock before.
    fn leads(&self, words: &[u64]) -> Vec<usize> {
        let mut leads = vec![];
        for record in 1..=self.records.count as u64 {
            let mut lead = self.records.at(record) + 1;
            while words[lead] != 0 {
                leads.push(lead);
                lead = self.locks.at(words[lead]) + 4;
            }
        }
        leads
    }

    /// Two neighbours on a chain of locks change places. `None` if no record has two locks.
    fn swapped(&self, words: &mut [u64], random: &mut Random) -> Option<Change> {
        let mut leads = self.leads(words);
        leads.retain(|&lead| words[self.locks.at(words[lead]) + 4] != 0);
        if leads.is_empty() {
            return None;
        }
        let at = random.pick(&leads);
        let first = self.locks.at(words[at]) + 4;
        let second = self.locks.at(words[first]) + 4;
        let row = words[at];
        (words[at], words[first], words[second]) = (words[first], words[second], row);
        Some(Change { kind: Kind::Swapped, at, word: words[at] })
    }

    /// Splits a settled read lock, with a free row put where the order has it. `None` if no such lock has three points,
    /// or if no row is free.
    fn split(&self, words: &mut [u64], random: &mut Random) -> Option<Change> {
        let mut leads = self.leads(words);
        leads.retain(|&lead| {
            let lock = self.locks.at(words[lead]);
            words[lock + 2] == 1 && words[lock + 1] - words[lock] >= 2
        });
        let free = words[6];
        if leads.is_empty() || free == 0 {
            return None;
        }
        let first = self.locks.at(words[random.pick(&leads)]);
        let second = self.locks.at(free);
        let (low, high) = (words[first], words[first + 1]);
        let end = low + random.from(0, high - low - 2);
        let start = end + random.from(0, 2);
        words[6] = words[second + 4];
        words[first + 1] = end;
        let mut lead = first + 4;
        while words[lead] != 0 && words[self.locks.at(words[lead])] < start {
            lead = self.locks.at(words[lead]) + 4;
        }
        let row = [start, high, 1, words[first + 3], words[lead]];
        words[second..second + 5].copy_from_slice(&row);
        words[lead] = free;
        Some(Change { kind: Kind::Split, at: first + 1, word: end })
    }
}

/// Changes so many words: each by itself, or where it is 3 also two or more that belong together.
pub fn some(words: &mut [u64], many: u64, random: &mut Random) -> Vec<Change> {
    let tables = Tables::new(words);
    if many == 3 && random.percent(70) {
        let together = match random.from(0, 5) {
            0 => tables.moved(words, random),
            1 => tables.lowered(words, random),
            2 => tables.shifted(words, random),
            3 => tables.swapped(words, random),
            4 => tables.split(words, random),
            _ => tables.read_shifted(words, random),
        };
        if let Some(change) = together {
            return vec![change];
        }
    }
    (0..many).map(|_| tables.change(words, random)).collect()
}
