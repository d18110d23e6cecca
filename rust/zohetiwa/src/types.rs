//! What callers of the store say and hear, by the names of the crate `meaning`.

#![forbid(unsafe_code)]

/// The last point.
pub const LAST: Point = Point((1 << 46) - 1);

/// A clock reading. Only [`point`](crate::point) turns it into a point.
#[derive(Clone, Copy, Debug, PartialEq, Eq, PartialOrd, Ord, Hash)]
pub struct Reading(pub u64);

/// A seat number: which desk reads the clock.
#[derive(Clone, Copy, Debug, PartialEq, Eq, PartialOrd, Ord, Hash)]
pub struct Seat(pub u64);

/// A point, reading * 64 + seat. Its field is private, so that a bare reading never passes for a point.
///
/// ```
/// use zohetiwa::{point, view, Reading, Seat};
/// let p = point(Reading(7), Seat(3)).unwrap();
/// assert_eq!(p.word(), 451);
/// let _ = view(&[], 0, p);
/// ```
/// A reading is not taken for a point:
/// ```compile_fail,E0308
/// use zohetiwa::{view, Reading};
/// let p = Reading(7);
/// let _ = view(&[], 0, p);
/// ```
/// and no caller makes one of a number but by [`Point::of_word`]:
/// ```compile_fail,E0423
/// use zohetiwa::{view, Point};
/// let p = Point(7);
/// let _ = view(&[], 0, p);
/// ```
#[derive(Clone, Copy, Debug, PartialEq, Eq, PartialOrd, Ord, Hash)]
pub struct Point(u64);

impl Point {
    /// The point of a word that already is one: stored, sent, or replied earlier. It may lie above [`LAST`], and the
    /// calls then refuse it.
    pub const fn of_word(word: u64) -> Point {
        Point(word)
    }

    pub const fn word(self) -> u64 {
        self.0
    }
}

/// The handle of an edit, generation * 64 + slot.
#[derive(Clone, Copy, Debug, PartialEq, Eq, Hash)]
pub struct Handle(u64);

impl Handle {
    /// The handle of a word that already is one. Any word may be asked: one that names no edit is refused.
    pub const fn of_word(word: u64) -> Handle {
        Handle(word)
    }

    pub const fn word(self) -> u64 {
        self.0
    }
}

/// The five counts of a store.
#[derive(Clone, Copy, Debug, PartialEq, Eq)]
pub struct Counts {
    pub records: usize,
    pub edits: usize,
    pub versions: usize,
    pub locks: usize,
    pub accesses: usize,
}

impl Counts {
    /// The length of the array that a store of these counts needs; the greatest number if it does not fit in one.
    pub const fn length(self) -> usize {
        8usize
            .saturating_add(self.records.saturating_mul(3))
            .saturating_add(self.edits.saturating_mul(4))
            .saturating_add(self.versions.saturating_mul(4))
            .saturating_add(self.locks.saturating_mul(5))
            .saturating_add(self.accesses.saturating_mul(5))
    }
}

/// The flags A and P: all points or none, or a part.
#[derive(Clone, Copy, Debug, PartialEq, Eq)]
pub enum Extent {
    All,
    Part,
}

/// The flags S and K: settle at the end, or keep the locks.
#[derive(Clone, Copy, Debug, PartialEq, Eq)]
pub enum Finish {
    Settle,
    Keep,
}

/// Where a commit is wanted: E, L or a named point.
#[derive(Clone, Copy, Debug, PartialEq, Eq)]
pub enum Pick {
    Earliest,
    Latest,
    Named(Point),
}

/// The value of a record: never written, or any 64 bits.
#[derive(Clone, Copy, Debug, PartialEq, Eq)]
pub enum Value {
    Never,
    Written(u64),
}

/// The points that a Lock has write-locked, `first..=last`.
#[derive(Clone, Copy, Debug, PartialEq, Eq)]
pub struct Locked {
    pub first: Point,
    pub last: Point,
}

/// What a Read answers.
#[derive(Clone, Copy, Debug, PartialEq, Eq)]
pub enum Read {
    /// The newest version below m, at `tr`; the points after `tr` up to `end` are now read-locked.
    New { tr: Point, end: Point, value: Value },
    /// The edit's own pending value.
    Own(u64),
    /// The version, at `tr`, that the edit read before.
    Again { tr: Point, value: Value },
}

/// How a Commit has ended the edit.
#[derive(Clone, Copy, Debug, PartialEq, Eq)]
pub enum Commit {
    /// Its values are versions at this point.
    At(Point),
    /// There was no point: the edit is aborted. This is no refusal.
    NoPoint,
}

/// The rows that a Purge has freed. Settled read locks of a record that overlap or adjoin are one row; one that was
/// only shortened is not counted.
#[derive(Clone, Copy, Debug, PartialEq, Eq)]
pub struct Purged {
    pub versions: u64,
    pub locks: u64,
}

/// What a View shows: a version's point and value; point 0 and never written if there is none.
#[derive(Clone, Copy, Debug, PartialEq, Eq)]
pub struct Shown {
    pub point: Point,
    pub value: Value,
}

/// The sixteen ways to say no, in the order of their numbers. A refusal changes no word, but for
/// [`NoAccessRow`](Refusal::NoAccessRow) after the lock of [`Desk::write`](crate::Desk::write).
#[derive(Clone, Copy, Debug, PartialEq, Eq)]
pub enum Refusal {
    /// The array is no sound store.
    Unsound,
    /// No such edit: the handle's slot is out of range or free, or had another begin.
    NoEdit,
    /// The edit has committed or aborted, or the desk's session has ended.
    EditEnded,
    /// The edit is still open, so it cannot be settled.
    EditOpen,
    /// No such record.
    NoRecord,
    /// A reading, seat or point too large; low above high; m, a desk's t or the commit point 0.
    BadPoint,
    /// Low or m at or below the record's floor; a view below it.
    BelowFloor,
    /// Another edit holds a point that is wanted: its handle.
    Held(Handle),
    /// A settled lock or a version stands on a point that is wanted.
    Frozen,
    /// No access row is free.
    NoAccessRow,
    /// No lock row is free.
    NoLockRow,
    /// Fewer version rows are free than records were written.
    NoVersionRow,
    /// No edit slot is free.
    NoSlot,
    /// The named commit point is not one that the edit may commit at.
    NotCommon,
    /// An unsettled edit has a lock on the record at or below the new floor.
    LockedBelow,
    /// A count is out of range, or the length is not the one that the counts need.
    BadFormat,
}

impl Refusal {
    /// The number in document 01.
    pub const fn number(self) -> u64 {
        match self {
            Refusal::Unsound => 1,
            Refusal::NoEdit => 2,
            Refusal::EditEnded => 3,
            Refusal::EditOpen => 4,
            Refusal::NoRecord => 5,
            Refusal::BadPoint => 6,
            Refusal::BelowFloor => 7,
            Refusal::Held(_) => 8,
            Refusal::Frozen => 9,
            Refusal::NoAccessRow => 10,
            Refusal::NoLockRow => 11,
            Refusal::NoVersionRow => 12,
            Refusal::NoSlot => 13,
            Refusal::NotCommon => 14,
            Refusal::LockedBelow => 15,
            Refusal::BadFormat => 16,
        }
    }
}

impl std::fmt::Display for Refusal {
    /// As a script prints it.
    fn fmt(&self, f: &mut std::fmt::Formatter<'_>) -> std::fmt::Result {
        match self {
            Refusal::Held(holder) => write!(f, "no 8 {}", holder.word()),
            other => write!(f, "no {}", other.number()),
        }
    }
}

impl std::error::Error for Refusal {}

/// A granted call's reply, or why it was refused.
pub type Answer<T> = Result<T, Refusal>;
