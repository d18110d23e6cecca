//! The flags of calls, and what calls reply.

/// Why a call is refused; `number` gives the number of the table.
#[derive(Clone, Copy, Debug, PartialEq, Eq)]
pub enum Refusal {
    NotSound,
    NoSuchEdit,
    Ended,
    StillOpen,
    NoSuchRecord,
    BadPoint,
    AtFloor,
    Held(u64),
    Frozen,
    NoAccessRow,
    NoLockRow,
    NoVersionRow,
    NoFreeSlot,
    NotCommon,
    InUse,
    BadFormat,
}

impl Refusal {
    pub fn number(self) -> u64 {
        match self {
            Refusal::NotSound => 1,
            Refusal::NoSuchEdit => 2,
            Refusal::Ended => 3,
            Refusal::StillOpen => 4,
            Refusal::NoSuchRecord => 5,
            Refusal::BadPoint => 6,
            Refusal::AtFloor => 7,
            Refusal::Held(_) => 8,
            Refusal::Frozen => 9,
            Refusal::NoAccessRow => 10,
            Refusal::NoLockRow => 11,
            Refusal::NoVersionRow => 12,
            Refusal::NoFreeSlot => 13,
            Refusal::NotCommon => 14,
            Refusal::InUse => 15,
            Refusal::BadFormat => 16,
        }
    }
}

/// Flag A or P.
#[derive(Clone, Copy, Debug, PartialEq, Eq)]
pub enum Want {
    All,
    Part,
}

/// Flag S or K.
#[derive(Clone, Copy, Debug, PartialEq, Eq)]
pub enum End {
    Settle,
    Keep,
}

/// Where to commit.
#[derive(Clone, Copy, Debug, PartialEq, Eq)]
pub enum At {
    Earliest,
    Latest,
    Point(u64),
}

/// A value of a record; `None` is never written.
pub type Value = Option<u64>;

#[derive(Clone, Copy, Debug, PartialEq, Eq)]
pub enum Reply {
    Ok,
    Edit(u64),
    Locked(u64, u64),
    Read(u64, u64, Value),
    Own(u64),
    Again(u64, Value),
    Commit(u64),
    NoPoint,
    Purged(u64, u64),
    At(u64, Value),
    No(Refusal),
}

pub type Answer = Result<Reply, Refusal>;
