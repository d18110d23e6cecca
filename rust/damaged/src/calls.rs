//! A call of the model, done through the wrapper on lent words or in a session; its reply in the model's terms.

use model::reply::{At, End, Refusal, Reply, Want};
use model::script::Call;
use zohetiwa as z;

fn extent(want: Want) -> z::Extent {
    match want {
        Want::All => z::Extent::All,
        Want::Part => z::Extent::Part,
    }
}

fn finish(end: End) -> z::Finish {
    match end {
        End::Settle => z::Finish::Settle,
        End::Keep => z::Finish::Keep,
    }
}

fn pick(at: At) -> z::Pick {
    match at {
        At::Earliest => z::Pick::Earliest,
        At::Latest => z::Pick::Latest,
        At::Point(point) => z::Pick::Named(z::Point::of_word(point)),
    }
}

fn value(value: z::Value) -> Option<u64> {
    match value {
        z::Value::Never => None,
        z::Value::Written(bits) => Some(bits),
    }
}

pub fn refusal(refusal: z::Refusal) -> Refusal {
    match refusal {
        z::Refusal::Unsound => Refusal::NotSound,
        z::Refusal::NoEdit => Refusal::NoSuchEdit,
        z::Refusal::EditEnded => Refusal::Ended,
        z::Refusal::EditOpen => Refusal::StillOpen,
        z::Refusal::NoRecord => Refusal::NoSuchRecord,
        z::Refusal::BadPoint => Refusal::BadPoint,
        z::Refusal::BelowFloor => Refusal::AtFloor,
        z::Refusal::Held(holder) => Refusal::Held(holder.word()),
        z::Refusal::Frozen => Refusal::Frozen,
        z::Refusal::NoAccessRow => Refusal::NoAccessRow,
        z::Refusal::NoLockRow => Refusal::NoLockRow,
        z::Refusal::NoVersionRow => Refusal::NoVersionRow,
        z::Refusal::NoSlot => Refusal::NoFreeSlot,
        z::Refusal::NotCommon => Refusal::NotCommon,
        z::Refusal::LockedBelow => Refusal::InUse,
        z::Refusal::BadFormat => Refusal::BadFormat,
    }
}

pub fn read(read: z::Read) -> Reply {
    match read {
        z::Read::New { tr, end, value: v } => Reply::Read(tr.word(), end.word(), value(v)),
        z::Read::Own(bits) => Reply::Own(bits),
        z::Read::Again { tr, value: v } => Reply::Again(tr.word(), value(v)),
    }
}

pub fn commit(commit: z::Commit) -> Reply {
    match commit {
        z::Commit::At(point) => Reply::Commit(point.word()),
        z::Commit::NoPoint => Reply::NoPoint,
    }
}

fn edit(handle: z::Handle) -> Reply {
    Reply::Edit(handle.word())
}

fn locked(locked: z::Locked) -> Reply {
    Reply::Locked(locked.first.word(), locked.last.word())
}

fn purged(purged: z::Purged) -> Reply {
    Reply::Purged(purged.versions, purged.locks)
}

fn shown(shown: z::Shown) -> Reply {
    Reply::At(shown.point.word(), value(shown.value))
}

fn done((): ()) -> Reply {
    Reply::Ok
}

fn reply(answer: z::Answer<Reply>) -> Reply {
    answer.unwrap_or_else(|no| Reply::No(refusal(no)))
}

const HANDLE: fn(u64) -> z::Handle = z::Handle::of_word;
const POINT: fn(u64) -> z::Point = z::Point::of_word;

/// Does a call on a store.
pub fn call(words: &mut [u64], call: Call) -> Reply {
    reply(match call {
        Call::Format(counts) => z::format(words, sizes(counts)).map(done),
        Call::Begin => z::begin(words).map(edit),
        Call::Write(h, record, value) => z::write(words, HANDLE(h), record, value).map(done),
        Call::Lock(h, record, low, high, want) => {
            z::lock(words, HANDLE(h), record, POINT(low), POINT(high), extent(want)).map(locked)
        }
        Call::Read(h, record, m, want) => z::read(words, HANDLE(h), record, POINT(m), extent(want)).map(read),
        Call::Commit(h, at, end) => z::commit(words, HANDLE(h), pick(at), finish(end)).map(commit),
        Call::Abort(h, end) => z::abort(words, HANDLE(h), finish(end)).map(done),
        Call::Settle(h) => z::settle(words, HANDLE(h)).map(done),
        Call::Purge(record, b) => z::purge(words, record, POINT(b)).map(purged),
        Call::View(record, p) => z::view(words, record, POINT(p)).map(shown),
    })
}

/// Does a call in a session, which has no Format.
pub fn inside(session: &mut z::Session, call: Call) -> Reply {
    reply(match call {
        Call::Format(_) => panic!("a session has no Format"),
        Call::Begin => session.begin().map(edit),
        Call::Write(h, record, value) => session.write(HANDLE(h), record, value).map(done),
        Call::Lock(h, record, low, high, want) => {
            session.lock(HANDLE(h), record, POINT(low), POINT(high), extent(want)).map(locked)
        }
        Call::Read(h, record, m, want) => session.read(HANDLE(h), record, POINT(m), extent(want)).map(read),
        Call::Commit(h, at, end) => session.commit(HANDLE(h), pick(at), finish(end)).map(commit),
        Call::Abort(h, end) => session.abort(HANDLE(h), finish(end)).map(done),
        Call::Settle(h) => session.settle(HANDLE(h)).map(done),
        Call::Purge(record, b) => session.purge(record, POINT(b)).map(purged),
        Call::View(record, p) => session.view(record, POINT(p)).map(shown),
    })
}

fn sizes(counts: model::store::Counts) -> z::Counts {
    // A count that is no usize is out of range, as the greatest usize is.
    let size = |count| usize::try_from(count).unwrap_or(usize::MAX);
    z::Counts {
        records: size(counts.records),
        edits: size(counts.edits),
        versions: size(counts.versions),
        locks: size(counts.locks),
        accesses: size(counts.accesses),
    }
}

/// The words that a script's Format lays out, as the script program does: new ones of the right length where the counts
/// are in range and not above 8,000 words, else the words as they are, which a refusal leaves alone.
pub fn format(words: &mut Vec<u64>, format: Call) -> Reply {
    let fits = |counts: &model::store::Counts| counts.in_range() && counts.words() <= 8_000;
    match format {
        Call::Format(counts) if fits(&counts) => {
            // What the slice held before must not matter.
            *words = vec![0xdead_beef_dead_beef; counts.words() as usize];
            call(words, format)
        }
        _ => {
            let before = words.clone();
            let reply = call(words, format);
            assert!(*words == before, "a refused Format changed words");
            reply
        }
    }
}
