//! Calls and replies as rows of six words: what the batch takes and gives (include/zohetiwa.h). One function runs a row
//! on any store that has the calls of document 01, so that every store answers the same list.

use zohetiwa::*;

/// Words of a call, and of a reply.
pub const ROW: usize = CALL_WORDS;

pub type Row = [u64; ROW];

pub const BEGIN: u64 = 0;
pub const WRITE: u64 = 1;
pub const LOCK: u64 = 2;
pub const READ: u64 = 3;
pub const EARLIEST: u64 = 4;
pub const LATEST: u64 = 5;
pub const NAMED: u64 = 6;
pub const ABORT: u64 = 7;
pub const SETTLE: u64 = 8;
pub const PURGE: u64 = 9;
pub const VIEW: u64 = 10;

/// The names of the kinds, by their numbers.
pub const KINDS: [&str; 11] = [
    "Begin",
    "Write",
    "Lock",
    "Read",
    "Commit, earliest",
    "Commit, latest",
    "Commit, named",
    "Abort",
    "Settle",
    "Purge",
    "View",
];

/// The calls of document 01 on a store that is there.
pub trait Store {
    fn begin(&mut self) -> Answer<Handle>;
    fn write(&mut self, handle: Handle, record: u64, value: u64) -> Answer<()>;
    fn lock(&mut self, handle: Handle, record: u64, low: Point, high: Point, extent: Extent) -> Answer<Locked>;
    fn read(&mut self, handle: Handle, record: u64, m: Point, extent: Extent) -> Answer<Read>;
    fn commit(&mut self, handle: Handle, pick: Pick, finish: Finish) -> Answer<Commit>;
    fn abort(&mut self, handle: Handle, finish: Finish) -> Answer<()>;
    fn settle(&mut self, handle: Handle) -> Answer<()>;
    fn purge(&mut self, record: u64, b: Point) -> Answer<Purged>;
    fn view(&self, record: u64, p: Point) -> Answer<Shown>;
}

/// Runs the calls one after another.
pub fn run<S: Store + ?Sized>(store: &mut S, calls: &[u64], replies: &mut [u64]) {
    for (call, reply) in calls.chunks_exact(ROW).zip(replies.chunks_exact_mut(ROW)) {
        reply.copy_from_slice(&answer(store, call.try_into().expect("six words")));
    }
}

/// Answers asks of two words, record and point, by four: code, point, written, value.
pub fn show(view: impl Fn(u64, Point) -> Answer<Shown>, asks: &[u64], replies: &mut [u64]) {
    for (ask, reply) in asks.chunks_exact(ASK_WORDS).zip(replies.chunks_exact_mut(SHOWN_WORDS)) {
        let row = row(view(ask[0], Point::of_word(ask[1])), shown_row);
        reply.copy_from_slice(&row[..SHOWN_WORDS]);
    }
}

/// Does the reply refuse for want of a row or slot?
pub fn no_room(reply: Row) -> bool {
    (10..=13).contains(&reply[0])
}

/// Runs one call.
pub fn answer<S: Store + ?Sized>(store: &mut S, call: Row) -> Row {
    let [kind, a, b, c, d, e] = call;
    let edit = Handle::of_word(a);
    match kind {
        BEGIN => row(store.begin(), |h| [0, h.word(), 0, 0, 0, 0]),
        WRITE => row(store.write(edit, b, c), |()| [0; ROW]),
        LOCK => row(store.lock(edit, b, Point::of_word(c), Point::of_word(d), extent(e)), |l| {
            [0, l.first.word(), l.last.word(), 0, 0, 0]
        }),
        READ => row(store.read(edit, b, Point::of_word(c), extent(d)), read_row),
        EARLIEST => row(store.commit(edit, Pick::Earliest, finish(b)), commit_row),
        LATEST => row(store.commit(edit, Pick::Latest, finish(b)), commit_row),
        NAMED => row(store.commit(edit, Pick::Named(Point::of_word(b)), finish(c)), commit_row),
        ABORT => row(store.abort(edit, finish(b)), |()| [0; ROW]),
        SETTLE => row(store.settle(edit), |()| [0; ROW]),
        PURGE => row(store.purge(a, Point::of_word(b)), |p| [0, p.versions, p.locks, 0, 0, 0]),
        _ => row(store.view(a, Point::of_word(b)), shown_row),
    }
}

fn row<T>(answer: Answer<T>, granted: impl Fn(T) -> Row) -> Row {
    match answer {
        Ok(reply) => granted(reply),
        Err(refusal) => [code(refusal), 0, 0, 0, 0, 0],
    }
}

fn code(refusal: Refusal) -> u64 {
    match refusal {
        Refusal::Held(holder) => holder.word() * 32 + refusal.number(),
        _ => refusal.number(),
    }
}

fn read_row(read: Read) -> Row {
    match read {
        Read::New { tr, end, value } => {
            let (written, bits) = numbers(value);
            [0, 1, tr.word(), end.word(), written, bits]
        }
        Read::Own(value) => [0, 2, 0, 0, 1, value],
        Read::Again { tr, value } => {
            let (written, bits) = numbers(value);
            [0, 3, tr.word(), 0, written, bits]
        }
    }
}

fn shown_row(shown: Shown) -> Row {
    let (written, bits) = numbers(shown.value);
    [0, shown.point.word(), written, bits, 0, 0]
}

fn commit_row(commit: Commit) -> Row {
    match commit {
        Commit::At(point) => [0, point.word(), 0, 0, 0, 0],
        Commit::NoPoint => [NOPOINT, 0, 0, 0, 0, 0],
    }
}

fn numbers(value: Value) -> (u64, u64) {
    match value {
        Value::Never => (0, 0),
        Value::Written(bits) => (1, bits),
    }
}

fn extent(part: u64) -> Extent {
    match part {
        0 => Extent::All,
        _ => Extent::Part,
    }
}

fn finish(keep: u64) -> Finish {
    match keep {
        0 => Finish::Settle,
        _ => Finish::Keep,
    }
}
