//! Calls and replies as rows of words (include/zohetiwa.h): what `batch` is lent, by its types.

#![forbid(unsafe_code)]

use crate::codes;
use crate::types::{Answer, Commit, Extent, Finish, Handle, Locked, Pick, Point, Purged, Read, Shown};

/// The words of a call and of its reply in [`batch`](crate::batch).
pub const CALL_WORDS: usize = 6;
pub const REPLY_WORDS: usize = 6;

/// The words of an ask and of its reply in [`views`](crate::views).
pub const ASK_WORDS: usize = 2;
pub const SHOWN_WORDS: usize = 4;

/// A call of a list, with what its own function takes.
#[derive(Clone, Copy, Debug, PartialEq, Eq)]
pub enum Call {
    Begin,
    Write(Handle, u64, u64),
    Lock(Handle, u64, Point, Point, Extent),
    Read(Handle, u64, Point, Extent),
    Commit(Handle, Pick, Finish),
    Abort(Handle, Finish),
    Settle(Handle),
    Purge(u64, Point),
    View(u64, Point),
}

/// What a granted call of a list answers: what its own function does.
#[derive(Clone, Copy, Debug, PartialEq, Eq)]
pub enum Reply {
    Done,
    Edit(Handle),
    Locked(Locked),
    Read(Read),
    Commit(Commit),
    Purged(Purged),
    Shown(Shown),
}

impl Call {
    pub fn words(self) -> [u64; CALL_WORDS] {
        match self {
            Call::Begin => [0; CALL_WORDS],
            Call::Write(h, record, value) => [1, h.word(), record, value, 0, 0],
            Call::Lock(h, record, low, high, extent) => {
                [2, h.word(), record, low.word(), high.word(), codes::part(extent)]
            }
            Call::Read(h, record, m, extent) => [3, h.word(), record, m.word(), codes::part(extent), 0],
            Call::Commit(h, Pick::Earliest, finish) => [4, h.word(), codes::keep(finish), 0, 0, 0],
            Call::Commit(h, Pick::Latest, finish) => [5, h.word(), codes::keep(finish), 0, 0, 0],
            Call::Commit(h, Pick::Named(at), finish) => [6, h.word(), at.word(), codes::keep(finish), 0, 0],
            Call::Abort(h, finish) => [7, h.word(), codes::keep(finish), 0, 0, 0],
            Call::Settle(h) => [8, h.word(), 0, 0, 0, 0],
            Call::Purge(record, b) => [9, record, b.word(), 0, 0, 0],
            Call::View(record, p) => [10, record, p.word(), 0, 0, 0],
        }
    }

    /// What the row of words of this call's reply says.
    pub fn reply(self, row: [u64; REPLY_WORDS]) -> Answer<Reply> {
        let [code, first, second, third, fourth, fifth] = row;
        match self {
            Call::Begin => codes::begin(code, first).map(Reply::Edit),
            Call::Write(..) | Call::Abort(..) | Call::Settle(..) => codes::told(code, Reply::Done),
            Call::Lock(..) => codes::lock(code, first, second).map(Reply::Locked),
            Call::Read(..) => codes::read(code, first, second, third, fourth, fifth).map(Reply::Read),
            Call::Commit(..) => codes::commit(code, first).map(Reply::Commit),
            Call::Purge(..) => codes::purge(code, first, second).map(Reply::Purged),
            Call::View(..) => codes::view(code, first, second, third).map(Reply::Shown),
        }
    }
}

/// Does the calls in their order after one check of the words, and gives their answers.
pub fn run(words: &mut [u64], calls: &[Call]) -> Vec<Answer<Reply>> {
    let list: Vec<u64> = calls.iter().flat_map(|call| call.words()).collect();
    let mut rows = vec![0; calls.len() * REPLY_WORDS];
    crate::batch(words, &list, &mut rows);
    calls.iter().zip(rows.chunks_exact(REPLY_WORDS)).map(|(call, row)| call.reply(row.try_into().unwrap())).collect()
}
