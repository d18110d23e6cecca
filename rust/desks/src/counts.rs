//! How often each call of a desk had each outcome. `OUTCOMES` has every one that can come: another one is an error, and
//! so is one that came too seldom.
//!
//! What cannot come: an open gives 1, 13 and 6 alone. Neither a Read nor a Lock gives 4 or 12 to 16, and a Lock no 10;
//! a Write after a granted Lock gives 10 alone. A Commit at a named point gives no 4, 5, 7 to 11, 13, 15 or 16. 1 does
//! not come on words that nobody has changed.

use crate::calls::{session, Call, Words};
use model::count::{self, Counted};
use model::desk::{Done, Told};
use model::reply::{Refusal, Reply};
use model::script::show;
use model::store::LAST;

const OUTCOMES: [&str; 62] = [
    "open: earliest",
    "open: latest",
    "open: no  6, bad interval",
    "open: no 13, bad interval",
    "open: no 13, good interval",
    "read: read, whole",
    "read: read, cut below",
    "read: read, cut above",
    "read: read, cut at both ends",
    "read: own",
    "read: again",
    "read: emptied, one point",
    "read: emptied, several points",
    "read: no  2",
    "read: no  3, by the desk",
    "read: no  3, by the store",
    "read: no  5",
    "read: no  6",
    "read: no  7",
    "read: no  8",
    "read: no  9",
    "read: no 10",
    "read: no 11",
    "write: ok, whole",
    "write: ok, cut below",
    "write: ok, cut above",
    "write: ok, cut at both ends",
    "write: no  2",
    "write: no  3, by the desk",
    "write: no  3, by the store",
    "write: no  5",
    "write: no  6",
    "write: no  7",
    "write: no  8",
    "write: no  9",
    "write: no 10, whole",
    "write: no 10, cut below",
    "write: no 10, cut above",
    "write: no 10, cut at both ends",
    "write: no 11",
    "commit: commit, earliest",
    "commit: commit, latest",
    "commit: nopoint",
    "commit: no  2",
    "commit: no  3, by the desk",
    "commit: no  3, by the store",
    "commit: no  6",
    "commit: no 12",
    "commit: no 14",
    TWIN,
    "changed words, not sound: open, bad interval",
    "changed words, not sound: open, good interval",
    "changed words, not sound: read, ended session",
    "changed words, not sound: read, session with points",
    "changed words, not sound: write, ended session",
    "changed words, not sound: write, session with points",
    "changed words, not sound: commit, ended session",
    "changed words, not sound: commit, session with points",
    "changed words, sound: open",
    "changed words, sound: read",
    "changed words, sound: write",
    "changed words, sound: commit",
];

/// Counted beside the outcome.
pub const TWIN: &str = "the edit is open, and another session has it too";

/// Each outcome comes once in so many histories, or more often.
const SELDOM: u64 = 1_000;

fn name(call: Call) -> &'static str {
    match call {
        Call::Open { .. } => "open",
        Call::Read { .. } => "read",
        Call::Write { .. } => "write",
        Call::Commit => "commit",
    }
}

/// The interval that an open asks for, or whether the session has ended.
fn given(call: Call, words: &Words) -> &'static str {
    match call {
        Call::Open { t, width, .. } if t == 0 || t > LAST || width > LAST - t => "bad interval",
        Call::Open { .. } => "good interval",
        _ if session(words).has_ended() => "ended session",
        _ => "session with points",
    }
}

fn end(latest: bool) -> &'static str {
    if latest {
        "latest"
    } else {
        "earliest"
    }
}

/// Where the interval was cut.
fn cut(before: &Words, after: &Words) -> &'static str {
    match (before[1] == after[1], before[2] == after[2]) {
        (true, true) => "whole",
        (false, true) => "cut below",
        (true, false) => "cut above",
        (false, false) => "cut at both ends",
    }
}

/// What came of a call of a desk: also whether the interval was cut, at which end a commit was, who has refused.
pub fn outcome(call: Call, before: &Words, after: &Words, done: &Done) -> String {
    let reply = match done.told {
        Told::Opened(opened) => return format!("open: {}", end(opened.latest)),
        Told::Emptied if before[1] == before[2] => return "read: emptied, one point".to_string(),
        Told::Emptied => return "read: emptied, several points".to_string(),
        Told::Reply(reply) => reply,
    };
    let plain = format!("{}: {}", name(call), count::kind(&show(reply)));
    let more = match (call, reply) {
        (Call::Open { .. }, _) => given(call, before),
        (_, Reply::No(Refusal::Ended)) if done.calls.is_empty() => "by the desk",
        (_, Reply::No(Refusal::Ended)) => "by the store",
        (Call::Read { .. }, Reply::Read(..)) | (Call::Write { .. }, Reply::Ok | Reply::No(Refusal::NoAccessRow)) => {
            cut(before, after)
        }
        (_, Reply::Commit(_)) => end(session(before).latest),
        _ => return plain,
    };
    format!("{plain}, {more}")
}

/// What came of a call on words that were changed.
pub fn changed(call: Call, before: &Words, sound: bool) -> String {
    if sound {
        format!("changed words, sound: {}", name(call))
    } else {
        format!("changed words, not sound: {}, {}", name(call), given(call, before))
    }
}

pub fn print(counted: &Counted) {
    let compared = counted.compared.counts();
    let kinds = counted.kinds.iter().map(|(kind, count)| (kind.as_str(), *count));
    for (kind, count) in kinds.chain(compared) {
        println!("{count:>9}  {kind}");
    }
}

/// Every outcome came, and no other.
pub fn reached(counted: &Counted, histories: u64) -> Result<(), String> {
    for outcome in OUTCOMES {
        if counted.kinds.get(outcome).copied().unwrap_or_default() < histories.div_ceil(SELDOM) {
            return Err(format!("came too seldom: {outcome}"));
        }
    }
    match counted.kinds.keys().find(|kind| !OUTCOMES.contains(&kind.as_str())) {
        Some(kind) => Err(format!("cannot come: {kind}")),
        None => counted.compared_enough(),
    }
}
