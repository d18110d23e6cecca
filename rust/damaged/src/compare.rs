//! One call through the wrapper, on words or in a session, and in the model, from the same words: verdict, reply and
//! meaning.

use crate::calls;
use model::reply::Reply;
use model::script::{Call, Session};
use model::words::{decode, decode_whole, ordered, Unjudged};
use std::collections::HashMap;
use std::fmt::Debug;

/// What has the words of a store: lent words themselves, or a session with them.
pub trait Words {
    fn words(&self) -> &[u64];
}

impl Words for [u64] {
    fn words(&self) -> &[u64] {
        self
    }
}

impl Words for zohetiwa::Session<'_> {
    fn words(&self) -> &[u64] {
        zohetiwa::Session::words(self)
    }
}

/// Does the call on the words, and compares; the error says what differs.
pub fn call(words: &mut [u64], call: Call) -> Result<Reply, String> {
    let mut run = Session::new(false);
    run.store = decode(words);
    step(words, &mut run, call)
}

/// Does the call on the words and in a run of the model that has the store which they mean.
pub fn step(words: &mut [u64], run: &mut Session, call: Call) -> Result<Reply, String> {
    same(words, run, call, calls::call)
}

/// Does the call in a session and in a run of the model that has the store which its words mean.
pub fn inside(session: &mut zohetiwa::Session, run: &mut Session, call: Call) -> Result<Reply, String> {
    same(session, run, call, calls::inside)
}

fn same<W: Words + ?Sized>(
    words: &mut W,
    run: &mut Session,
    call: Call,
    by_wrapper: impl FnOnce(&mut W, Call) -> Reply,
) -> Result<Reply, String> {
    let in_model = |run: &mut Session| run.call(call).map(|reply| (reply, vec![(call, reply)]));
    let done = alike(words, run, |words| by_wrapper(words, call), in_model);
    done.map(|(reply, _)| reply).map_err(|e| format!("{call:?} {e}"))
}

/// What a call tells, and the store calls that it consists of, with their replies.
pub type Done<T> = (T, Vec<(Call, Reply)>);

/// Does a call through the wrapper and in the model, from the same store or from words that are no store. Compares what
/// they tell, and the stores after it; no word changes where each store call is refused or only looks.
pub fn alike<W: Words + ?Sized, T: Debug + PartialEq>(
    lent: &mut W,
    run: &mut Session,
    by_wrapper: impl FnOnce(&mut W) -> T,
    in_model: impl FnOnce(&mut Session) -> Result<Done<T>, String>,
) -> Result<Done<T>, String> {
    let before = lent.words().to_vec();
    let told = by_wrapper(lent);
    let words = lent.words();
    let (expected, calls) = in_model(run)?;
    if told != expected {
        return Err(format!("replied {told:?}, in the model {expected:?}"));
    }
    if calls.iter().all(|(_, reply)| matches!(reply, Reply::No(_) | Reply::At(..))) {
        return if *words == *before { Ok((told, calls)) } else { Err(format!("replied {told:?} and changed words")) };
    }
    let (Some((_, unjudged)), Some((after, left))) = (decode_whole(&before), decode_whole(words)) else {
        return Err(format!("replied {told:?}; the words are not sound after it"));
    };
    if Some(ordered(after)) != run.store.clone().map(ordered) {
        return Err(format!("replied {told:?}; the words mean another store after it"));
    }
    let filled = calls.iter().find_map(|&(call, reply)| match (call, reply) {
        (Call::Read(handle, record, ..), Reply::Read(..)) => Some((handle % 64, record as usize)),
        _ => None,
    });
    same_unjudged(&unjudged, &left, filled).map_err(|e| format!("replied {told:?}; {e}"))?;
    Ok((told, calls))
}

/// The words that no clause judges: 0 in a row that the call fills (the table's "0 until written"), as they were in the
/// others. `filled` is the slot and the record of an access that a Read has filled.
fn same_unjudged(before: &Unjudged, after: &Unjudged, filled: Option<(u64, usize)>) -> Result<(), String> {
    let thirds: HashMap<(usize, u64), u64> = before.thirds.iter().map(|&(r, p, word)| ((r, p), word)).collect();
    for &(r, p, word) in &after.thirds {
        if word != thirds.get(&(r, p)).copied().unwrap_or(0) {
            return Err(format!("the third word of version {p} of record {r} is {word}"));
        }
    }
    let values: HashMap<(u64, usize), u64> = before.values.iter().map(|&(s, r, word)| ((s, r), word)).collect();
    for &(s, r, word) in &after.values {
        let kept = values.get(&(s, r)).copied().filter(|_| filled != Some((s, r)));
        if word != kept.unwrap_or(0) {
            return Err(format!("the value word of slot {s} on record {r}, not written, is {word}"));
        }
    }
    Ok(())
}
