//! The planning desk of document 02 (M-101): a session over the calls of the store. It rests on the calls of `script`,
//! whose run has no store where words are not sound. Each call tells which store calls it made, for the plain run.

use crate::reply::{At, End, Refusal, Reply, Want};
use crate::script::{self, Call};
use crate::store::LAST;

/// The session record of a desk. Its edit has the working interval low..high; an interval without a point says that the
/// session has ended. It may hold anything.
#[derive(Clone, Copy, Debug, PartialEq, Eq)]
pub struct Session {
    pub handle: u64,
    pub low: u64,
    pub high: u64,
    /// As it was opened; no call looks at it.
    pub width: u64,
    /// Commit names the latest point of the interval, else the earliest.
    pub latest: bool,
}

#[derive(Clone, Copy, Debug, PartialEq, Eq)]
pub enum Told {
    Opened(Session),
    /// A reply of the store passed on, or a refusal by the desk.
    Reply(Reply),
    /// A read left no point of the interval: the edit is aborted and settled.
    Emptied,
}

/// What a call of a desk has done: what the desk is told, and the store calls that were made, with their replies.
#[derive(Clone, Debug, PartialEq, Eq)]
pub struct Done {
    pub told: Told,
    pub calls: Vec<(Call, Reply)>,
}

/// The store under one call of a desk, and the calls made on it so far.
struct Making<'a> {
    run: &'a mut script::Session,
    calls: Vec<(Call, Reply)>,
}

impl Making<'_> {
    fn call(&mut self, call: Call) -> Result<Reply, String> {
        let reply = self.run.call(call)?;
        self.calls.push((call, reply));
        Ok(reply)
    }
}

/// Makes a call of a desk. The error says which check of the run failed.
fn make(
    run: &mut script::Session,
    tell: impl FnOnce(&mut Making) -> Result<Told, String>,
) -> Result<Done, String> {
    let mut making = Making { run, calls: vec![] };
    let told = tell(&mut making)?;
    let calls = making.calls;
    Ok(Done { told, calls })
}

/// Opens a session with the interval t..t + width. Refusals: 1, 13, 6.
pub fn open(run: &mut script::Session, t: u64, width: u64, latest: bool) -> Result<Done, String> {
    make(run, |making| {
        if t == 0 || t > LAST || width > LAST - t {
            // No Begin is made: to take it back would leave the slot in another generation.
            let begin = match &making.run.store {
                None => Some(Refusal::NotSound),
                Some(store) => store.clone().begin().err(),
            };
            return Ok(Told::Reply(Reply::No(begin.unwrap_or(Refusal::BadPoint))));
        }
        Ok(match making.call(Call::Begin)? {
            Reply::Edit(handle) => Told::Opened(Session {
                handle,
                low: t,
                high: t + width,
                width,
                latest,
            }),
            refused => Told::Reply(refused),
        })
    })
}

impl Session {
    /// Reads up to the interval's end; the interval becomes its part within the lock.
    pub fn read(&mut self, run: &mut script::Session, record: u64) -> Result<Done, String> {
        self.make(run, |session, making| {
            let read = Call::Read(session.handle, record, session.high, Want::Part);
            let reply = making.call(read)?;
            if let Reply::Read(tr, end, _) = reply {
                session.low = session.low.max(tr + 1);
                session.high = session.high.min(end);
            }
            if session.has_ended() {
                making.call(Call::Abort(session.handle, End::Settle))?;
                session.end();
                return Ok(Told::Emptied);
            }
            Ok(Told::Reply(reply))
        })
    }

    /// Locks the interval, which becomes what was granted, and stores the value.
    pub fn write(
        &mut self,
        run: &mut script::Session,
        record: u64,
        value: u64,
    ) -> Result<Done, String> {
        self.make(run, |session, making| {
            let (low, high) = (session.low, session.high);
            let reply = making.call(Call::Lock(session.handle, record, low, high, Want::Part))?;
            let Reply::Locked(first, last) = reply else {
                return Ok(Told::Reply(reply));
            };
            (session.low, session.high) = (first, last);
            let reply = making.call(Call::Write(session.handle, record, value))?;
            Ok(Told::Reply(reply))
        })
    }

    /// Commits at an end of the interval, by the setting, and settles.
    pub fn commit(&mut self, run: &mut script::Session) -> Result<Done, String> {
        self.make(run, |session, making| {
            let point = if session.latest {
                session.high
            } else {
                session.low
            };
            let commit = Call::Commit(session.handle, At::Point(point), End::Settle);
            let reply = making.call(commit)?;
            if matches!(reply, Reply::Commit(_) | Reply::NoPoint) {
                session.end();
            }
            Ok(Told::Reply(reply))
        })
    }

    pub fn has_ended(&self) -> bool {
        self.high < self.low
    }

    fn end(&mut self) {
        (self.low, self.high) = (1, 0);
    }

    /// Makes a call of a session; before the store is called, 1 and then 3 are refused.
    fn make(
        &mut self,
        run: &mut script::Session,
        tell: impl FnOnce(&mut Session, &mut Making) -> Result<Told, String>,
    ) -> Result<Done, String> {
        make(run, |making| match making.run.store {
            None => Ok(Told::Reply(Reply::No(Refusal::NotSound))),
            Some(_) if self.has_ended() => Ok(Told::Reply(Reply::No(Refusal::Ended))),
            Some(_) => tell(self, making),
        })
    }
}
