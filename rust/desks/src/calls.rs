//! One call of a desk on lent words and the words of its session: by the wrapper and in the model, and compared.

use damaged::{calls, compare};
use model::desk::{self, Done, Session, Told};
use model::reply::Reply;
use model::script;
use zohetiwa as z;

/// The words of a session as the library lends them: handle, low, high, width, latest.
pub type Words = [u64; z::SESSION_WORDS];

/// A call of a desk, without its session.
#[derive(Clone, Copy, Debug, PartialEq, Eq)]
pub enum Call {
    Open { t: u64, width: u64, latest: bool },
    Read { record: u64 },
    Write { record: u64, value: u64 },
    Commit,
}

/// The session that words are: any number but 0 names the latest point.
pub fn session(words: &Words) -> Session {
    let [handle, low, high, width, latest] = *words;
    Session { handle, low, high, width, latest: latest != 0 }
}

/// Does the call through the wrapper. An open that is granted sets all words of the session, a refused one none.
fn by_wrapper(store: &mut [u64], words: &mut Words, call: Call) -> Told {
    let mut desk = z::Desk::of_words(*words);
    let answer = match call {
        Call::Open { t, width, latest } => {
            let setting = if latest { z::Setting::Latest } else { z::Setting::Earliest };
            z::Desk::open(store, z::Point::of_word(t), width, setting).map(|opened| {
                desk = opened;
                Told::Opened(session(&desk.words()))
            })
        }
        Call::Read { record } => desk.read(store, record).map(|read| match read {
            z::DeskRead::Told(read) => Told::Reply(calls::read(read)),
            z::DeskRead::Emptied => Told::Emptied,
        }),
        Call::Write { record, value } => desk.write(store, record, value).map(|()| Told::Reply(Reply::Ok)),
        Call::Commit => desk.commit(store).map(|commit| Told::Reply(calls::commit(commit))),
    };
    *words = desk.words();
    answer.unwrap_or_else(|no| Told::Reply(Reply::No(calls::refusal(no))))
}

/// Does the call in the model, and sets the words of the session: all at opening, then all but the number of its
/// setting, which the model does not have.
fn in_model(run: &mut script::Session, words: &mut Words, call: Call) -> Result<Done, String> {
    let mut session = session(words);
    let done = match call {
        Call::Open { t, width, latest } => desk::open(run, t, width, latest)?,
        Call::Read { record } => session.read(run, record)?,
        Call::Write { record, value } => session.write(run, record, value)?,
        Call::Commit => session.commit(run)?,
    };
    match done.told {
        Told::Opened(s) => *words = [s.handle, s.low, s.high, s.width, u64::from(s.latest)],
        _ => words[..4].copy_from_slice(&[session.handle, session.low, session.high, session.width]),
    }
    Ok(done)
}

/// Does the call by both, from the same store and session, and compares what the desk is told, the words of its session
/// and the store after it.
pub fn alike(store: &mut [u64], run: &mut script::Session, words: &mut Words, call: Call) -> Result<Done, String> {
    let before = *words;
    let by_wrapper = |store: &mut [u64]| (by_wrapper(store, words, call), *words);
    let in_model = |run: &mut script::Session| {
        let mut words = before;
        let done = in_model(run, &mut words, call)?;
        Ok(((done.told, words), done.calls))
    };
    let told = compare::alike(store, run, by_wrapper, in_model);
    let ((told, _), calls) = told.map_err(|e| format!("{call:?} of the session {before:?} {e}"))?;
    Ok(Done { told, calls })
}
