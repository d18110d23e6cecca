//! Damaged stores: stores made by random calls through the wrapper, with 0 to 3 words changed at random, or some that
//! belong together. A call is refused with 1 exactly if the model's `words::sound` says no; every other call gives the
//! model's reply and leaves words that mean the model's store. A session opens on the same words exactly if the model
//! says yes, and its calls reply and leave the same; if it does not open the index is as it was.
//!
//!     damaged STORES FILE     exits with 1 at the first difference, and keeps it in FILE with the words

#![forbid(unsafe_code)]

mod counts;

use counts::Counted;
use damaged::{calls, change, compare, program};
use model::generate::{script, Random};
use model::script::{parse, Call, Session};
use model::store::LAST;
use model::words::{decode, fresh, ordered};
use std::process::ExitCode;
use zohetiwa as z;

/// Lines of one random script.
const LINES: usize = 100;
/// Damaged copies of each store that the script makes.
const COPIES: usize = 2;
/// Calls on one damaged copy that is sound, and again in a session on it.
const CALLS: usize = 4;

/// The call at an index. A Format ends the store it is given, and past the end there is none: a View instead.
fn call_at(calls: &[Call], index: usize) -> Call {
    match calls.get(index) {
        None | Some(Call::Format(_)) => Call::View(0, LAST),
        Some(call) => *call,
    }
}

/// One step of the undamaged store; the session has gone from its Format by the model alone.
fn step(words: &mut Vec<u64>, session: &mut Session, call: Call) -> Result<(), String> {
    let expected = session.call(call)?;
    let reply = match call {
        Call::Format(_) => calls::format(words, call),
        _ => compare::call(words, call)?,
    };
    if reply != expected {
        return Err(format!("{call:?} replied {reply:?}, in the model {expected:?}"));
    }
    if let (Call::Format(counts), model::reply::Reply::Ok) = (call, reply) {
        if *words != fresh(&counts) {
            return Err(format!("{call:?} wrote other words than document 01 says"));
        }
    }
    if decode(words).map(ordered) != session.store.clone().map(ordered) {
        return Err(format!("after {call:?} the words mean another store than the model's"));
    }
    Ok(())
}

/// One damaged copy: how many words are changed, which, and what the next calls do with it.
fn copy(words: &[u64], calls: &[Call], random: &mut Random, counted: &mut Counted) -> Result<(), (Vec<u64>, String)> {
    let undamaged = words;
    let mut words = words.to_vec();
    let many = random.from(0, 3);
    let changes = change::some(&mut words, many, random);
    let sound = decode(&words).is_some();
    let changed = undamaged.iter().zip(&words).filter(|(old, new)| old != new).count();
    counted.store(changed, &changes, sound);
    session(&mut words.clone(), sound, calls, random, counted)
        .map_err(|e| (words.clone(), format!("in a session: {e}\nchanges {changes:?}")))?;
    for i in 0..CALLS {
        let before = words.clone();
        let call = call_at(calls, i);
        let reply = compare::call(&mut words, call).map_err(|e| (before, format!("{e}\nchanges {changes:?}")))?;
        counted.reply(call, reply);
        if !sound {
            break;
        }
    }
    Ok(())
}

/// A session on words that are sound or not, and what the next calls do in it.
fn session(
    words: &mut [u64],
    sound: bool,
    calls: &[Call],
    random: &mut Random,
    counted: &mut Counted,
) -> Result<(), String> {
    let before = words.to_vec();
    let store = decode(words);
    if z::Chart::open(words).is_ok() != sound {
        return Err("a chart opened on words that are not sound, or not on sound ones".to_string());
    }
    let (length, junk) = (random.pick(&[z::INDEX, 0, 7]), random.next() as u16);
    let mut session = match z::Session::open_with(words, vec![junk; length]) {
        Err((z::Refusal::Unsound, index)) if !sound => {
            let unchanged = index.iter().all(|&number| number == junk) && words == before;
            return if unchanged { Ok(()) } else { Err("refused, with words or index changed".to_string()) };
        }
        Ok(session) if sound && session.words() == before => session,
        opened => return Err(format!("opening gave {:?}", opened.map(|_| "a session").map_err(|(no, _)| no))),
    };
    let mut run = Session::new(false);
    run.store = store;
    for i in 0..CALLS {
        let call = call_at(calls, i);
        let reply = compare::inside(&mut session, &mut run, call)?;
        counted.reply_inside(call, reply);
    }
    Ok(())
}

/// The stores of one script, each with its damaged copies.
fn one_script(seed: u64, stores: u64, counted: &mut Counted) -> Result<(), (Vec<u64>, String)> {
    let calls: Vec<Call> = script(seed, LINES, true).iter().filter_map(|line| parse(line)).collect();
    let mut random = Random::new(seed);
    let mut session = Session::new(false);
    let mut words = vec![];
    for (i, &call) in calls.iter().enumerate() {
        let before = words.clone();
        step(&mut words, &mut session, call).map_err(|e| (before, e))?;
        if session.store.is_none() {
            continue;
        }
        for _ in 0..COPIES {
            if counted.stores < stores {
                copy(&words, &calls[i + 1..], &mut random, counted)?;
            }
        }
    }
    Ok(())
}

fn run(stores: u64, file: &str) -> Result<(), String> {
    let mut counted = Counted::default();
    for seed in 1.. {
        if counted.stores >= stores {
            break;
        }
        one_script(seed, stores, &mut counted).map_err(|(words, message)| {
            program::keep(file, format!("seed {seed}: {message}"), format!("words before the call {words:?}"))
        })?;
    }
    counted.print();
    counted.reached()
}

fn main() -> ExitCode {
    program::main("damaged", "STORES", run)
}
