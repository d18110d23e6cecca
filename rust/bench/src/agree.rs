//! Before anything is timed: random calls on small stores, through the batch, through two sessions one after the other,
//! and through both kinds of plain vectors. All replies are compared, and every reply and refusal that there is on a
//! sound store has to come.

use crate::library::{batch, session};
use crate::list::Random;
use crate::plain::Plain;
use crate::rows::*;
use crate::stores;
use std::collections::BTreeSet;
use zohetiwa::{Counts, LAST, NOPOINT};

const STORES: u64 = 1000;
const CALLS: usize = 200;

/// Counts small enough that each kind of row runs out.
fn some_counts(random: &mut Random) -> Counts {
    let mut upto = |n| 1 + random.below(n) as usize;
    Counts { records: 3, edits: upto(3), versions: upto(3), locks: upto(12), accesses: upto(6) }
}

fn point(random: &mut Random) -> u64 {
    match random.below(40) {
        0 => LAST.word() + random.below(2),
        _ => random.below(9),
    }
}

/// A call whose numbers make sense most of the time. The handles are the newest that Begin has given.
fn some_call(random: &mut Random, handles: &[u64]) -> Row {
    let newest = handles.len().saturating_sub(3);
    let edit = match random.below(handles.len() as u64 - newest as u64 + 1) as usize {
        0 => random.below(256),
        i => handles[newest + i - 1],
    };
    let (record, low) = (random.below(10) % 4, point(random));
    let high = if random.below(8) == 0 { point(random) } else { low + random.below(8) };
    let flag = random.below(2);
    match random.below(22) {
        0 | 1 => [BEGIN, edit, 0, 0, 0, 0],
        2..7 => [WRITE, edit, record, random.below(1000), 0, 0],
        7..12 => [LOCK, edit, record, low, high, flag],
        12..15 => [READ, edit, record, high, flag, 0],
        15 => [EARLIEST, edit, flag, 0, 0, 0],
        16 => [LATEST, edit, flag, 0, 0, 0],
        17 => [NAMED, edit, low, flag, 0, 0],
        18 => [ABORT, edit, flag, 0, 0, 0],
        19 => [SETTLE, edit, 0, 0, 0, 0],
        20 => [PURGE, record, low, 0, 0, 0],
        _ => [VIEW, record, low, 0, 0, 0],
    }
}

/// What a reply shows: its code without a handle, and which kind of Read it is.
fn sort(call: &[u64], reply: &[u64]) -> (u64, u64) {
    (reply[0] % 32, if call[0] == READ { reply[1] } else { 0 })
}

/// Random calls on one small store.
fn compare(seed: u64, seen: &mut BTreeSet<(u64, u64)>) {
    let mut random = Random(seed);
    let counts = some_counts(&mut random);
    let mut plain = Plain::<true>::new(counts);
    let (mut calls, mut replies, mut handles) = (vec![], vec![], vec![]);
    for _ in 0..CALLS {
        let call = some_call(&mut random, &handles);
        let reply = answer(&mut plain, call);
        if call[0] == BEGIN && reply[0] == 0 {
            handles.push(reply[1]);
        }
        seen.insert(sort(&call, &reply));
        calls.extend(call);
        replies.extend(reply);
    }
    let agree = |name: &str, run: &dyn Fn(&mut [u64])| {
        let mut others = vec![0; replies.len()];
        run(&mut others);
        for (i, call) in calls.chunks(ROW).enumerate() {
            let of = |all: &[u64]| all[i * ROW..][..ROW].to_vec();
            assert_eq!(of(&others), of(&replies), "store {seed}, call {i}, {call:?}: {name} and the vectors");
        }
    };
    agree("the batch", &|others| batch(&mut stores::fresh(counts), &calls, others));
    agree("the vectors without indexes", &|others| run(&mut Plain::<false>::new(counts), &calls, others));
    agree("two sessions", &|others| {
        let (mut words, half) = (stores::fresh(counts), calls.len() / 2);
        session(&mut words, &calls[..half], &mut others[..half]);
        session(&mut words, &calls[half..], &mut others[half..]);
    });
}

pub fn all() {
    let mut seen = BTreeSet::new();
    (0..STORES).for_each(|seed| compare(seed, &mut seen));
    let refusals = (2..=15).chain([NOPOINT]).map(|code| (code, 0));
    let wanted: BTreeSet<_> = refusals.chain((0..=3).map(|kind| (0, kind))).collect();
    assert!(wanted.is_subset(&seen), "never replied: {:?}", &wanted - &seen);
}
