//! Each kind of call through the public functions, the check included, from a state in which it is granted.

use crate::checks::check;
use crate::stores::{self, at, save, LARGEST, SMALL};
use crate::timing::nanoseconds;
use crate::Size;
use std::hint::black_box;
use zohetiwa::*;

/// A later reading than any in a filled store.
const LATE: u64 = 1000;

/// The words after an edit has begun, and has locked and written the record.
fn writing(base: &[u64], record: u64) -> (Vec<u64>, Handle) {
    let mut words = base.to_vec();
    let edit = begin(&mut words).expect("a slot");
    lock(&mut words, edit, record, at(LATE), at(LATE), Extent::All).expect("a lock");
    write(&mut words, edit, record, 7).expect("an access");
    (words, edit)
}

/// Nanoseconds of each kind of call on a store like `base`, whose record `record` nobody has touched.
fn times(runs: usize, base: &[u64], counts: Counts, record: u64) -> Vec<(&'static str, f64)> {
    let mut begun = base.to_vec();
    let new = begin(&mut begun).expect("a slot");
    let (written, edit) = writing(base, record);
    let mut kept = written.clone();
    commit(&mut kept, edit, Pick::Earliest, Finish::Keep).expect("a point");
    let mut saved = base.to_vec();
    for reading in [LATE, LATE + 1] {
        save(&mut saved, [record].into_iter(), reading).expect("room");
    }
    let late = at(LATE);
    let time = |before: &[u64], call: &dyn Fn(&mut [u64]) -> bool| nanoseconds(runs, before, call);
    let commits = |finish| move |w: &mut [u64]| commit(w, edit, Pick::Earliest, finish) == Ok(Commit::At(late));
    vec![
        ("the check alone", check(runs, base)),
        ("Format", time(base, &|w| format(w, counts).is_ok())),
        ("Begin", time(base, &|w| begin(w).is_ok())),
        ("Write", time(&begun, &|w| write(w, new, record, 7).is_ok())),
        ("Lock", time(&begun, &|w| lock(w, new, record, late, late, Extent::All).is_ok())),
        ("Read", time(&begun, &|w| read(w, new, record, late, Extent::All).is_ok())),
        ("Commit, settle", time(&written, &commits(Finish::Settle))),
        ("Commit, keep", time(&written, &commits(Finish::Keep))),
        ("Abort, settle", time(&written, &|w| abort(w, edit, Finish::Settle).is_ok())),
        ("Settle", time(&kept, &|w| settle(w, edit).is_ok())),
        ("Purge", time(&saved, &|w| purge(w, record, LAST) == Ok(Purged { versions: 1, locks: 2 }))),
        ("View", time(&saved, &|w| view(w, record, LAST).is_ok())),
    ]
}

/// Nanoseconds of Point, by many calls together: one is too short for the clock.
fn point_time(runs: usize) -> f64 {
    const MANY: u64 = 1000;
    let all = nanoseconds(runs, &[], |_| (0..MANY).all(|i| black_box(point(Reading(black_box(i)), Seat(1))).is_ok()));
    all / MANY as f64
}

pub fn table(size: Size) {
    let rounds = size.rounds / 2;
    let (small, fresh, filled) = (stores::fresh(SMALL), stores::fresh(LARGEST), stores::filled(rounds));
    println!("Calls of one record and one edit, each with its check. Medians of {} runs, ns.\n", size.runs);
    println!(
        "| Call | 118 words, fresh | {} words, fresh | {rounds} of {} rounds of filling |",
        fresh.len(),
        stores::ROUNDS
    );
    println!("|---|---|---|---|");
    let last = LARGEST.records as u64 - 1;
    let small = times(size.runs, &small, SMALL, 1);
    let fresh = times(size.runs, &fresh, LARGEST, last);
    let filled = times(size.runs, &filled, LARGEST, last);
    for ((one, two), three) in small.iter().zip(&fresh).zip(&filled) {
        println!("| {} | {:.0} | {:.0} | {:.0} |", one.0, one.1, two.1, three.1);
    }
    println!("\nPoint, which needs no store: {:.1} ns.", point_time(size.runs));
}
