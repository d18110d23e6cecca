//! The check of the whole store, which every call but Point and Format makes first. It is timed by a View of a record
//! that there is not: refused right after the check, and only if the store is sound.

use crate::stores::{self, LARGEST};
use crate::timing::nanoseconds;
use crate::Size;
use std::hint::black_box;
use zohetiwa::{view, Refusal, LAST};

/// Nanoseconds of the check of a sound store.
pub fn check(runs: usize, words: &[u64]) -> f64 {
    nanoseconds(runs, words, |w| view(w, LARGEST.records as u64, LAST) == Err(Refusal::NoRecord))
}

/// Nanoseconds of one sum over the words.
fn sum(runs: usize, words: &[u64]) -> f64 {
    nanoseconds(runs, words, |w| {
        black_box(w.iter().fold(0u64, |total, word| total.wrapping_add(*word)));
        true
    })
}

fn line(name: &str, runs: usize, words: &[u64]) {
    let (checked, summed) = (check(runs, words), sum(runs, words));
    println!("| {name} | {checked:.0} | {summed:.0} | {:.1} |", checked / summed);
}

pub fn table(size: Size) {
    println!("The check of the largest store, {} words. Medians of {} runs, ns.\n", LARGEST.length(), size.runs);
    println!("| Store | check | sum over its words | check / sum |");
    println!("|---|---|---|---|");
    line("fresh", size.runs, &stores::fresh(LARGEST));
    for rounds in [size.rounds / 4, size.rounds / 2, size.rounds] {
        let name = format!("{rounds} of {} rounds of filling", stores::ROUNDS);
        line(&name, size.runs, &stores::filled(rounds));
    }
    for rows in [LARGEST.locks / 8, LARGEST.locks] {
        line(&format!("{rows} locks of one open edit on one record"), size.runs, &stores::one_record(rows));
        line(&format!("{rows} locks of one committed edit on one record"), size.runs, &stores::one_committed(rows));
        // Each version is looked for among the locks: fewer runs.
        let name = format!("{rows} versions and settled locks on one record");
        line(&name, size.runs.min(21), &stores::one_written(rows));
    }
}
