//! Lent words, laid out here by document 01's table: what they mean, and the points of an edit that touched nothing.

use super::layout::lay_out;
use crate::generate::{self, Random};
use crate::script::Session;
use crate::store::{Counts, Store, LAST};
use crate::words::{self, decode, ordered, sound};

const COUNTS: Counts = Counts {
    records: 2,
    edits: 2,
    versions: 4,
    locks: 8,
    accesses: 8,
};

/// The fresh store of 2 2 4 8 8, word by word.
fn fresh() -> Vec<u64> {
    let mut words = vec![2, 2, 4, 8, 8, 1, 1, 1];
    words.extend([0, 0, 0].repeat(2));
    words.extend([0, 0, 0, 0].repeat(2));
    words.extend([0, 0, 0, 2, 0, 0, 0, 3, 0, 0, 0, 4, 0, 0, 0, 0]);
    for next in [2, 3, 4, 5, 6, 7, 8, 0, 2, 3, 4, 5, 6, 7, 8, 0] {
        words.extend([0, 0, 0, 0, next]);
    }
    words
}

#[test]
fn the_fresh_store() {
    let words = fresh();
    assert_eq!(words.len(), 118);
    assert_eq!(decode(&words), Store::format(COUNTS).ok());
    for length in 0..118 {
        assert!(!sound(&words[..length]), "{length} words");
    }
    assert!(!sound(&[&words[..], &[0]].concat()));
}

#[test]
fn the_largest_store() {
    let counts = Counts {
        records: 1_024,
        edits: 63,
        versions: 4_095,
        locks: 4_095,
        accesses: 4_095,
    };
    let largest = Store::format(counts).expect("a store");
    let words = lay_out(&largest, &mut |_| 0);
    assert_eq!(words.len(), 60_662);
    assert_eq!(decode(&words), Some(largest));
}

#[test]
fn the_layout_is_document_01s() {
    let store = Store::format(COUNTS).expect("a store");
    assert_eq!(lay_out(&store, &mut |_| 0), fresh());
    assert_eq!(words::fresh(&COUNTS), fresh());
}

/// Every store of the random scripts is sound in any layout, and means itself.
#[test]
fn stores_of_calls_mean_themselves() {
    let mut random = Random::new(1);
    for seed in 1..=40 {
        let mut session = Session::new(true);
        for line in generate::script(seed, 100, true) {
            session.line(&line).expect("sound");
            let Some(store) = session.store.clone() else {
                continue;
            };
            let words = lay_out(&store, &mut |n| random.next() % n);
            let again = decode(&words).expect("sound");
            assert_eq!(ordered(again), ordered(store));
        }
    }
}

/// A committed edit that read and wrote nothing: any point but 0 and those above LAST is common.
#[test]
fn commit_points_of_an_untouched_edit() {
    for (point, expected) in [(0, false), (1, true), (LAST, true), (LAST + 1, false)] {
        let mut words = fresh();
        words[14] = 2;
        words[17] = point;
        assert_eq!(sound(&words), expected, "{point}");
    }
}
