//! Damaged words: one damage for each clause of soundness, or more, is seen; changes that no clause judges are not.

use super::layout::{lay_out, starts};
use crate::generate::Random;
use crate::script::Session;
use crate::store::{Store, LAST};
use crate::words::{decode, decode_whole, ordered, sound};

/// Record 0 has versions 9 and 5 and floor 5, record 1 a version 5, record 2 a version 7. Slot 1 is open, 2 committed
/// at 7 and kept, 3 aborted and kept, 4 free.
const LINES: [&str; 25] = [
    "F 3 4 6 10 7",
    "B",
    "L 65 0 5 5 A",
    "W 65 0 50",
    "L 65 1 5 5 A",
    "W 65 1 51",
    "C 65 5 S",
    "B",
    "L 129 0 9 9 A",
    "W 129 0 90",
    "C 129 9 S",
    "P 0 5",
    "B",
    "R 193 0 12 A",
    "W 193 1 7",
    "L 193 1 8 9 A",
    "B",
    "R 66 1 7 A",
    "L 66 2 6 8 A",
    "L 66 2 10 12 A",
    "W 66 2 60",
    "C 66 7 K",
    "B",
    "R 67 2 5 A",
    "A 67 K",
];

fn damage_base() -> (Store, Vec<u64>) {
    let mut session = Session::new(true);
    for line in LINES {
        let answer = session.line(line.as_bytes()).expect("sound");
        assert!(!answer.starts_with("no"), "{line}: {answer}");
    }
    let store = session.store.expect("a store");
    let words = lay_out(&store, &mut |_| 0);
    (store, words)
}

/// Positions of words in the base, rows and slots from 1, records and words from 0.
fn record(r: usize, word: usize) -> usize {
    8 + 3 * r + word
}
fn slot(slot: usize, word: usize) -> usize {
    17 + 4 * (slot - 1) + word
}
fn version(row: usize, word: usize) -> usize {
    33 + 4 * (row - 1) + word
}
fn lock(row: usize, word: usize) -> usize {
    57 + 5 * (row - 1) + word
}
fn access(row: usize, word: usize) -> usize {
    107 + 5 * (row - 1) + word
}

/// The rows of the base that the damages below name.
#[test]
fn the_base_of_the_damages() {
    let (store, words) = damage_base();
    assert_eq!(starts(&store.counts), [8, 17, 33, 57, 107]);
    assert_eq!(words[..8], [3, 4, 6, 10, 7, 5, 9, 6]);
    assert_eq!(words[8..17], [1, 1, 5, 3, 3, 0, 4, 6, 0]);
    assert_eq!(words[17..25], [1, 3, 1, 0, 2, 1, 3, 7]);
    assert_eq!(words[25..33], [3, 1, 5, 0, 0, 0, 0, 0]);
    assert_eq!(words[33..41], [9, 90, 0, 2, 5, 50, 0, 0]);
    assert_eq!(words[41..49], [5, 51, 0, 0, 7, 60, 0, 0]);
    assert_eq!(words[57..67], [9, 9, 2, 0, 2, 10, 12, 5, 0, 0]);
    assert_eq!(words[67..72], [5, 5, 2, 1, 4]);
    assert_eq!(words[72..82], [6, 7, 9, 1, 5, 8, 9, 6, 1, 0]);
    assert_eq!(words[82..92], [1, 5, 13, 2, 7, 6, 8, 10, 2, 8]);
    assert_eq!(words[92..97], [10, 12, 10, 2, 0]);
    assert_eq!(words[97..107], [0, 0, 0, 0, 10, 0, 0, 0, 0, 0]);
    assert_eq!(words[107..117], [0, 10, 0, 0, 2, 1, 0, 1, 7, 0]);
    assert_eq!(words[117..127], [1, 6, 0, 0, 4, 2, 0, 1, 60, 0]);
    assert_eq!(words[127..132], [2, 1, 0, 0, 0]);
    assert_eq!(ordered(decode(&words).expect("sound")), ordered(store));
}

fn judge(damages: &[(&str, &[(usize, u64)])], expected: bool) {
    let (_, base) = damage_base();
    for (name, changes) in damages {
        let mut words = base.clone();
        for &(at, word) in *changes {
            assert_ne!(words[at], word, "{name}: no change");
            words[at] = word;
        }
        assert_eq!(sound(&words), expected, "{name}");
    }
}

#[test]
fn damaged_counts() {
    let (_, base) = damage_base();
    for at in 0..5 {
        let count = base[at];
        for word in [0, count - 1, count + 1, 5_000, 1 << 63, u64::MAX] {
            let mut words = base.clone();
            words[at] = word;
            assert!(!sound(&words), "count {at} is {word}");
        }
    }
    // The length fits, but one count is out of range.
    for (at, counts) in [
        (0, [1_025, 1, 1, 1, 1]),
        (1, [1, 64, 1, 1, 1]),
        (2, [1, 1, 4_096, 1, 1]),
        (3, [1, 1, 1, 4_096, 1]),
        (4, [1, 1, 1, 1, 4_096]),
        (0, [0, 1, 1, 1, 1]),
        (1, [1, 0, 1, 1, 1]),
        (2, [1, 1, 0, 1, 1]),
        (3, [1, 1, 1, 0, 1]),
        (4, [1, 1, 1, 1, 0]),
    ] {
        assert!(!sound(&any_fresh(counts)), "count {at} of {counts:?}");
    }
    assert!(sound(&any_fresh([1, 1, 1, 1, 1])));
    assert!(sound(&any_fresh([1_024, 63, 4_095, 4_095, 4_095])));
}

/// Counts, free chains in rising order and zero elsewhere, for counts in range or not.
fn any_fresh([r, e, v, l, a]: [u64; 5]) -> Vec<u64> {
    let first = |count: u64| u64::from(count > 0);
    let mut words = vec![r, e, v, l, a, first(v), first(l), first(a)];
    words.extend(vec![0; (3 * r + 4 * e) as usize]);
    for (count, width) in [(v, 4), (l, 5), (a, 5)] {
        for row in 1..=count {
            words.extend(vec![0; width - 1]);
            words.push((row + 1) % (count + 1));
        }
    }
    words
}

#[test]
fn damaged_version_chains() {
    judge(
        &[
            ("free versions in a circle", &[(version(6, 3), 5)]),
            ("a free version that is its own next", &[(version(6, 3), 6)]),
            (
                "free versions that go on in a record's",
                &[(version(6, 3), 1)],
            ),
            ("a version link just past the table", &[(version(6, 3), 7)]),
            (
                "a version link far past the table",
                &[(version(6, 3), u64::MAX)],
            ),
            ("a free version on no chain", &[(version(5, 3), 0)]),
            ("no free version, two rows on no chain", &[(5, 0)]),
            ("a first free version past the table", &[(5, 7)]),
            ("a record's version on no chain", &[(version(1, 3), 0)]),
            ("a record's versions on no chain", &[(record(1, 0), 0)]),
            (
                "the versions of a record in a circle",
                &[(version(2, 3), 1)],
            ),
            (
                "a version on the chains of two records",
                &[(record(1, 0), 4)],
            ),
            ("a first version past the table", &[(record(1, 0), 1 << 32)]),
        ],
        false,
    );
}

#[test]
fn damaged_lock_chains() {
    judge(
        &[
            ("free locks in a circle", &[(lock(10, 4), 9)]),
            ("a lock link just past the table", &[(lock(10, 4), 11)]),
            ("a lock link far past the table", &[(lock(10, 4), u64::MAX)]),
            ("a free lock on no chain", &[(lock(9, 4), 0)]),
            ("a first free lock that a record has", &[(6, 8)]),
            ("a record's lock on no chain", &[(lock(1, 4), 0)]),
            ("the locks of a record in a circle", &[(lock(5, 4), 3)]),
            ("a first lock past the table", &[(record(0, 1), 11)]),
        ],
        false,
    );
}

#[test]
fn damaged_access_chains() {
    judge(
        &[
            ("free accesses in a circle", &[(access(7, 4), 6)]),
            ("an access link just past the table", &[(access(7, 4), 8)]),
            (
                "an access link far past the table",
                &[(access(7, 4), u64::MAX)],
            ),
            ("a free access on no chain", &[(access(6, 4), 0)]),
            ("an access on the chains of two edits", &[(slot(3, 2), 3)]),
            ("an edit's access on no chain", &[(access(1, 4), 0)]),
            ("the accesses of an edit in a circle", &[(access(4, 4), 3)]),
            ("a first access past the table", &[(slot(1, 2), 1 << 63)]),
            ("a first free access past the table", &[(7, 8)]),
        ],
        false,
    );
}

#[test]
fn damaged_words_of_a_list() {
    let many = u64::MAX;
    judge(
        &[
            ("a lock row that names another record", &[(lock(2, 3), 1)]),
            ("a lock row that names no record", &[(lock(2, 3), 3)]),
            (
                "a lock row moved to another record",
                &[(lock(1, 4), 0), (lock(8, 4), 2)],
            ),
            ("a state of 4", &[(slot(3, 0), 4)]),
            ("a state of 2^64 - 1", &[(slot(1, 0), many)]),
            ("a generation of 65,536", &[(slot(1, 1), 65_536)]),
            ("a generation of a free slot", &[(slot(4, 1), many)]),
            ("a commit point of an open edit", &[(slot(1, 3), 9)]),
            ("a commit point of an aborted edit", &[(slot(3, 3), 3)]),
            ("a commit point of a free slot", &[(slot(4, 3), 1)]),
            ("a written mark of 2", &[(access(2, 2), 2)]),
            ("a written mark of 2^64 - 1", &[(access(1, 2), many)]),
            ("a mode of 0", &[(lock(8, 2), 4)]),
            ("a mode of 3", &[(lock(7, 2), 11)]),
            ("a mode of 3 of a settled lock", &[(lock(3, 2), 3)]),
        ],
        false,
    );
}

#[test]
fn damaged_versions() {
    judge(
        &[
            ("equal points", &[(version(1, 0), 5)]),
            ("rising points", &[(version(1, 0), 5), (version(2, 0), 9)]),
            ("a version below the floor", &[(version(2, 0), 4)]),
            ("no version at the floor", &[(record(0, 2), 4)]),
            ("a floor among the versions", &[(record(0, 2), 9)]),
            ("a floor without a version", &[(record(1, 2), 4)]),
            ("a floor above LAST", &[(record(0, 2), u64::MAX)]),
            ("a version at point 0", &[(version(3, 0), 0)]),
            ("a version above LAST", &[(version(1, 0), LAST + 1)]),
            (
                "a version and its lock above LAST",
                &[
                    (version(4, 0), LAST + 1),
                    (lock(7, 1), LAST + 1),
                    (slot(2, 3), LAST + 1),
                ],
            ),
            ("a version off its lock", &[(version(1, 0), 10)]),
            ("a version under a read lock only", &[(lock(1, 2), 1)]),
            ("a version under an open edit's lock", &[(lock(1, 2), 6)]),
            (
                "a version whose edit committed elsewhere",
                &[(version(4, 0), 8)],
            ),
            (
                "a version whose edit did not write it",
                &[(access(4, 2), 0)],
            ),
            (
                "a version whose edit aborted",
                &[(slot(2, 0), 3), (slot(2, 3), 0)],
            ),
        ],
        false,
    );
}

#[test]
fn damaged_locks() {
    judge(
        &[
            ("low above high", &[(lock(2, 1), 9)]),
            ("a lock at the floor", &[(record(1, 2), 5)]),
            ("a lock at 0", &[(lock(3, 0), 0)]),
            ("a lock above LAST", &[(lock(2, 1), LAST + 1)]),
            ("a lock to 2^64 - 1", &[(lock(8, 1), u64::MAX)]),
            ("an owner that is free", &[(lock(5, 2), 2 + 4 * 4)]),
            ("an owner that there is not", &[(lock(5, 2), 2 + 4 * 5)]),
            ("an owner far past the slots", &[(lock(5, 2), u64::MAX - 1)]),
            ("a write lock on another's read lock", &[(lock(5, 0), 7)]),
            ("a read lock on another's write lock", &[(lock(4, 1), 8)]),
            (
                "a write lock on a settled lock",
                &[
                    (lock(5, 0), 5),
                    (lock(5, 1), 5),
                    (lock(3, 4), 5),
                    (lock(5, 4), 4),
                    (lock(4, 4), 0),
                ],
            ),
            ("a settled write lock on an edit's", &[(lock(3, 1), 6)]),
        ],
        false,
    );
}

/// The base with the last row of record 2, which is 10..12, settled in this mode, and with one more settled row after
/// it: low..high in the other mode.
fn two_settled(mode: u64, low: u64, high: u64, other: u64) -> Vec<(usize, u64)> {
    vec![
        (lock(8, 2), mode),
        (lock(8, 4), 9),
        (lock(9, 0), low),
        (lock(9, 1), high),
        (lock(9, 2), other),
        (lock(9, 3), 2),
        (lock(9, 4), 0),
        (6, 10),
    ]
}

const READ: u64 = 1;
const WRITE: u64 = 2;

#[test]
fn damaged_order_of_locks() {
    judge(
        &[
            (
                "two rows changed about",
                &[(lock(6, 4), 8), (lock(8, 4), 7), (lock(7, 4), 0)],
            ),
            (
                "the first row last",
                &[(record(2, 1), 7), (lock(8, 4), 6), (lock(6, 4), 0)],
            ),
            (
                "a low below the one before",
                &[(lock(5, 0), 4), (lock(5, 1), 4)],
            ),
            (
                "a settled read below a settled write",
                &two_settled(WRITE, 9, 9, READ),
            ),
            (
                "settled reads apart that fall",
                &two_settled(READ, 1, 1, READ),
            ),
        ],
        false,
    );
}

#[test]
fn damaged_joining() {
    let unjoined = |low, high| two_settled(READ, low, high, READ);
    judge(
        &[
            ("settled reads that adjoin", &unjoined(13, 14)),
            ("settled reads that share one point", &unjoined(12, 14)),
            ("a settled read twice", &unjoined(10, 12)),
            ("a settled read within another", &unjoined(11, 11)),
            ("a settled read with the same low", &unjoined(10, 14)),
        ],
        false,
    );
    // A settled write row between them, on points of the first. Row 10 is next of row 9 in the base.
    let mut apart = two_settled(READ, 11, 11, WRITE);
    apart.retain(|&(at, _)| at != lock(9, 4) && at != 6);
    apart.push((6, 0));
    let third = |low: u64| {
        let row = [low, low, READ, 2].into_iter().enumerate();
        let more = row.map(|(word, value)| (lock(10, word), value));
        apart.iter().copied().chain(more).collect::<Vec<_>>()
    };
    judge(&[("with a write row between", &third(13))], false);
    judge(&[("apart, with a write row between", &third(14))], true);
}

#[test]
fn joined_and_sound() {
    judge(
        &[
            ("a gap of one point", &two_settled(READ, 14, 15, READ)),
            (
                "a settled write after a read",
                &two_settled(READ, 13, 13, WRITE),
            ),
            (
                "a settled write on a read",
                &two_settled(READ, 11, 11, WRITE),
            ),
            (
                "a settled read on a write",
                &two_settled(WRITE, 12, 15, READ),
            ),
            (
                "settled writes that adjoin",
                &two_settled(WRITE, 13, 14, WRITE),
            ),
            (
                "settled writes that overlap",
                &two_settled(WRITE, 10, 11, WRITE),
            ),
            (
                "an edit's read after a settled one",
                &two_settled(READ, 13, 14, READ + 4),
            ),
            (
                "an edit's reads that overlap",
                &two_settled(READ + 4, 11, 14, READ + 4),
            ),
        ],
        true,
    );
}

/// Equal low points stand in any order.
#[test]
fn equal_lows_and_sound() {
    for (first, second) in [
        (READ, WRITE),
        (WRITE, READ),
        (READ, READ + 4),
        (READ + 4, READ),
    ] {
        for high in [10, 12, 14] {
            let rows = two_settled(first, 10, high, second);
            judge(&[("equal lows", &rows)], true);
        }
    }
}

#[test]
fn damaged_edits() {
    judge(
        &[
            ("an access of no record", &[(access(2, 0), 3)]),
            ("an access of record 2^64 - 1", &[(access(2, 0), u64::MAX)]),
            ("a record named twice", &[(access(2, 0), 0)]),
            ("a point read that is no version", &[(access(3, 1), 4)]),
            ("a point read of 2^64 - 2", &[(access(3, 1), u64::MAX)]),
            ("point 0 read above floor 0", &[(access(1, 1), 1)]),
            ("a read without a lock", &[(lock(4, 2), 5)]),
            ("a read whose lock is a write lock", &[(lock(2, 2), 6)]),
            ("a read whose lock starts later", &[(lock(4, 0), 7)]),
            ("an aborted edit's read without a lock", &[(lock(6, 0), 2)]),
            ("a commit point outside the write locks", &[(lock(7, 2), 2)]),
            ("a commit point past the read lock", &[(lock(4, 1), 6)]),
            ("a commit point of 0", &[(slot(2, 3), 0)]),
            ("a commit point of 2^64 - 1", &[(slot(2, 3), u64::MAX)]),
            (
                "a free slot with an access",
                &[(access(6, 4), 0), (slot(4, 2), 7)],
            ),
        ],
        false,
    );
}

#[test]
fn changed_and_sound() {
    let many = u64::MAX;
    judge(
        &[
            (
                "words of free rows",
                &[
                    (version(6, 0), many),
                    (lock(9, 2), 3),
                    (lock(9, 3), many),
                    (access(7, 2), 2),
                    (access(7, 0), many),
                ],
            ),
            ("a third word of a version", &[(version(1, 2), many)]),
            ("a value of an unwritten access", &[(access(1, 3), many)]),
            ("a generation of 65,535", &[(slot(4, 1), 65_535)]),
            ("a value", &[(version(1, 1), 0)]),
            ("an access neither read nor written", &[(access(2, 2), 0)]),
            (
                "settled locks that share points",
                &[(lock(1, 1), 12), (lock(2, 2), 1), (access(1, 1), 0)],
            ),
            (
                "read locks of two owners",
                &[(lock(5, 2), 5), (lock(4, 1), 9)],
            ),
            (
                "free rows in another order",
                &[(5, 6), (version(6, 3), 5), (version(5, 3), 0)],
            ),
        ],
        true,
    );
}

#[test]
fn words_that_no_clause_judges() {
    let (store, mut words) = damage_base();
    words[version(1, 2)] = 4;
    words[access(1, 3)] = 5;
    let (again, unjudged) = decode_whole(&words).expect("sound");
    assert_eq!(ordered(again), ordered(store));
    assert_eq!(
        unjudged.thirds,
        [(0, 9, 4), (0, 5, 0), (1, 5, 0), (2, 7, 0)]
    );
    assert_eq!(unjudged.values, [(1, 0, 5), (2, 1, 0), (3, 2, 0)]);
}

/// Any words have an answer: wholly random ones, and sound ones with random words put in.
#[test]
fn random_words_end() {
    let mut random = Random::new(7);
    let (_, base) = damage_base();
    let mut verdicts = [0, 0];
    for round in 0..200_000 {
        let mut words = if round % 10 == 0 {
            let length = random.from(0, 130) as usize;
            let mut words: Vec<u64> = (0..length).map(|_| random.from(0, 12)).collect();
            for at in 0..length.min(5) {
                words[at] = random.from(0, 4);
            }
            words
        } else {
            base.clone()
        };
        for _ in 0..random.from(0, 4) {
            let any = [
                random.from(0, 13),
                LAST,
                LAST + 1,
                1 << 63,
                u64::MAX,
                random.next(),
            ];
            if let Some(last) = words.len().checked_sub(1) {
                let at = random.from(0, last as u64) as usize;
                words[at] = random.pick(&any);
            }
        }
        verdicts[usize::from(sound(&words))] += 1;
    }
    assert!(verdicts.iter().all(|&count| count > 10_000), "{verdicts:?}");
}
