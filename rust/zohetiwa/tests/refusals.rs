//! Each of the sixteen refusals by its example in document 01; a refused call changes no word.

use zohetiwa::*;

const COUNTS: Counts = Counts { records: 2, edits: 2, versions: 4, locks: 8, accesses: 8 };
const ALL: Extent = Extent::All;

fn p(word: u64) -> Point {
    Point::of_word(word)
}

/// A store of these counts with two open edits.
fn begun(counts: Counts) -> (Vec<u64>, Handle, Handle) {
    let mut words = vec![u64::MAX; counts.length()];
    format(&mut words, counts).expect("a store");
    let first = begin(&mut words).expect("an edit");
    let second = begin(&mut words).expect("an edit");
    (words, first, second)
}

/// The call is refused so, and changes no word.
fn refused<T>(words: &mut [u64], why: Refusal, number: u64, call: impl FnOnce(&mut [u64]) -> Answer<T>) {
    let before = words.to_vec();
    assert_eq!(call(words).err(), Some(why));
    assert_eq!(words, before);
    assert_eq!(why.number(), number);
}

#[test]
fn refusal_1_unsound() {
    let (mut words, edit, _) = begun(COUNTS);
    words[0] = 5000;
    let w = &mut words[..];
    refused(w, Refusal::Unsound, 1, begin);
    refused(w, Refusal::Unsound, 1, |w| write(w, edit, 0, 1));
    refused(w, Refusal::Unsound, 1, |w| lock(w, edit, 0, p(9), p(4), ALL));
    refused(w, Refusal::Unsound, 1, |w| read(w, edit, 0, p(6), ALL));
    refused(w, Refusal::Unsound, 1, |w| abort(w, edit, Finish::Keep));
    refused(w, Refusal::Unsound, 1, |w| settle(w, edit));
    refused(w, Refusal::Unsound, 1, |w| purge(w, 0, p(8)));
    refused(w, Refusal::Unsound, 1, |w| view(w, 0, p(8)));
    for pick in [Pick::Earliest, Pick::Latest, Pick::Named(p(1))] {
        refused(w, Refusal::Unsound, 1, |w| commit(w, edit, pick, Finish::Settle));
    }
    refused(&mut [], Refusal::Unsound, 1, begin);
    refused(&mut [], Refusal::Unsound, 1, |w| view(w, 0, p(8)));
}

#[test]
fn refusals_2_to_4_of_the_handle() {
    let mut words = vec![0; COUNTS.length()];
    format(&mut words, COUNTS).unwrap();
    let w = &mut words[..];
    refused(w, Refusal::NoEdit, 2, |w| read(w, Handle::of_word(65), 0, p(6), ALL));
    let edit = begin(w).unwrap();
    for other in [0, 1, 64, 67, 129, 65 + 65_536 * 64, u64::MAX] {
        refused(w, Refusal::NoEdit, 2, |w| write(w, Handle::of_word(other), 0, 1));
    }
    refused(w, Refusal::EditOpen, 4, |w| settle(w, edit));
    abort(w, edit, Finish::Keep).unwrap();
    refused(w, Refusal::EditEnded, 3, |w| write(w, edit, 0, 1));
}

#[test]
fn refusals_5_to_7_of_the_arguments() {
    let (mut words, edit, _) = begun(COUNTS);
    let w = &mut words[..];
    refused(w, Refusal::NoRecord, 5, |w| write(w, edit, 2, 1));
    refused(w, Refusal::NoRecord, 5, |w| view(w, u64::MAX, p(1)));
    refused(w, Refusal::BadPoint, 6, |w| lock(w, edit, 0, p(9), p(4), ALL));
    refused(w, Refusal::BadPoint, 6, |w| read(w, edit, 0, p(0), ALL));
    refused(w, Refusal::BadPoint, 6, |w| commit(w, edit, Pick::Named(p(0)), Finish::Settle));
    refused(w, Refusal::BadPoint, 6, |w| purge(w, 0, p(u64::MAX)));
    refused(w, Refusal::BelowFloor, 7, |w| lock(w, edit, 0, p(0), p(3), ALL));
}

#[test]
fn refusals_8_9_and_15_of_locks() {
    let (mut words, reader, writer) = begun(COUNTS);
    let w = &mut words[..];
    read(w, reader, 0, p(6), ALL).unwrap();
    refused(w, Refusal::Held(reader), 8, |w| lock(w, writer, 0, p(4), p(4), ALL));
    lock(w, writer, 0, p(7), p(9), ALL).unwrap();
    write(w, writer, 0, 501).unwrap();
    commit(w, writer, Pick::Earliest, Finish::Settle).unwrap();
    refused(w, Refusal::LockedBelow, 15, |w| purge(w, 0, p(8)));
    commit(w, reader, Pick::Latest, Finish::Settle).unwrap();
    let late = begin(w).unwrap();
    refused(w, Refusal::Frozen, 9, |w| lock(w, late, 0, p(3), p(3), ALL));
}

#[test]
fn refusals_10_to_13_of_room() {
    let (mut words, edit, _) = begun(Counts { accesses: 1, ..COUNTS });
    write(&mut words, edit, 0, 5).unwrap();
    refused(&mut words, Refusal::NoAccessRow, 10, |w| write(w, edit, 1, 5));

    let (mut words, edit, _) = begun(Counts { locks: 1, ..COUNTS });
    lock(&mut words, edit, 0, p(1), p(1), ALL).unwrap();
    refused(&mut words, Refusal::NoLockRow, 11, |w| lock(w, edit, 0, p(2), p(2), ALL));

    let (mut words, edit, _) = begun(Counts { versions: 1, ..COUNTS });
    for record in [0, 1] {
        lock(&mut words, edit, record, p(5), p(5), ALL).unwrap();
        write(&mut words, edit, record, 5).unwrap();
    }
    refused(&mut words, Refusal::NoVersionRow, 12, |w| commit(w, edit, Pick::Named(p(5)), Finish::Settle));

    let (mut words, _, _) = begun(COUNTS);
    refused(&mut words, Refusal::NoSlot, 13, begin);
}

#[test]
fn refusal_14_not_common() {
    let (mut words, edit, _) = begun(COUNTS);
    read(&mut words, edit, 0, p(6), ALL).unwrap();
    refused(&mut words, Refusal::NotCommon, 14, |w| commit(w, edit, Pick::Named(p(9)), Finish::Settle));
}

#[test]
fn refusal_16_bad_format() {
    let (mut words, _, _) = begun(COUNTS);
    let w = &mut words[..];
    for counts in [
        Counts { records: 0, ..COUNTS },
        Counts { records: 3, ..COUNTS },
        Counts { edits: 64, ..COUNTS },
        Counts { versions: usize::MAX, ..COUNTS },
        Counts { locks: 0, ..COUNTS },
        Counts { accesses: 4096, ..COUNTS },
    ] {
        refused(w, Refusal::BadFormat, 16, |w| format(w, counts));
    }
    refused(&mut w[..117], Refusal::BadFormat, 16, |w| format(w, COUNTS));
    refused(&mut [], Refusal::BadFormat, 16, |w| format(w, COUNTS));
}
