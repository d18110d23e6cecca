//! The session of document 01 and what it says further, by typed replies; then values never written, and points.

use zohetiwa::*;

const COUNTS: Counts = Counts { records: 2, edits: 2, versions: 4, locks: 8, accesses: 8 };

fn fresh() -> Vec<u64> {
    let mut words = vec![u64::MAX; 118];
    format(&mut words, COUNTS).expect("a store");
    words
}

fn p(word: u64) -> Point {
    Point::of_word(word)
}

fn h(word: u64) -> Handle {
    Handle::of_word(word)
}

fn after_session() -> Vec<u64> {
    let mut words = fresh();
    let w = &mut words[..];
    assert_eq!(begin(w), Ok(h(65)));
    assert_eq!(begin(w), Ok(h(66)));
    let first = Read::New { tr: p(0), end: p(6), value: Value::Never };
    assert_eq!(read(w, h(65), 0, p(6), Extent::All), Ok(first));
    assert_eq!(lock(w, h(66), 0, p(4), p(9), Extent::Part), Ok(Locked { first: p(7), last: p(9) }));
    assert_eq!(write(w, h(66), 0, 501), Ok(()));
    assert_eq!(commit(w, h(66), Pick::Earliest, Finish::Settle), Ok(Commit::At(p(7))));
    assert_eq!(commit(w, h(65), Pick::Latest, Finish::Settle), Ok(Commit::At(p(6))));
    assert_eq!(begin(w), Ok(h(129)));
    let second = Read::New { tr: p(7), end: p(9), value: Value::Written(501) };
    assert_eq!(read(w, h(129), 0, p(9), Extent::All), Ok(second));
    assert_eq!(lock(w, h(129), 0, p(3), p(3), Extent::All), Err(Refusal::Frozen));
    assert_eq!(purge(w, 0, p(8)), Ok(Purged { versions: 0, locks: 2 }));
    assert_eq!(read(w, h(65), 0, p(6), Extent::All), Err(Refusal::NoEdit));
    words
}

#[test]
fn session() {
    let mut words = after_session();
    assert_eq!(view(&words, 0, p(6)), Err(Refusal::BelowFloor));
    assert_eq!(view(&words, 0, LAST), Ok(Shown { point: p(7), value: Value::Written(501) }));
    let again = Read::Again { tr: p(7), value: Value::Written(501) };
    assert_eq!(read(&mut words, h(129), 0, p(50), Extent::Part), Ok(again));
}

#[test]
fn further() {
    let mut words = fresh();
    let w = &mut words[..];
    begin(w).unwrap();
    assert_eq!(commit(w, h(65), Pick::Latest, Finish::Settle), Ok(Commit::At(LAST)));
    begin(w).unwrap();
    assert_eq!(commit(w, h(129), Pick::Earliest, Finish::Settle), Ok(Commit::At(p(1))));
    begin(w).unwrap();
    let least = Read::New { tr: p(0), end: p(1), value: Value::Never };
    assert_eq!(read(w, h(193), 0, p(1), Extent::All), Ok(least));
    assert_eq!(commit(w, h(193), Pick::Named(p(1)), Finish::Keep), Ok(Commit::At(p(1))));
    assert_eq!(settle(w, h(193)), Ok(()));
}

#[test]
fn no_point_obeys_the_flag() {
    for (finish, settled) in [(Finish::Settle, Err(Refusal::NoEdit)), (Finish::Keep, Ok(()))] {
        let mut words = fresh();
        let edit = begin(&mut words).unwrap();
        write(&mut words, edit, 0, 1).unwrap();
        assert_eq!(commit(&mut words, edit, Pick::Earliest, finish), Ok(Commit::NoPoint));
        assert_eq!(settle(&mut words, edit), settled);
    }
}

#[test]
fn abort_obeys_the_flag() {
    for (finish, settled) in [(Finish::Settle, Err(Refusal::NoEdit)), (Finish::Keep, Ok(()))] {
        let mut words = fresh();
        let edit = begin(&mut words).unwrap();
        assert_eq!(abort(&mut words, edit, finish), Ok(()));
        assert_eq!(settle(&mut words, edit), settled);
    }
}

#[test]
fn all_or_a_part() {
    let mut words = fresh();
    let w = &mut words[..];
    let (holder, other) = (begin(w).unwrap(), begin(w).unwrap());
    lock(w, holder, 0, p(4), p(9), Extent::All).unwrap();
    assert_eq!(lock(w, other, 0, p(2), p(6), Extent::All), Err(Refusal::Held(holder)));
    assert_eq!(lock(w, other, 0, p(2), p(6), Extent::Part), Ok(Locked { first: p(2), last: p(3) }));
    assert_eq!(read(w, other, 0, p(6), Extent::All), Err(Refusal::Held(holder)));
    let part = Read::New { tr: p(0), end: p(3), value: Value::Never };
    assert_eq!(read(w, other, 0, p(6), Extent::Part), Ok(part));
}

#[test]
fn never_written_is_not_zero() {
    let mut words = fresh();
    let w = &mut words[..];
    assert_eq!(view(w, 0, p(0)), Ok(Shown { point: p(0), value: Value::Never }));
    assert_eq!(view(w, 0, LAST), Ok(Shown { point: p(0), value: Value::Never }));
    let edit = begin(w).unwrap();
    lock(w, edit, 0, p(5), p(5), Extent::All).unwrap();
    write(w, edit, 0, 0).unwrap();
    assert_eq!(read(w, edit, 0, p(9), Extent::All), Ok(Read::Own(0)));
    assert_eq!(commit(w, edit, Pick::Earliest, Finish::Settle), Ok(Commit::At(p(5))));
    assert_eq!(view(w, 0, p(4)), Ok(Shown { point: p(0), value: Value::Never }));
    assert_eq!(view(w, 0, p(5)), Ok(Shown { point: p(5), value: Value::Written(0) }));
    let reader = begin(w).unwrap();
    let zero = Read::New { tr: p(5), end: p(9), value: Value::Written(0) };
    assert_eq!(read(w, reader, 0, p(9), Extent::All), Ok(zero));
    let never = Read::New { tr: p(0), end: p(9), value: Value::Never };
    assert_eq!(read(w, reader, 1, p(9), Extent::All), Ok(never));
    assert_eq!(read(w, reader, 1, p(3), Extent::All), Ok(Read::Again { tr: p(0), value: Value::Never }));
}

#[test]
fn points() {
    assert_eq!(point(Reading(0), Seat(0)), Ok(p(0)));
    assert_eq!(point(Reading(7), Seat(3)), Ok(p(7 * 64 + 3)));
    assert_eq!(point(Reading((1 << 40) - 1), Seat(63)), Ok(LAST));
    assert_eq!(LAST.word(), 70_368_744_177_663);
    assert!(point(Reading(7), Seat(63)).unwrap() < point(Reading(8), Seat(0)).unwrap());
    for (reading, seat) in [(1 << 40, 0), (0, 64), (u64::MAX, 0), (0, u64::MAX), (1 << 58, 0)] {
        assert_eq!(point(Reading(reading), Seat(seat)), Err(Refusal::BadPoint));
    }
    assert_eq!(view(&fresh(), 0, p(LAST.word() + 1)), Err(Refusal::BadPoint));
}

#[test]
fn lengths() {
    assert_eq!(COUNTS.length(), 118);
    let largest = Counts { records: 1024, edits: 63, versions: 4095, locks: 4095, accesses: 4095 };
    assert_eq!(largest.length(), 60_662);
    assert_eq!(format(&mut vec![7; 60_662], largest), Ok(()));
    assert_eq!(Counts { versions: usize::MAX, ..COUNTS }.length(), usize::MAX);
}
