//! Lists of calls and of views: the session of document 01 as one list, and random lists whose every call is also made
//! by its own function on a second store, with the same answers, and words that mean the same.

mod common;

use common::{alone, meaning, Numbers};
use zohetiwa::*;

const COUNTS: Counts = Counts { records: 2, edits: 2, versions: 4, locks: 8, accesses: 8 };

fn fresh() -> Vec<u64> {
    let mut words = vec![0; COUNTS.length()];
    format(&mut words, COUNTS).unwrap();
    words
}

fn p(word: u64) -> Point {
    Point::of_word(word)
}

#[test]
fn the_session_as_one_list() {
    let [a, b, c] = [65, 66, 129].map(Handle::of_word);
    let calls = [
        Call::Begin,
        Call::Begin,
        Call::Read(a, 0, p(6), Extent::All),
        Call::Lock(b, 0, p(4), p(9), Extent::Part),
        Call::Write(b, 0, 501),
        Call::Commit(b, Pick::Earliest, Finish::Settle),
        Call::Commit(a, Pick::Latest, Finish::Settle),
        Call::Begin,
        Call::Read(c, 0, p(9), Extent::All),
        Call::Lock(c, 0, p(3), p(3), Extent::All),
        Call::Purge(0, p(8)),
        Call::Read(a, 0, p(6), Extent::All),
    ];
    let expected = [
        Ok(Reply::Edit(a)),
        Ok(Reply::Edit(b)),
        Ok(Reply::Read(Read::New { tr: p(0), end: p(6), value: Value::Never })),
        Ok(Reply::Locked(Locked { first: p(7), last: p(9) })),
        Ok(Reply::Done),
        Ok(Reply::Commit(Commit::At(p(7)))),
        Ok(Reply::Commit(Commit::At(p(6)))),
        Ok(Reply::Edit(c)),
        Ok(Reply::Read(Read::New { tr: p(7), end: p(9), value: Value::Written(501) })),
        Err(Refusal::Frozen),
        Ok(Reply::Purged(Purged { versions: 0, locks: 2 })),
        Err(Refusal::NoEdit),
    ];
    assert_eq!(run(&mut fresh(), &calls), expected);
}

/// Settled reads that touch are one row: that of the first edit, settled last, takes in the two others. A purge below
/// its end shortens it, and the next one counts it.
#[test]
fn joined_rows() {
    let [a, b, c, d] = [65, 66, 130, 129].map(Handle::of_word);
    let calls = [
        Call::Begin,
        Call::Read(a, 0, p(5), Extent::All),
        Call::Begin,
        Call::Read(b, 0, p(2), Extent::All),
        Call::Commit(b, Pick::Latest, Finish::Settle),
        Call::Lock(a, 0, p(5), p(5), Extent::All),
        Call::Write(a, 0, 1),
        Call::Commit(a, Pick::Latest, Finish::Keep),
        Call::Begin,
        Call::Read(c, 0, p(8), Extent::All),
        Call::Commit(c, Pick::Latest, Finish::Settle),
        Call::Settle(a),
        Call::Purge(0, p(5)),
        Call::Begin,
        Call::Lock(d, 0, p(8), p(10), Extent::Part),
        Call::Write(d, 0, 2),
        Call::Commit(d, Pick::Latest, Finish::Settle),
        Call::Purge(0, p(10)),
    ];
    let replies = run(&mut fresh(), &calls);
    let mut words = fresh();
    let single: Vec<_> = calls.iter().map(|call| alone(&mut words, *call)).collect();
    assert_eq!(replies, single);
    assert_eq!(replies[11], Ok(Reply::Done));
    assert_eq!(replies[12], Ok(Reply::Purged(Purged { versions: 0, locks: 1 })));
    assert_eq!(replies[14], Ok(Reply::Locked(Locked { first: p(9), last: p(10) })));
    assert_eq!(replies[17], Ok(Reply::Purged(Purged { versions: 1, locks: 2 })));
}

fn any_call(numbers: &mut Numbers) -> Call {
    let h = Handle::of_word((1 + numbers.below(2)) * 64 + 1 + numbers.below(2));
    let (record, at) = (numbers.below(2), p(1 + numbers.below(12)));
    let extent = numbers.pick(&[Extent::All, Extent::Part]);
    let finish = numbers.pick(&[Finish::Settle, Finish::Keep]);
    let pick = numbers.pick(&[Pick::Earliest, Pick::Latest, Pick::Named(at)]);
    match numbers.below(12) {
        0 | 1 => Call::Begin,
        2 => Call::Write(h, record, numbers.below(100)),
        3 | 4 => Call::Lock(h, record, at, p(at.word() + numbers.below(4)), extent),
        5 | 6 => Call::Read(h, record, at, extent),
        7 => Call::Commit(h, pick, finish),
        8 => Call::Abort(h, finish),
        9 => Call::Settle(h),
        10 => Call::Purge(record, at),
        _ => Call::View(record, at),
    }
}

#[test]
fn a_list_does_what_its_calls_do() {
    let mut numbers = Numbers(1);
    let mut commits = 0;
    for round in 0..400 {
        let calls: Vec<Call> = (0..40).map(|_| any_call(&mut numbers)).collect();
        let (mut one, mut other) = (fresh(), fresh());
        let damaged = round % 10 == 0;
        if damaged {
            let at = numbers.below(one.len() as u64) as usize;
            one[at] = 5000;
            other[at] = 5000;
        }
        let answers = run(&mut one, &calls);
        let alone: Vec<Answer<Reply>> = calls.iter().map(|call| alone(&mut other, *call)).collect();
        assert_eq!(answers, alone);
        if damaged && view(&one, 0, LAST) == Err(Refusal::Unsound) {
            assert_eq!(one, other);
        } else {
            assert_eq!(meaning(&one), meaning(&other));
        }
        commits += answers.iter().filter(|a| matches!(a, Ok(Reply::Commit(Commit::At(_))))).count();

        let asks: Vec<u64> = (0..20).flat_map(|_| [numbers.below(3), numbers.below(15)]).collect();
        let mut rows = vec![7; 19 * SHOWN_WORDS + 3];
        assert_eq!(views(&one, &asks, &mut rows), 19);
        assert_eq!(rows[19 * SHOWN_WORDS..], [7, 7, 7]);
        for (ask, row) in asks.chunks_exact(ASK_WORDS).zip(rows.chunks_exact(SHOWN_WORDS)) {
            let shown = Call::View(ask[0], p(ask[1])).reply([row[0], row[1], row[2], row[3], 0, 0]);
            assert_eq!(shown, view(&one, ask[0], p(ask[1])).map(Reply::Shown));
        }
    }
    assert!(commits > 100, "only {commits} commits");
}

#[test]
fn a_call_without_room_is_not_done() {
    let mut words = fresh();
    let list = [Call::Begin.words(), Call::Begin.words()].concat();
    let mut rows = [9; 2 * REPLY_WORDS - 1];
    assert_eq!(batch(&mut words, &list, &mut rows), 1);
    assert_eq!(rows, [0, 65, 0, 0, 0, 0, 9, 9, 9, 9, 9]);
    assert_eq!(begin(&mut words).map(Handle::word), Ok(66));
    assert_eq!(batch(&mut words, &list[..5], &mut rows), 0);
}
