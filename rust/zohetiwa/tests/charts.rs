//! Charts: what the views of several records at one point show while edits are saved beside them, and the recipe for a
//! chart that can be printed again.

use zohetiwa::*;

const COUNTS: Counts = Counts { records: 4, edits: 2, versions: 12, locks: 24, accesses: 8 };

/// The records of the chart are 0, 1 and 2.
const CHARTED: u64 = 3;

/// A store in which record 0 is 50 from point 5 on, and record 1 is 60 from 6 on.
fn plan() -> Vec<u64> {
    let mut words = vec![0; COUNTS.length()];
    format(&mut words, COUNTS).unwrap();
    assert_eq!(save(&mut words, 0, 5, 50), Ok(Commit::At(p(5))));
    assert_eq!(save(&mut words, 1, 6, 60), Ok(Commit::At(p(6))));
    words
}

fn p(word: u64) -> Point {
    Point::of_word(word)
}

/// An edit that writes the record and commits at the point; if the point cannot be locked it is aborted.
fn save(words: &mut [u64], record: u64, at: u64, value: u64) -> Answer<Commit> {
    let edit = begin(words)?;
    write(words, edit, record, value)?;
    if let Err(refusal) = lock(words, edit, record, p(at), p(at), Extent::All) {
        abort(words, edit, Finish::Settle)?;
        return Err(refusal);
    }
    commit(words, edit, Pick::Latest, Finish::Settle)
}

/// The chart at the point, which the list of views, the single views and the batch show alike.
fn chart(words: &mut [u64], at: u64) -> Vec<Answer<Reply>> {
    let calls: Vec<Call> = (0..CHARTED).map(|record| Call::View(record, p(at))).collect();
    let asks: Vec<u64> = (0..CHARTED).flat_map(|record| [record, at]).collect();
    let mut rows = vec![0; calls.len() * SHOWN_WORDS];
    assert_eq!(views(words, &asks, &mut rows), CHARTED);
    let single: Vec<_> = (0..CHARTED).map(|record| view(words, record, p(at)).map(Reply::Shown)).collect();
    for ((call, row), reply) in calls.iter().zip(rows.chunks_exact(SHOWN_WORDS)).zip(&single) {
        assert_eq!(call.reply([row[0], row[1], row[2], row[3], 0, 0]), *reply);
    }
    assert_eq!(run(words, &calls), single);
    single
}

fn shown(point: u64, value: u64) -> Answer<Reply> {
    Ok(Reply::Shown(Shown { point: p(point), value: Value::Written(value) }))
}

const NEVER: Answer<Reply> = Ok(Reply::Shown(Shown { point: Point::of_word(0), value: Value::Never }));

#[test]
fn a_chart_changes_only_by_commits_at_or_below_its_point() {
    let mut words = plan();
    let w = &mut words[..];
    assert_eq!(chart(w, 10), [shown(5, 50), shown(6, 60), NEVER]);
    assert_eq!(save(w, 1, 12, 61), Ok(Commit::At(p(12))));
    assert_eq!(chart(w, 10), [shown(5, 50), shown(6, 60), NEVER]);
    assert_eq!(chart(w, 12), [shown(5, 50), shown(12, 61), NEVER]);
    assert_eq!(save(w, 0, 8, 51), Ok(Commit::At(p(8))));
    assert_eq!(chart(w, 10), [shown(8, 51), shown(6, 60), NEVER]);
    assert_eq!(chart(w, 7), [shown(5, 50), shown(6, 60), NEVER]);
    assert_eq!(save(w, 2, 10, 70), Ok(Commit::At(p(10))));
    assert_eq!(chart(w, 10), [shown(8, 51), shown(6, 60), shown(10, 70)]);
}

#[test]
fn a_chart_has_an_edit_whole_or_not_at_all() {
    let mut words = plan();
    let w = &mut words[..];
    let edit = begin(w).unwrap();
    for (record, value) in [(0, 52), (2, 72)] {
        lock(w, edit, record, p(8), p(9), Extent::All).unwrap();
        write(w, edit, record, value).unwrap();
    }
    assert_eq!(chart(w, 9), [shown(5, 50), shown(6, 60), NEVER]);
    assert_eq!(commit(w, edit, Pick::Latest, Finish::Keep), Ok(Commit::At(p(9))));
    assert_eq!(chart(w, 8), [shown(5, 50), shown(6, 60), NEVER]);
    assert_eq!(chart(w, 9), [shown(9, 52), shown(6, 60), shown(9, 72)]);
}

/// An edit that reads the chart up to 20 and commits there; what it read.
fn print(words: &mut [u64], finish: Finish) -> (Handle, Vec<Answer<Reply>>) {
    let reader = begin(words).unwrap();
    let mut printed = vec![];
    for record in 0..CHARTED {
        let Ok(Read::New { tr, value, .. }) = read(words, reader, record, p(20), Extent::All) else {
            panic!("record {record} is free up to 20");
        };
        printed.push(Ok(Reply::Shown(Shown { point: tr, value })));
    }
    assert_eq!(commit(words, reader, Pick::Latest, finish), Ok(Commit::At(p(20))));
    (reader, printed)
}

#[test]
fn a_chart_that_can_be_printed_again() {
    let mut words = plan();
    let w = &mut words[..];
    let (_, printed) = print(w, Finish::Settle);
    assert_eq!(printed, [shown(5, 50), shown(6, 60), NEVER]);
    assert_eq!(chart(w, 20), printed);

    // Nobody saves behind the reads.
    for at in 6..=20 {
        for record in 0..CHARTED {
            assert_eq!(save(w, record, at, 99), Err(Refusal::Frozen));
        }
    }
    // Older than what was read, and above the point, there is room; the record that was not read is free.
    for (record, at) in [(0, 3), (0, 21), (1, 25), (2, 21), (3, 20)] {
        assert_eq!(save(w, record, at, 99), Ok(Commit::At(p(at))));
        assert_eq!(chart(w, 20), printed);
    }
    assert_eq!(chart(w, 21), [shown(21, 99), shown(6, 60), shown(21, 99)]);

    // A floor at or below the point leaves the chart; one above it ends it.
    assert_eq!(purge(w, 1, p(20)), Ok(Purged { versions: 0, locks: 1 }));
    assert_eq!(chart(w, 20), printed);
    assert_eq!(purge(w, 0, p(21)), Ok(Purged { versions: 2, locks: 4 }));
    assert_eq!(chart(w, 20), [Err(Refusal::BelowFloor), shown(6, 60), NEVER]);
}

#[test]
fn a_kept_chart_is_not_purged_before_it_is_settled() {
    let mut words = plan();
    let w = &mut words[..];
    let (reader, printed) = print(w, Finish::Keep);
    assert_eq!(save(w, 2, 20, 99), Err(Refusal::Held(reader)));
    assert_eq!(save(w, 2, 21, 99), Ok(Commit::At(p(21))));
    assert_eq!(purge(w, 2, p(21)), Err(Refusal::LockedBelow));
    assert_eq!(chart(w, 20), printed);
    settle(w, reader).unwrap();
    assert_eq!(chart(w, 20), printed);
    assert_eq!(purge(w, 2, p(21)), Ok(Purged { versions: 0, locks: 2 }));
    assert_eq!(chart(w, 20), [shown(5, 50), shown(6, 60), Err(Refusal::BelowFloor)]);
}
