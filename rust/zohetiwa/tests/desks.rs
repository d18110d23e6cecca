//! Planning desks: every reply and refusal of each call and what becomes of the session, sessions that hold anything,
//! and that a desk does no more than the store's calls with its handle do.

use std::collections::BTreeSet;

use zohetiwa::*;

const COUNTS: Counts = Counts { records: 2, edits: 3, versions: 4, locks: 12, accesses: 8 };
const SETTINGS: [Setting; 2] = [Setting::Earliest, Setting::Latest];

fn p(word: u64) -> Point {
    Point::of_word(word)
}

fn fresh(counts: Counts) -> Vec<u64> {
    let mut words = vec![u64::MAX; counts.length()];
    format(&mut words, counts).expect("a store");
    words
}

/// A store in which record 0 is 50 from point 15 on.
fn plan() -> Vec<u64> {
    let mut words = fresh(COUNTS);
    save(&mut words, 0, 15, 50);
    words
}

/// An edit that writes the record and commits at the point.
fn save(words: &mut [u64], record: u64, at: u64, value: u64) {
    let mut desk = open(words, at, 0, Setting::Earliest);
    desk.write(words, record, value).unwrap();
    assert_eq!(desk.commit(words), Ok(Commit::At(p(at))));
}

fn open(words: &mut [u64], t: u64, width: u64, setting: Setting) -> Desk {
    Desk::open(words, p(t), width, setting).expect("a desk")
}

/// A desk with the interval 10..30.
fn desk_10_30(words: &mut [u64]) -> Desk {
    open(words, 10, 20, Setting::Earliest)
}

fn interval(low: u64, high: u64) -> Option<(Point, Point)> {
    Some((p(low), p(high)))
}

fn new_read(tr: u64, end: u64, value: Value) -> Answer<DeskRead> {
    Ok(DeskRead::Told(Read::New { tr: p(tr), end: p(end), value }))
}

/// The call is refused so, and changes no word, neither of the store nor of the session.
fn refused<T>(words: &mut [u64], desk: &mut Desk, why: Refusal, call: impl FnOnce(&mut Desk, &mut [u64]) -> Answer<T>) {
    let before = (words.to_vec(), *desk);
    assert_eq!(call(desk, words).err(), Some(why));
    assert_eq!((words.to_vec(), *desk), before);
}

/// The session has ended as sessions end, its edit is settled, and every call of it is refused with 3.
fn ended(words: &mut [u64], desk: &mut Desk) {
    let [_, low, high, _, _] = desk.words();
    assert_eq!((low, high, desk.interval()), (1, 0, None));
    assert_eq!(settle(words, desk.handle()), Err(Refusal::NoEdit));
    refused(words, desk, Refusal::EditEnded, |d, w| d.read(w, 0));
    refused(words, desk, Refusal::EditEnded, |d, w| d.write(w, 0, 1));
    refused(words, desk, Refusal::EditEnded, Desk::commit);
}

#[test]
fn opening() {
    let mut words = fresh(COUNTS);
    let w = &mut words[..];
    let first = open(w, 10, 20, Setting::Earliest);
    assert_eq!(first.words(), [65, 10, 30, 20, 0]);
    assert_eq!((first.handle(), first.interval()), (Handle::of_word(65), interval(10, 30)));
    assert_eq!(open(w, 1, LAST.word() - 1, Setting::Latest).words(), [66, 1, LAST.word(), LAST.word() - 1, 1]);
    assert_eq!(open(w, LAST.word(), 0, Setting::Earliest).words(), [67, LAST.word(), LAST.word(), 0, 0]);
}

#[test]
fn opening_refused_changes_no_word() {
    let mut words = fresh(COUNTS);
    let bad = [
        (0, 0),
        (0, LAST.word()),
        (1, LAST.word()),
        (1, u64::MAX),
        (LAST.word(), 1),
        (LAST.word(), u64::MAX - LAST.word() + 1),
        (LAST.word() + 1, 0),
        (u64::MAX, 0),
        (u64::MAX, 2),
    ];
    let all_bad = |words: &mut [u64], why| {
        let before = words.to_vec();
        for (t, width) in bad {
            for setting in SETTINGS {
                assert_eq!(Desk::open(words, p(t), width, setting), Err(why));
                assert_eq!(words, before);
            }
        }
    };
    all_bad(&mut words, Refusal::BadPoint);
    for _ in 0..COUNTS.edits {
        desk_10_30(&mut words);
    }
    all_bad(&mut words, Refusal::NoSlot);
    assert_eq!(Desk::open(&mut words, p(10), 20, Setting::Latest), Err(Refusal::NoSlot));
    words[0] = 5000;
    all_bad(&mut words, Refusal::Unsound);
    assert_eq!(Desk::open(&mut words, p(10), 20, Setting::Latest), Err(Refusal::Unsound));
    assert_eq!(Desk::open(&mut [], p(10), 20, Setting::Latest), Err(Refusal::Unsound));
}

#[test]
fn an_unsound_store_is_1_before_all_else() {
    let mut words = plan();
    let open = desk_10_30(&mut words);
    words[0] = 5000;
    for mut desk in [open, Desk::of_words([open.handle().word(), 1, 0, 20, 0]), Desk::of_words([0; SESSION_WORDS])] {
        refused(&mut words, &mut desk, Refusal::Unsound, |d, w| d.read(w, 0));
        refused(&mut words, &mut desk, Refusal::Unsound, |d, w| d.write(w, 0, 1));
        refused(&mut words, &mut desk, Refusal::Unsound, Desk::commit);
        refused(&mut [], &mut desk, Refusal::Unsound, Desk::commit);
    }
}

#[test]
fn replies_that_leave_the_interval() {
    let mut words = fresh(COUNTS);
    let w = &mut words[..];
    let mut desk = desk_10_30(w);
    let opened = desk;
    assert_eq!(desk.read(w, 0), new_read(0, 30, Value::Never));
    assert_eq!(desk.read(w, 0), Ok(DeskRead::Told(Read::Again { tr: p(0), value: Value::Never })));
    assert_eq!(desk.write(w, 0, 0), Ok(()));
    assert_eq!(desk.write(w, 0, 7), Ok(()));
    assert_eq!(desk.read(w, 0), Ok(DeskRead::Told(Read::Own(7))));
    assert_eq!(desk, opened);
}

#[test]
fn a_repeated_read_leaves_the_interval_also_outside_the_lock() {
    let mut words = plan();
    let w = &mut words[..];
    let mut desk = desk_10_30(w);
    assert_eq!(desk.read(w, 0), new_read(15, 30, Value::Written(50)));
    let [handle, _, _, width, latest] = desk.words();
    let mut other = Desk::of_words([handle, 2, 9, width, latest]);
    assert_eq!(other.read(w, 0), Ok(DeskRead::Told(Read::Again { tr: p(15), value: Value::Written(50) })));
    assert_eq!(other.interval(), interval(2, 9));
}

#[test]
fn a_read_shrinks_the_interval_to_its_part_within_the_lock() {
    let mut words = plan();
    let w = &mut words[..];
    let mut desk = desk_10_30(w);
    assert_eq!(desk.read(w, 0), new_read(15, 30, Value::Written(50)));
    assert_eq!(desk.interval(), interval(16, 30));
    let other = begin(w).unwrap();
    lock(w, other, 1, p(20), p(25), Extent::All).unwrap();
    assert_eq!(desk.read(w, 1), new_read(0, 19, Value::Never));
    assert_eq!(desk.words(), [desk.handle().word(), 16, 19, 20, 0]);
    assert_eq!(desk.commit(w), Ok(Commit::At(p(16))));
    ended(w, &mut desk);
}

#[test]
fn a_write_shrinks_the_interval_to_the_lock() {
    for (setting, at) in SETTINGS.into_iter().zip([13, 19]) {
        let mut words = fresh(COUNTS);
        let w = &mut words[..];
        let other = begin(w).unwrap();
        read(w, other, 0, p(12), Extent::All).unwrap();
        lock(w, other, 0, p(20), p(25), Extent::All).unwrap();
        let mut desk = open(w, 10, 20, setting);
        assert_eq!(desk.write(w, 0, 7), Ok(()));
        assert_eq!(desk.interval(), interval(13, 19));
        assert_eq!(lock(w, other, 0, p(19), p(19), Extent::All), Err(Refusal::Held(desk.handle())));
        assert_eq!(desk.commit(w), Ok(Commit::At(p(at))));
        assert_eq!(view(w, 0, LAST), Ok(Shown { point: p(at), value: Value::Written(7) }));
        ended(w, &mut desk);
    }
}

#[test]
fn the_setting_names_the_point() {
    for (setting, at) in SETTINGS.into_iter().zip([10, 30]) {
        let mut words = fresh(COUNTS);
        let mut desk = open(&mut words, 10, 20, setting);
        assert_eq!(desk.commit(&mut words), Ok(Commit::At(p(at))));
        ended(&mut words, &mut desk);
    }
}

/// The desk, which holds record 1, is emptied by a read of record 0: its edit is gone with locks and values.
fn emptied(w: &mut [u64], mut desk: Desk) {
    let [handle, low, high, width, latest] = desk.words();
    desk.write(w, 1, 7).unwrap();
    assert_eq!(desk.read(w, 0), Ok(DeskRead::Emptied));
    assert_eq!(desk.words(), [handle, 1, 0, width, latest]);
    ended(w, &mut desk);
    assert_eq!(view(w, 1, LAST), Ok(Shown { point: p(0), value: Value::Never }));
    let next = begin(w).unwrap();
    lock(w, next, 1, p(low), p(high), Extent::All).unwrap();
}

#[test]
fn a_read_that_leaves_no_point_ends_the_edit() {
    // A version stands on the only point, and a read gives the newest below it.
    let mut words = plan();
    let desk = open(&mut words, 15, 0, Setting::Latest);
    emptied(&mut words, desk);

    // Another edit has locked points below the interval, so that the read's lock ends there.
    let mut words = fresh(COUNTS);
    let other = begin(&mut words).unwrap();
    lock(&mut words, other, 0, p(5), p(8), Extent::All).unwrap();
    let desk = desk_10_30(&mut words);
    emptied(&mut words, desk);
}

#[test]
fn refusals_of_the_handle() {
    let mut words = plan();
    let w = &mut words[..];
    let mut desk = desk_10_30(w);
    abort(w, desk.handle(), Finish::Keep).unwrap();
    for why in [Refusal::EditEnded, Refusal::NoEdit] {
        refused(w, &mut desk, why, |d, w| d.read(w, 2));
        refused(w, &mut desk, why, |d, w| d.write(w, 2, 1));
        refused(w, &mut desk, why, Desk::commit);
        let _ = settle(w, desk.handle());
    }
}

#[test]
fn refusals_5_and_7_of_the_record() {
    let mut words = plan();
    let w = &mut words[..];
    assert_eq!(purge(w, 0, LAST), Ok(Purged { versions: 0, locks: 1 }));
    let mut desk = open(w, 10, 5, Setting::Earliest);
    for record in [2, u64::MAX] {
        refused(w, &mut desk, Refusal::NoRecord, |d, w| d.read(w, record));
        refused(w, &mut desk, Refusal::NoRecord, |d, w| d.write(w, record, 1));
    }
    refused(w, &mut desk, Refusal::BelowFloor, |d, w| d.read(w, 0));
    refused(w, &mut desk, Refusal::BelowFloor, |d, w| d.write(w, 0, 1));

    // Only a write wants the whole interval above the floor.
    let mut desk = desk_10_30(w);
    refused(w, &mut desk, Refusal::BelowFloor, |d, w| d.write(w, 0, 1));
    assert_eq!(desk.read(w, 0), new_read(15, 30, Value::Written(50)));
    assert_eq!(desk.write(w, 0, 1), Ok(()));
    assert_eq!(desk.interval(), interval(16, 30));
}

#[test]
fn refusals_8_and_9_of_locks() {
    let mut words = fresh(COUNTS);
    let w = &mut words[..];
    save(w, 0, 1, 50);
    let holder = begin(w).unwrap();
    lock(w, holder, 1, p(1), p(4), Extent::All).unwrap();
    let mut desk = open(w, 1, 0, Setting::Earliest);
    refused(w, &mut desk, Refusal::Frozen, |d, w| d.read(w, 0));
    refused(w, &mut desk, Refusal::Frozen, |d, w| d.write(w, 0, 1));
    refused(w, &mut desk, Refusal::Held(holder), |d, w| d.read(w, 1));
    refused(w, &mut desk, Refusal::Held(holder), |d, w| d.write(w, 1, 1));
}

#[test]
fn refusals_10_and_11_of_room_for_a_read() {
    for (counts, why) in [
        (Counts { accesses: 1, locks: 1, ..COUNTS }, Refusal::NoAccessRow),
        (Counts { accesses: 1, ..COUNTS }, Refusal::NoAccessRow),
        (Counts { locks: 1, ..COUNTS }, Refusal::NoLockRow),
    ] {
        let mut words = fresh(counts);
        let mut desk = desk_10_30(&mut words);
        assert_eq!(desk.read(&mut words, 0), new_read(0, 30, Value::Never));
        refused(&mut words, &mut desk, why, |d, w| d.read(w, 1));
        assert_eq!(desk.commit(&mut words), Ok(Commit::At(p(10))));
    }
}

#[test]
fn refusal_11_of_a_write_comes_also_for_a_record_written_before() {
    let mut words = fresh(Counts { locks: 1, accesses: 1, ..COUNTS });
    let mut desk = desk_10_30(&mut words);
    assert_eq!(desk.write(&mut words, 0, 1), Ok(()));
    for record in [0, 1] {
        refused(&mut words, &mut desk, Refusal::NoLockRow, |d, w| d.write(w, record, 2));
    }
}

#[test]
fn refusal_10_of_a_write_leaves_its_lock_and_the_shrunken_interval() {
    let mut words = fresh(Counts { accesses: 1, ..COUNTS });
    let w = &mut words[..];
    let other = begin(w).unwrap();
    lock(w, other, 1, p(20), p(25), Extent::All).unwrap();
    let mut desk = open(w, 10, 20, Setting::Latest);
    assert_eq!(desk.write(w, 0, 7), Ok(()));
    assert_eq!(desk.interval(), interval(10, 30));
    assert_eq!(lock(w, other, 1, p(19), p(19), Extent::Part), Ok(Locked { first: p(19), last: p(19) }));

    let mut by_calls = w.to_vec();
    let taken = lock(&mut by_calls, desk.handle(), 1, p(10), p(30), Extent::Part);
    assert_eq!(taken, Ok(Locked { first: p(10), last: p(18) }));
    assert_eq!(desk.write(w, 1, 8), Err(Refusal::NoAccessRow));
    assert_eq!(w, by_calls);
    assert_eq!(desk.words(), [desk.handle().word(), 10, 18, 20, 1]);
    for at in [10, 18] {
        assert_eq!(lock(w, other, 1, p(at), p(at), Extent::All), Err(Refusal::Held(desk.handle())));
    }
    assert_eq!(desk.commit(w), Ok(Commit::At(p(18))));
    assert_eq!(view(w, 0, LAST), Ok(Shown { point: p(18), value: Value::Written(7) }));
    assert_eq!(view(w, 1, LAST), Ok(Shown { point: p(0), value: Value::Never }));
    ended(w, &mut desk);
}

#[test]
fn refusal_12_leaves_the_session_to_try_again() {
    let mut words = fresh(Counts { versions: 3, ..COUNTS });
    let w = &mut words[..];
    save(w, 0, 5, 50);
    save(w, 0, 6, 60);
    let mut desk = desk_10_30(w);
    desk.write(w, 0, 7).unwrap();
    desk.write(w, 1, 8).unwrap();
    refused(w, &mut desk, Refusal::NoVersionRow, Desk::commit);
    assert_eq!(purge(w, 0, p(6)), Ok(Purged { versions: 1, locks: 2 }));
    assert_eq!(desk.commit(w), Ok(Commit::At(p(10))));
    ended(w, &mut desk);
}

#[test]
fn others_may_use_the_handle() {
    // A lock elsewhere makes the named point one that the edit may not commit at.
    let mut words = fresh(COUNTS);
    let w = &mut words[..];
    let mut desk = desk_10_30(w);
    lock(w, desk.handle(), 0, p(50), p(60), Extent::All).unwrap();
    write(w, desk.handle(), 0, 7).unwrap();
    assert_eq!(desk.read(w, 0), Ok(DeskRead::Told(Read::Own(7))));
    refused(w, &mut desk, Refusal::NotCommon, Desk::commit);
    assert_eq!(commit(w, desk.handle(), Pick::Latest, Finish::Settle), Ok(Commit::At(p(60))));
    refused(w, &mut desk, Refusal::NoEdit, Desk::commit);

    // A write without a lock leaves it none: the desk's commit then ends the edit, and settles it.
    let mut desk = desk_10_30(w);
    write(w, desk.handle(), 0, 8).unwrap();
    assert_eq!(desk.commit(w), Ok(Commit::NoPoint));
    ended(w, &mut desk);
    assert_eq!(view(w, 0, LAST), Ok(Shown { point: p(60), value: Value::Written(7) }));
}

#[test]
fn two_desks_with_one_handle() {
    let mut words = fresh(COUNTS);
    let w = &mut words[..];
    let mut first = desk_10_30(w);
    let mut second = Desk::of_words([first.handle().word(), 12, 14, 0, u64::MAX]);
    first.write(w, 0, 7).unwrap();
    second.write(w, 1, 8).unwrap();
    assert_eq!(first.read(w, 1), Ok(DeskRead::Told(Read::Own(8))));
    assert_eq!((first.interval(), second.interval()), (interval(10, 30), interval(12, 14)));
    refused(w, &mut first, Refusal::NotCommon, Desk::commit);
    assert_eq!(second.commit(w), Ok(Commit::At(p(14))));
    ended(w, &mut second);
    refused(w, &mut first, Refusal::NoEdit, |d, w| d.read(w, 0));
    refused(w, &mut first, Refusal::NoEdit, |d, w| d.write(w, 0, 1));
    refused(w, &mut first, Refusal::NoEdit, Desk::commit);
    for (record, value) in [(0, 7), (1, 8)] {
        assert_eq!(view(w, record, LAST), Ok(Shown { point: p(14), value: Value::Written(value) }));
    }
}

#[test]
fn a_session_is_saved_and_restored_with_the_store() {
    let mut words = plan();
    let mut desk = desk_10_30(&mut words);
    assert_eq!(desk.read(&mut words, 0), new_read(15, 30, Value::Written(50)));
    let (saved_words, saved) = (words.clone(), desk.words());
    let rest = |words: &mut [u64], desk: &mut Desk| (desk.write(words, 0, 51), desk.read(words, 0), desk.commit(words));
    let first = rest(&mut words, &mut desk);
    assert_eq!(first, (Ok(()), Ok(DeskRead::Told(Read::Own(51))), Ok(Commit::At(p(16)))));

    let (mut restored_words, mut restored) = (saved_words, Desk::of_words(saved));
    assert_eq!(restored.interval(), interval(16, 30));
    assert_eq!(rest(&mut restored_words, &mut restored), first);
    assert_eq!((restored_words, restored), (words, desk));
}

/// What each call of a desk is, in calls of the store.
mod by_calls {
    use super::*;

    /// The handle and the interval of a session that has not ended, in a store that is sound.
    fn going(words: &[u64], session: &[u64; SESSION_WORDS]) -> Answer<(Handle, Point, Point)> {
        if let Err(Refusal::Unsound) = view(words, 0, p(0)) {
            return Err(Refusal::Unsound);
        }
        let [handle, low, high, _, _] = *session;
        if high < low {
            return Err(Refusal::EditEnded);
        }
        Ok((Handle::of_word(handle), p(low), p(high)))
    }

    fn shrink(session: &mut [u64; SESSION_WORDS], low: u64, high: u64) {
        [session[1], session[2]] = [low, high];
    }

    pub fn read(words: &mut [u64], session: &mut [u64; SESSION_WORDS], record: u64) -> Answer<DeskRead> {
        let (handle, low, high) = going(words, session)?;
        let reply = zohetiwa::read(words, handle, record, high, Extent::Part)?;
        if let Read::New { tr, end, .. } = reply {
            let (low, high) = (low.word().max(tr.word() + 1), high.word().min(end.word()));
            if high < low {
                abort(words, handle, Finish::Settle).unwrap();
                shrink(session, 1, 0);
                return Ok(DeskRead::Emptied);
            }
            shrink(session, low, high);
        }
        Ok(DeskRead::Told(reply))
    }

    pub fn write(words: &mut [u64], session: &mut [u64; SESSION_WORDS], record: u64, value: u64) -> Answer<()> {
        let (handle, low, high) = going(words, session)?;
        let Locked { first, last } = lock(words, handle, record, low, high, Extent::Part)?;
        shrink(session, first.word(), last.word());
        zohetiwa::write(words, handle, record, value)
    }

    pub fn commit(words: &mut [u64], session: &mut [u64; SESSION_WORDS]) -> Answer<Commit> {
        let (handle, low, high) = going(words, session)?;
        let at = if session[4] == 0 { low } else { high };
        let reply = zohetiwa::commit(words, handle, Pick::Named(at), Finish::Settle)?;
        shrink(session, 1, 0);
        Ok(reply)
    }
}

/// The desk's call and its calls of the store have the same reply, and leave the same session and words. The reply's
/// number, 0 if it is granted.
fn alike<T: std::fmt::Debug + PartialEq>(
    words: &[u64],
    session: [u64; SESSION_WORDS],
    desks: impl FnOnce(&mut Desk, &mut [u64]) -> Answer<T>,
    by_calls: impl FnOnce(&mut [u64], &mut [u64; SESSION_WORDS]) -> Answer<T>,
    number: impl FnOnce(T) -> u64,
) -> u64 {
    let (mut words_of_desk, mut desk) = (words.to_vec(), Desk::of_words(session));
    let (mut words_of_calls, mut expected) = (words.to_vec(), session);
    let reply = desks(&mut desk, &mut words_of_desk);
    assert_eq!(reply, by_calls(&mut words_of_calls, &mut expected), "{session:?}");
    assert_eq!(desk.words(), expected, "{session:?}");
    assert_eq!(words_of_desk, words_of_calls, "{session:?}");
    reply.map_or_else(Refusal::number, number)
}

/// A store in which one edit has read and written record 0, one has written it without a lock and holds points of
/// record 1, one has read that and is committed and kept, one has read it and is open; and their handles.
fn busy(counts: Counts) -> (Vec<u64>, [u64; 4]) {
    let mut words = fresh(counts);
    let w = &mut words[..];
    for (record, at) in [(0, 1), (0, 15), (1, 1)] {
        save(w, record, at, 50 + at);
    }
    assert_eq!(purge(w, 1, p(1)), Ok(Purged { versions: 0, locks: 1 }));
    let mut first = desk_10_30(w);
    first.read(w, 0).unwrap();
    first.write(w, 0, 51).unwrap();
    let [holder, kept, reader] = [(); 3].map(|()| begin(w).unwrap());
    write(w, holder, 0, 52).unwrap();
    lock(w, holder, 1, p(12), p(13), Extent::All).unwrap();
    read(w, kept, 1, p(9), Extent::All).unwrap();
    commit(w, kept, Pick::Latest, Finish::Keep).unwrap();
    read(w, reader, 1, p(11), Extent::All).unwrap();
    (words, [first.handle(), holder, kept, reader].map(Handle::word))
}

#[test]
fn a_session_may_hold_anything() {
    let roomy = Counts { edits: 4, ..COUNTS };
    let points = [0, 1, 10, 12, 14, 15, 16, 30, 31, LAST.word(), LAST.word() + 1, u64::MAX];
    let [mut reads, mut writes, mut commits] = [(); 3].map(|()| BTreeSet::new());
    let full = [Counts { versions: 3, ..roomy }, Counts { locks: 7, ..roomy }, Counts { accesses: 4, ..roomy }];
    for counts in full.into_iter().chain([roomy]) {
        let (words, handles) = busy(counts);
        for handle in handles.into_iter().chain([0, 64, 65, u64::MAX]) {
            for (low, high) in points.into_iter().flat_map(|low| points.map(|high| (low, high))) {
                for (width, latest) in [(0, 0), (u64::MAX, 1), (20, u64::MAX)] {
                    let session = [handle, low, high, width, latest];
                    for record in [0, 1, 2] {
                        reads.insert(alike(
                            &words,
                            session,
                            |d, w| d.read(w, record),
                            |w, s| by_calls::read(w, s, record),
                            |reply| if reply == DeskRead::Emptied { EMPTIED } else { 0 },
                        ));
                        writes.insert(alike(
                            &words,
                            session,
                            |d, w| d.write(w, record, 7),
                            |w, s| by_calls::write(w, s, record, 7),
                            |()| 0,
                        ));
                    }
                    let no_point = |reply| if reply == Commit::NoPoint { NOPOINT } else { 0 };
                    commits.insert(alike(&words, session, Desk::commit, by_calls::commit, no_point));
                }
            }
        }
    }
    // Each reply has come.
    assert_eq!(reads, BTreeSet::from([0, 2, 3, 5, 6, 7, 8, 9, 10, 11, EMPTIED]));
    assert_eq!(writes, BTreeSet::from([0, 2, 3, 5, 6, 7, 8, 9, 10, 11]));
    assert_eq!(commits, BTreeSet::from([0, 2, 3, 6, 12, 14, NOPOINT]));
}
