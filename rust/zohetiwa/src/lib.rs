//! The shared plan store for Rust: the calls of document 01 over a lent slice of words, and planning desks ([`Desk`])
//! over them, with typed replies and refusals. A thin wrapper of the proved C functions (include/zohetiwa.h says what
//! each call does); it keeps no state but a [`Session`]'s index.
//!
//! The slice is the whole store and needs no content before [`format()`]. Every slice and every argument has a defined
//! reply; each call but [`point`] and [`format()`] first checks the whole slice. A [`Session`] checks it once for many
//! calls, and a [`Chart`] for many views; a list of calls that is known before its first reply is a [`batch`].
//!
//! ```
//! use zohetiwa::*;
//! let counts = Counts { records: 2, edits: 2, versions: 4, locks: 8, accesses: 8 };
//! let mut words = vec![0; counts.length()];
//! format(&mut words, counts)?;
//! let edit = begin(&mut words)?;
//! let now = point(Reading(5), Seat(1))?;
//! lock(&mut words, edit, 0, now, now, Extent::All)?;
//! write(&mut words, edit, 0, 501)?;
//! assert_eq!(commit(&mut words, edit, Pick::Latest, Finish::Settle)?, Commit::At(now));
//! assert_eq!(view(&words, 0, LAST)?, Shown { point: now, value: Value::Written(501) });
//! # Ok::<(), Refusal>(())
//! ```
//!
//! The same edit in a session, and a chart after it:
//!
//! ```
//! # use zohetiwa::*;
//! # let counts = Counts { records: 2, edits: 2, versions: 4, locks: 8, accesses: 8 };
//! # let mut words = vec![0; counts.length()];
//! # format(&mut words, counts)?;
//! # let now = point(Reading(5), Seat(1))?;
//! let mut session = Session::open(&mut words)?;
//! let edit = session.begin()?;
//! session.lock(edit, 0, now, now, Extent::All)?;
//! session.write(edit, 0, 501)?;
//! assert_eq!(session.commit(edit, Pick::Latest, Finish::Settle)?, Commit::At(now));
//! let chart = Chart::open(&words)?;
//! assert_eq!(chart.view(0, now)?.value, Value::Written(501));
//! assert_eq!(chart.view(1, now)?.value, Value::Never);
//! # Ok::<(), Refusal>(())
//! ```
//!
//! Safe because: a lent slice is a pointer, not null and aligned, to as many words as its length says; the lent numbers
//! are locals of the call, a desk's session is five words of its own, and an index is its session's own, so nothing
//! overlaps; and the functions, by their contracts, take every slice and number, and touch nothing else. Those of a
//! session take only what `src/session.rs` keeps.

mod codes;
mod desk;
mod lists;
mod session;
mod types;

pub use codes::{EMPTIED, NOPOINT};
pub use desk::*;
pub use lists::*;
pub use session::*;
pub use types::*;

// The declarations of include/zohetiwa.h.
extern "C" {
    fn zohetiwa_point(clock: u64, seat: u64, point: *mut u64) -> u64;
    fn zohetiwa_format(
        words: *mut u64,
        length: usize,
        records: usize,
        edits: usize,
        versions: usize,
        locks: usize,
        accesses: usize,
    ) -> u64;
    fn zohetiwa_begin(words: *mut u64, length: usize, handle: *mut u64) -> u64;
    fn zohetiwa_write(words: *mut u64, length: usize, handle: u64, record: u64, value: u64) -> u64;
    fn zohetiwa_lock(
        words: *mut u64,
        length: usize,
        handle: u64,
        record: u64,
        low: u64,
        high: u64,
        part: u64,
        first: *mut u64,
        last: *mut u64,
    ) -> u64;
    fn zohetiwa_read(
        words: *mut u64,
        length: usize,
        handle: u64,
        record: u64,
        m: u64,
        part: u64,
        kind: *mut u64,
        tr: *mut u64,
        end: *mut u64,
        written: *mut u64,
        value: *mut u64,
    ) -> u64;
    fn zohetiwa_commit_earliest(words: *mut u64, length: usize, handle: u64, keep: u64, point: *mut u64) -> u64;
    fn zohetiwa_commit_latest(words: *mut u64, length: usize, handle: u64, keep: u64, point: *mut u64) -> u64;
    fn zohetiwa_commit_at(words: *mut u64, length: usize, handle: u64, at: u64, keep: u64, point: *mut u64) -> u64;
    fn zohetiwa_abort(words: *mut u64, length: usize, handle: u64, keep: u64) -> u64;
    fn zohetiwa_settle(words: *mut u64, length: usize, handle: u64) -> u64;
    fn zohetiwa_purge(words: *mut u64, length: usize, record: u64, b: u64, versions: *mut u64, locks: *mut u64) -> u64;
    fn zohetiwa_view(
        words: *const u64,
        length: usize,
        record: u64,
        p: u64,
        point: *mut u64,
        written: *mut u64,
        value: *mut u64,
    ) -> u64;
    fn zohetiwa_batch(
        words: *mut u64,
        length: usize,
        calls: *const u64,
        calls_length: usize,
        replies: *mut u64,
        replies_length: usize,
    ) -> u64;
    fn zohetiwa_views(
        words: *const u64,
        length: usize,
        asks: *const u64,
        asks_length: usize,
        replies: *mut u64,
        replies_length: usize,
    ) -> u64;
    fn zohetiwa_desk_open(words: *mut u64, length: usize, t: u64, width: u64, latest: u64, session: *mut u64) -> u64;
    fn zohetiwa_desk_read(
        words: *mut u64,
        length: usize,
        session: *mut u64,
        record: u64,
        kind: *mut u64,
        tr: *mut u64,
        end: *mut u64,
        written: *mut u64,
        value: *mut u64,
    ) -> u64;
    fn zohetiwa_desk_write(words: *mut u64, length: usize, session: *mut u64, record: u64, value: u64) -> u64;
    fn zohetiwa_desk_commit(words: *mut u64, length: usize, session: *mut u64, point: *mut u64) -> u64;
}

/// A point of a clock reading (below 2^40) and a seat (below 64). Needs no store. Refusal: 6.
pub fn point(reading: Reading, seat: Seat) -> Answer<Point> {
    let mut point = 0;
    // SAFETY: the lent number is a local.
    let code = unsafe { zohetiwa_point(reading.0, seat.0, &mut point) };
    codes::told(code, Point::of_word(point))
}

/// Lays out an empty store, whatever the slice held. Refusal: 16.
pub fn format(words: &mut [u64], counts: Counts) -> Answer<()> {
    let Counts { records, edits, versions, locks, accesses } = counts;
    let length = words.len();
    // SAFETY: the slice is lent with its length.
    let code = unsafe { zohetiwa_format(words.as_mut_ptr(), length, records, edits, versions, locks, accesses) };
    codes::told(code, ())
}

/// Opens an edit. Refusals: 1, 13.
pub fn begin(words: &mut [u64]) -> Answer<Handle> {
    let mut handle = 0;
    // SAFETY: the slice is lent with its length, the number is a local.
    let code = unsafe { zohetiwa_begin(words.as_mut_ptr(), words.len(), &mut handle) };
    codes::begin(code, handle)
}

/// The edit's pending value of the record; it replaces an earlier one. Takes no lock. Refusals: 1, 2, 3, 5, 10.
pub fn write(words: &mut [u64], handle: Handle, record: u64, value: u64) -> Answer<()> {
    // SAFETY: the slice is lent with its length.
    let code = unsafe { zohetiwa_write(words.as_mut_ptr(), words.len(), handle.word(), record, value) };
    codes::told(code, ())
}

/// Write-locks points of low..high of the record: all of them, or the run from the first free one.
/// Refusals: 1, 2, 3, 5, 6, 7, 8, 9, 11.
pub fn lock(words: &mut [u64], handle: Handle, record: u64, low: Point, high: Point, extent: Extent) -> Answer<Locked> {
    let (mut first, mut last) = (0, 0);
    // SAFETY: the slice is lent with its length, the numbers are two locals.
    let code = unsafe {
        zohetiwa_lock(
            words.as_mut_ptr(),
            words.len(),
            handle.word(),
            record,
            low.word(),
            high.word(),
            codes::part(extent),
            &mut first,
            &mut last,
        )
    };
    codes::lock(code, first, last)
}

/// Reads the record up to m. Refusals: 1, 2, 3, 5, 6, 7, 8, 9, 10, 11.
pub fn read(words: &mut [u64], handle: Handle, record: u64, m: Point, extent: Extent) -> Answer<Read> {
    let (mut kind, mut tr, mut end, mut written, mut value) = (0, 0, 0, 0, 0);
    // SAFETY: the slice is lent with its length, the numbers are five locals.
    let code = unsafe {
        zohetiwa_read(
            words.as_mut_ptr(),
            words.len(),
            handle.word(),
            record,
            m.word(),
            codes::part(extent),
            &mut kind,
            &mut tr,
            &mut end,
            &mut written,
            &mut value,
        )
    };
    codes::read(code, kind, tr, end, written, value)
}

/// Commits: all written values become versions at one point. With no such point the edit ends as aborted.
/// Refusals: 1, 2, 3, 12; for a named point also 6, 14.
pub fn commit(words: &mut [u64], handle: Handle, pick: Pick, finish: Finish) -> Answer<Commit> {
    let (lent, length) = (words.as_mut_ptr(), words.len());
    let (edit, keep) = (handle.word(), codes::keep(finish));
    let mut point = 0;
    let code = match pick {
        // SAFETY: the slice is lent with its length, the number is a local.
        Pick::Earliest => unsafe { zohetiwa_commit_earliest(lent, length, edit, keep, &mut point) },
        // SAFETY: as above.
        Pick::Latest => unsafe { zohetiwa_commit_latest(lent, length, edit, keep, &mut point) },
        // SAFETY: as above.
        Pick::Named(at) => unsafe { zohetiwa_commit_at(lent, length, edit, at.word(), keep, &mut point) },
    };
    codes::commit(code, point)
}

/// Ends the edit; none of its values is stored. Refusals: 1, 2, 3.
pub fn abort(words: &mut [u64], handle: Handle, finish: Finish) -> Answer<()> {
    // SAFETY: the slice is lent with its length.
    let code = unsafe { zohetiwa_abort(words.as_mut_ptr(), words.len(), handle.word(), codes::keep(finish)) };
    codes::told(code, ())
}

/// Settles an edit that has ended. Refusals: 1, 2, 4.
pub fn settle(words: &mut [u64], handle: Handle) -> Answer<()> {
    // SAFETY: the slice is lent with its length.
    let code = unsafe { zohetiwa_settle(words.as_mut_ptr(), words.len(), handle.word()) };
    codes::told(code, ())
}

/// Purges the record to b: its newest version at or below b becomes the floor. Refusals: 1, 5, 6, 15.
pub fn purge(words: &mut [u64], record: u64, b: Point) -> Answer<Purged> {
    let (mut versions, mut locks) = (0, 0);
    let (lent, length) = (words.as_mut_ptr(), words.len());
    // SAFETY: the slice is lent with its length, the numbers are two locals.
    let code = unsafe { zohetiwa_purge(lent, length, record, b.word(), &mut versions, &mut locks) };
    codes::purge(code, versions, locks)
}

/// The newest version of the record at or below p. Refusals: 1, 5, 6, 7.
///
/// On words that only these calls have changed since [`format()`], the views at one point are one moment of the plan:
/// the state after exactly the edits that have committed at or below the point. Edits that commit there later may
/// change such a chart; for one that can be printed again, [`read`] its records in an edit and commit that edit: views
/// at its commit point then show what it read, whatever else commits, until a [`purge`] raises a floor above the point.
pub fn view(words: &[u64], record: u64, p: Point) -> Answer<Shown> {
    let (mut point, mut written, mut value) = (0, 0, 0);
    let (lent, length) = (words.as_ptr(), words.len());
    // SAFETY: the slice is lent with its length and only read, the numbers are three locals.
    let code = unsafe { zohetiwa_view(lent, length, record, p.word(), &mut point, &mut written, &mut value) };
    codes::view(code, point, written, value)
}

/// Many calls after one check: a call is six words, and so is its reply (include/zohetiwa.h). How many calls were done:
/// as many as are in the list whole, and have room for their replies. Views at one point are one moment of the plan, as
/// those of [`view`], if no edit commits at or below that point between them.
pub fn batch(words: &mut [u64], calls: &[u64], replies: &mut [u64]) -> u64 {
    let (lent, length) = (words.as_mut_ptr(), words.len());
    let (answers, room) = (replies.as_mut_ptr(), replies.len());
    // SAFETY: the three slices are lent with their lengths; the borrows keep them apart.
    unsafe { zohetiwa_batch(lent, length, calls.as_ptr(), calls.len(), answers, room) }
}

/// Many views after one check: an ask is two words, its reply four (include/zohetiwa.h). How many were answered: as
/// many as are in the list whole, and have room for their replies. Those at one point are one moment of the plan, as
/// those of [`view`], which says how to get a chart that can be printed again.
pub fn views(words: &[u64], asks: &[u64], replies: &mut [u64]) -> u64 {
    let (answers, room) = (replies.as_mut_ptr(), replies.len());
    // SAFETY: the three slices are lent with their lengths, two of them only to be read.
    unsafe { zohetiwa_views(words.as_ptr(), words.len(), asks.as_ptr(), asks.len(), answers, room) }
}
