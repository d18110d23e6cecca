//! Calls without a check: the words are checked when a [`Session`] or a [`Chart`] is opened, and its borrow of them
//! keeps them as the functions left them. Rests on `zohetiwa_open` and the functions `zohetiwa_in_*` of
//! include/zohetiwa.h. A desk's session ([`Desk`](crate::Desk)) is something else.
//!
//! These functions rely on more than the others: the words were found sound when the index was made, and since then
//! nothing but these functions, lent both, has changed words or index. That holds of every `Session` and `Chart`. The
//! fields are private, and one is made only where `zohetiwa_open` has returned 0, or of the words of a `Session`. While
//! it lives the words are borrowed, by it alone or, in a `Chart`, only to be read, so that no safe code writes them;
//! the index is its own. And each function, whatever it is asked, leaves what the next one relies on. This is meant
//! below by "an open session".

use crate::codes;
use crate::types::{Answer, Commit, Extent, Finish, Handle, Locked, Pick, Point, Purged, Read, Refusal, Shown};

/// How many numbers the index of a session has.
pub const INDEX: usize = 69_632;

// The declarations of include/zohetiwa.h for a session.
extern "C" {
    fn zohetiwa_open(words: *const u64, length: usize, index: *mut u16, index_length: usize) -> u64;
    fn zohetiwa_in_begin(words: *mut u64, length: usize, index: *mut u16, index_length: usize, handle: *mut u64)
        -> u64;
    fn zohetiwa_in_write(
        words: *mut u64,
        length: usize,
        index: *mut u16,
        index_length: usize,
        handle: u64,
        record: u64,
        value: u64,
    ) -> u64;
    fn zohetiwa_in_lock(
        words: *mut u64,
        length: usize,
        index: *mut u16,
        index_length: usize,
        handle: u64,
        record: u64,
        low: u64,
        high: u64,
        part: u64,
        first: *mut u64,
        last: *mut u64,
    ) -> u64;
    fn zohetiwa_in_read(
        words: *mut u64,
        length: usize,
        index: *mut u16,
        index_length: usize,
        handle: u64,
        record: u64,
        m: u64,
        part: u64,
        kind: *mut u64,
        tr: *mut u64,
        end: *mut u64,
        written: *mut u64,
        value: *mut u64,
    ) -> u64;
    fn zohetiwa_in_commit_earliest(
        words: *mut u64,
        length: usize,
        index: *mut u16,
        index_length: usize,
        handle: u64,
        keep: u64,
        point: *mut u64,
    ) -> u64;
    fn zohetiwa_in_commit_latest(
        words: *mut u64,
        length: usize,
        index: *mut u16,
        index_length: usize,
        handle: u64,
        keep: u64,
        point: *mut u64,
    ) -> u64;
    fn zohetiwa_in_commit_at(
        words: *mut u64,
        length: usize,
        index: *mut u16,
        index_length: usize,
        handle: u64,
        at: u64,
        keep: u64,
        point: *mut u64,
    ) -> u64;
    fn zohetiwa_in_abort(
        words: *mut u64,
        length: usize,
        index: *mut u16,
        index_length: usize,
        handle: u64,
        keep: u64,
    ) -> u64;
    fn zohetiwa_in_settle(words: *mut u64, length: usize, index: *mut u16, index_length: usize, handle: u64) -> u64;
    fn zohetiwa_in_purge(
        words: *mut u64,
        length: usize,
        index: *mut u16,
        index_length: usize,
        record: u64,
        b: u64,
        versions: *mut u64,
        locks: *mut u64,
    ) -> u64;
    fn zohetiwa_in_view(
        words: *const u64,
        length: usize,
        record: u64,
        p: u64,
        point: *mut u64,
        written: *mut u64,
        value: *mut u64,
    ) -> u64;
}

/// Many calls after one check of the words: each does and replies what the function of its name does, without the
/// check, and so is never refused with 1. (The words after it mean the same; rows may lie elsewhere in their tables.)
/// It ends when it is dropped; the words are then as its calls left them. Edits stay open over its end, and those in
/// use when it was opened can be used in it, with slower calls.
///
/// ```
/// use zohetiwa::*;
/// let counts = Counts { records: 2, edits: 2, versions: 4, locks: 8, accesses: 8 };
/// let mut words = vec![0; counts.length()];
/// format(&mut words, counts)?;
/// let now = point(Reading(5), Seat(1))?;
/// let mut session = Session::open(&mut words)?;
/// for value in [501, 502] {
///     let edit = session.begin()?;
///     session.write(edit, 0, value)?;
///     match session.lock(edit, 0, now, now, Extent::All) {
///         Ok(_) => assert_eq!(session.commit(edit, Pick::Latest, Finish::Settle)?, Commit::At(now)),
///         Err(refusal) => {
///             assert_eq!(refusal, Refusal::Frozen);
///             session.abort(edit, Finish::Settle)?;
///         }
///     }
/// }
/// let shown = Shown { point: now, value: Value::Written(501) };
/// assert_eq!(session.view(0, LAST)?, shown);
/// assert_eq!(session.chart().view(0, LAST)?, shown);
/// assert_eq!(view(&words, 0, LAST)?, shown);
/// # Ok::<(), Refusal>(())
/// ```
/// While a session is open nobody else writes the words:
/// ```compile_fail,E0499
/// use zohetiwa::*;
/// fn two(words: &mut [u64], edit: Handle) -> Result<(), Refusal> {
///     let mut session = Session::open(words)?;
///     write(words, edit, 0, 501)?;
///     session.write(edit, 0, 502)
/// }
/// ```
/// nor while a chart of it is looked at:
/// ```compile_fail,E0502
/// use zohetiwa::*;
/// fn two(session: &mut Session, edit: Handle) -> Result<Shown, Refusal> {
///     let chart = session.chart();
///     session.write(edit, 0, 501)?;
///     chart.view(0, LAST)
/// }
/// ```
#[derive(Debug)]
pub struct Session<'a> {
    words: &'a mut [u64],
    index: Vec<u16>,
}

impl<'a> Session<'a> {
    /// Checks the words, and makes an index. Refusal: 1.
    pub fn open(words: &'a mut [u64]) -> Answer<Session<'a>> {
        Session::open_with(words, vec![0; INDEX]).map_err(|(refusal, _)| refusal)
    }

    /// Opens with an index of any length and content, and gives it back if refused; for tests. One of another length
    /// than [`INDEX`] says nothing, and calls are slower.
    #[doc(hidden)]
    pub fn open_with(words: &'a mut [u64], mut index: Vec<u16>) -> Result<Session<'a>, (Refusal, Vec<u16>)> {
        // SAFETY: slice and index are lent with their lengths; the borrows keep them apart.
        let code = unsafe { zohetiwa_open(words.as_ptr(), words.len(), index.as_mut_ptr(), index.len()) };
        match codes::told(code, ()) {
            Ok(()) => Ok(Session { words, index }),
            Err(refusal) => Err((refusal, index)),
        }
    }

    /// Words and index, as the functions are lent them.
    fn lent(&mut self) -> (*mut u64, usize, *mut u16, usize) {
        (self.words.as_mut_ptr(), self.words.len(), self.index.as_mut_ptr(), self.index.len())
    }

    /// As [`begin`](crate::begin). Refusal: 13.
    pub fn begin(&mut self) -> Answer<Handle> {
        let (words, length, index, room) = self.lent();
        let mut handle = 0;
        // SAFETY: words and index are those of an open session, the number is a local.
        let code = unsafe { zohetiwa_in_begin(words, length, index, room, &mut handle) };
        codes::begin(code, handle)
    }

    /// As [`write`](crate::write). Refusals: 2, 3, 5, 10.
    pub fn write(&mut self, handle: Handle, record: u64, value: u64) -> Answer<()> {
        let (words, length, index, room) = self.lent();
        // SAFETY: words and index are those of an open session.
        let code = unsafe { zohetiwa_in_write(words, length, index, room, handle.word(), record, value) };
        codes::told(code, ())
    }

    /// As [`lock`](crate::lock). Refusals: 2, 3, 5, 6, 7, 8, 9, 11.
    pub fn lock(&mut self, handle: Handle, record: u64, low: Point, high: Point, extent: Extent) -> Answer<Locked> {
        let (words, length, index, room) = self.lent();
        let (mut first, mut last) = (0, 0);
        // SAFETY: words and index are those of an open session, the numbers are two locals.
        let code = unsafe {
            zohetiwa_in_lock(
                words,
                length,
                index,
                room,
                handle.word(),
                record,
                low.word(),
                high.word(),
                codes::part(extent),
                &mut first,
                &mut last,
            )
        };
        codes::lock(code, first, last)
    }

    /// As [`read`](crate::read). Refusals: 2, 3, 5, 6, 7, 8, 9, 10, 11.
    pub fn read(&mut self, handle: Handle, record: u64, m: Point, extent: Extent) -> Answer<Read> {
        let (words, length, index, room) = self.lent();
        let (mut kind, mut tr, mut end, mut written, mut value) = (0, 0, 0, 0, 0);
        // SAFETY: words and index are those of an open session, the numbers are five locals.
        let code = unsafe {
            zohetiwa_in_read(
                words,
                length,
                index,
                room,
                handle.word(),
                record,
                m.word(),
                codes::part(extent),
                &mut kind,
                &mut tr,
                &mut end,
                &mut written,
                &mut value,
            )
        };
        codes::read(code, kind, tr, end, written, value)
    }

    /// As [`commit`](crate::commit). Refusals: 2, 3, 12; for a named point also 6, 14.
    pub fn commit(&mut self, handle: Handle, pick: Pick, finish: Finish) -> Answer<Commit> {
        let (words, length, index, room) = self.lent();
        let (edit, keep) = (handle.word(), codes::keep(finish));
        let mut point = 0;
        // SAFETY: words and index are those of an open session, the number is a local.
        let code = unsafe {
            match pick {
                Pick::Earliest => zohetiwa_in_commit_earliest(words, length, index, room, edit, keep, &mut point),
                Pick::Latest => zohetiwa_in_commit_latest(words, length, index, room, edit, keep, &mut point),
                Pick::Named(at) => zohetiwa_in_commit_at(words, length, index, room, edit, at.word(), keep, &mut point),
            }
        };
        codes::commit(code, point)
    }

    /// As [`abort`](crate::abort). Refusals: 2, 3.
    pub fn abort(&mut self, handle: Handle, finish: Finish) -> Answer<()> {
        let (words, length, index, room) = self.lent();
        // SAFETY: words and index are those of an open session.
        let code = unsafe { zohetiwa_in_abort(words, length, index, room, handle.word(), codes::keep(finish)) };
        codes::told(code, ())
    }

    /// As [`settle`](crate::settle). Refusals: 2, 4.
    pub fn settle(&mut self, handle: Handle) -> Answer<()> {
        let (words, length, index, room) = self.lent();
        // SAFETY: words and index are those of an open session.
        let code = unsafe { zohetiwa_in_settle(words, length, index, room, handle.word()) };
        codes::told(code, ())
    }

    /// As [`purge`](crate::purge). Refusals: 5, 6, 15.
    pub fn purge(&mut self, record: u64, b: Point) -> Answer<Purged> {
        let (words, length, index, room) = self.lent();
        let (mut versions, mut locks) = (0, 0);
        // SAFETY: words and index are those of an open session, the numbers are two locals.
        let code =
            unsafe { zohetiwa_in_purge(words, length, index, room, record, b.word(), &mut versions, &mut locks) };
        codes::purge(code, versions, locks)
    }

    /// As [`view`](crate::view), which says what charts are promised. Refusals: 5, 6, 7.
    pub fn view(&self, record: u64, p: Point) -> Answer<Shown> {
        self.chart().view(record, p)
    }

    /// A chart of the words as they are now, without a check.
    pub fn chart(&self) -> Chart<'_> {
        Chart { words: self.words }
    }

    /// The words as they are now, to be looked at or copied.
    pub fn words(&self) -> &[u64] {
        self.words
    }
}

/// Many views after one check of the words, which nobody changes meanwhile: those at one point are one moment of the
/// plan, as those of [`view`](crate::view), which says how to get a chart that can be printed again.
///
/// ```
/// use zohetiwa::*;
/// let counts = Counts { records: 2, edits: 2, versions: 4, locks: 8, accesses: 8 };
/// let mut words = vec![0; counts.length()];
/// format(&mut words, counts)?;
/// let chart = Chart::open(&words)?;
/// for record in 0..2 {
///     assert_eq!(chart.view(record, LAST)?.value, Value::Never);
/// }
/// assert_eq!(chart.view(2, LAST), Err(Refusal::NoRecord));
/// assert_eq!(Chart::open(&words[1..]).err(), Some(Refusal::Unsound));
/// # Ok::<(), Refusal>(())
/// ```
#[derive(Clone, Copy, Debug)]
pub struct Chart<'a> {
    words: &'a [u64],
}

impl<'a> Chart<'a> {
    /// Checks the words. Refusal: 1.
    pub fn open(words: &'a [u64]) -> Answer<Chart<'a>> {
        // SAFETY: the slice is lent with its length and only read; the index is of length 0.
        let code = unsafe { zohetiwa_open(words.as_ptr(), words.len(), [].as_mut_ptr(), 0) };
        codes::told(code, Chart { words })
    }

    /// As [`view`](crate::view). Refusals: 5, 6, 7.
    pub fn view(&self, record: u64, p: Point) -> Answer<Shown> {
        let (mut point, mut written, mut value) = (0, 0, 0);
        let (lent, length) = (self.words.as_ptr(), self.words.len());
        // SAFETY: the words are those of an open session and only read, the numbers are three locals.
        let code = unsafe { zohetiwa_in_view(lent, length, record, p.word(), &mut point, &mut written, &mut value) };
        codes::view(code, point, written, value)
    }
}

#[cfg(test)]
mod tests {
    use crate::*;

    /// An index of another length is taken for none, and only time would show it: in this one a Begin is noted.
    #[test]
    fn the_index_has_its_length() {
        let counts = Counts { records: 1, edits: 1, versions: 1, locks: 1, accesses: 1 };
        for (length, noted) in [(INDEX - 1, false), (INDEX, true), (INDEX + 1, false)] {
            let mut words = vec![0; counts.length()];
            format(&mut words, counts).expect("a store");
            let mut session = Session::open_with(&mut words, vec![0; length]).expect("a session");
            let before = session.index.clone();
            session.begin().expect("an edit");
            assert_eq!(session.index != before, noted, "{length}");
        }
    }
}
