//! A planning desk: an edit with a working interval, which shrinks to what its reads and writes were granted. Rests on
//! the functions for desks of include/zohetiwa.h; the session is theirs to change, and the caller's to keep.

use crate::codes;
use crate::types::{Answer, Commit, Handle, Point, Read};

/// The words of a session: handle, low, high, width, latest.
pub const SESSION_WORDS: usize = 5;

/// The point that a desk's commit names: the earliest or the latest of the interval left.
#[derive(Clone, Copy, Debug, PartialEq, Eq)]
pub enum Setting {
    Earliest,
    Latest,
}

/// What a desk's read tells.
#[derive(Clone, Copy, Debug, PartialEq, Eq)]
pub enum DeskRead {
    /// The store's reply.
    Told(Read),
    /// Nothing of the interval is left: the edit is aborted and settled, the session has ended. This is no refusal.
    Emptied,
}

/// A desk's session: its edit's handle, its interval, and the width and setting it was opened with. It only makes calls
/// of the store: other calls may use its handle, and two sessions may have one handle.
///
/// ```
/// use zohetiwa::*;
/// let counts = Counts { records: 2, edits: 2, versions: 4, locks: 8, accesses: 8 };
/// let mut words = vec![0; counts.length()];
/// format(&mut words, counts)?;
/// let now = point(Reading(5), Seat(1))?;
/// let mut desk = Desk::open(&mut words, now, 64, Setting::Earliest)?;
/// desk.write(&mut words, 0, 501)?;
/// assert_eq!(desk.read(&mut words, 0)?, DeskRead::Told(Read::Own(501)));
/// assert_eq!(desk.commit(&mut words)?, Commit::At(now));
/// assert_eq!(desk.interval(), None);
/// assert_eq!(desk.commit(&mut words), Err(Refusal::EditEnded));
/// # Ok::<(), Refusal>(())
/// ```
#[derive(Clone, Copy, Debug, PartialEq, Eq)]
pub struct Desk {
    session: [u64; SESSION_WORDS],
}

impl Desk {
    /// Opens an edit with the interval t..t + width. Refusals: 1, 13, and 6 if t is 0 or t + width is above
    /// [`LAST`](crate::LAST).
    pub fn open(words: &mut [u64], t: Point, width: u64, setting: Setting) -> Answer<Desk> {
        let latest = match setting {
            Setting::Earliest => 0,
            Setting::Latest => 1,
        };
        let mut session = [0; SESSION_WORDS];
        let (lent, length) = (words.as_mut_ptr(), words.len());
        // SAFETY: the slice is lent with its length, the session is a local of five words.
        let code = unsafe { crate::zohetiwa_desk_open(lent, length, t.word(), width, latest, session.as_mut_ptr()) };
        codes::told(code, Desk { session })
    }

    /// Reads the record up to the end of the interval, a part; a new read shrinks the interval to its part within the
    /// lock, or empties it. Refusals: 1, then 3 if the session has ended, then those of [`read`](crate::read).
    pub fn read(&mut self, words: &mut [u64], record: u64) -> Answer<DeskRead> {
        let (mut kind, mut tr, mut end, mut written, mut value) = (0, 0, 0, 0, 0);
        // SAFETY: the slice is lent with its length, the session is five borrowed words, the numbers are five locals.
        let code = unsafe {
            crate::zohetiwa_desk_read(
                words.as_mut_ptr(),
                words.len(),
                self.session.as_mut_ptr(),
                record,
                &mut kind,
                &mut tr,
                &mut end,
                &mut written,
                &mut value,
            )
        };
        if code == codes::EMPTIED {
            return Ok(DeskRead::Emptied);
        }
        codes::read(code, kind, tr, end, written, value).map(DeskRead::Told)
    }

    /// Locks the interval in the record, a part, to which the interval shrinks, and then writes the value. Refusals:
    /// 1, then 3 if the session has ended, then those of [`lock`](crate::lock), then 10, after which the lock and the
    /// shrunken interval remain.
    pub fn write(&mut self, words: &mut [u64], record: u64, value: u64) -> Answer<()> {
        let (lent, length) = (words.as_mut_ptr(), words.len());
        // SAFETY: the slice is lent with its length, the session is five borrowed words.
        let code = unsafe { crate::zohetiwa_desk_write(lent, length, self.session.as_mut_ptr(), record, value) };
        codes::told(code, ())
    }

    /// Commits at the earliest or the latest point of the interval, by the setting, and settles; the session has then
    /// ended, also if there was no point. Refusals, which leave it: 1, then 3 if it has ended, then those of
    /// [`commit`](crate::commit) at a named point.
    pub fn commit(&mut self, words: &mut [u64]) -> Answer<Commit> {
        let mut point = 0;
        let (lent, length) = (words.as_mut_ptr(), words.len());
        // SAFETY: the slice is lent with its length, the session is five borrowed words, the number is a local.
        let code = unsafe { crate::zohetiwa_desk_commit(lent, length, self.session.as_mut_ptr(), &mut point) };
        codes::commit(code, point)
    }

    pub const fn handle(&self) -> Handle {
        Handle::of_word(self.session[0])
    }

    /// The interval left, `low..=high`; none once the session has ended.
    pub const fn interval(&self) -> Option<(Point, Point)> {
        let [_, low, high, _, _] = self.session;
        if low <= high {
            Some((Point::of_word(low), Point::of_word(high)))
        } else {
            None
        }
    }

    /// The session's words, to save it, or to send it to another program.
    pub const fn words(&self) -> [u64; SESSION_WORDS] {
        self.session
    }

    /// The session of these words: every five words are one. What its handle and interval may do, the store decides.
    pub const fn of_words(words: [u64; SESSION_WORDS]) -> Desk {
        Desk { session: words }
    }
}
