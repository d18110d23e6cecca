//! The lists of one kind, made on the plain store, which grants every call of them.

use super::Base;
use crate::plain::Plain;
use crate::rows::{self, Row, ABORT, BEGIN, EARLIEST, LATEST, LOCK, NAMED, PURGE, READ, ROW, SETTLE, VIEW, WRITE};
use crate::stores::LARGEST;
use zohetiwa::LAST;

/// Records that the lists of one kind touch.
const MANY: u64 = 1000;

/// The calls that are timed, after those before them, and their replies.
pub struct Case {
    pub name: &'static str,
    pub before: Vec<u64>,
    pub calls: Vec<u64>,
    pub replies: Vec<u64>,
}

impl Case {
    pub fn count(&self) -> usize {
        self.calls.len() / ROW
    }
}

struct Maker {
    plain: Plain<true>,
    before: Vec<u64>,
    calls: Vec<u64>,
    replies: Vec<u64>,
    /// A point later than all in the store.
    late: u64,
}

/// An edit and the point that it may commit at.
type Ready = (u64, u64);

impl Maker {
    fn call(&mut self, call: Row) -> Row {
        let reply = rows::answer(&mut self.plain, call);
        assert_eq!(reply[0], 0, "{call:?}");
        self.calls.extend(call);
        self.replies.extend(reply);
        reply
    }

    /// Only the calls from here on are timed.
    fn start(&mut self) {
        self.before = std::mem::take(&mut self.calls);
        self.replies.clear();
    }

    fn edits(&mut self, count: usize) -> Vec<u64> {
        (0..count).map(|_| self.call([BEGIN, 0, 0, 0, 0, 0])[1]).collect()
    }

    /// One call for each of 1,000 records, the edits by turns.
    fn each(&mut self, edits: &[u64], call: impl Fn(u64, u64) -> Row) {
        for record in 0..MANY {
            self.call(call(edits[record as usize % edits.len()], record));
        }
    }

    fn writes(&mut self, edits: &[u64]) {
        self.each(edits, |edit, record| [WRITE, edit, record, record, 0, 0]);
    }

    fn locks(&mut self, edits: &[u64], part: u64) {
        let late = self.late;
        self.each(edits, |edit, record| [LOCK, edit, record, late, late + 9, part]);
    }

    fn reads(&mut self, edits: &[u64]) {
        let late = self.late;
        self.each(edits, |edit, record| [READ, edit, record, late, 0, 0]);
    }

    /// 63 edits that have read three records and have locked and written two others, each at a point of its own.
    fn busy(&mut self) -> Vec<Ready> {
        let edits: Vec<Ready> = (0..).zip(self.edits(LARGEST.edits)).map(|(k, e)| (e, self.late + 64 * k)).collect();
        for (k, (edit, point)) in (0..).zip(&edits) {
            for record in 5 * k..5 * k + 3 {
                self.call([READ, *edit, record, *point, 0, 0]);
            }
            for record in 5 * k + 3..5 * k + 5 {
                self.call([LOCK, *edit, record, *point, *point, 0]);
                self.call([WRITE, *edit, record, k, 0, 0]);
            }
        }
        edits
    }

    fn ends(&mut self, edits: &[Ready], call: impl Fn(Ready) -> Row) {
        for edit in edits {
            self.call(call(*edit));
        }
    }

    /// All records saved at a late point, 16 by an edit.
    fn saved(&mut self) {
        for k in 0..LARGEST.records as u64 / 16 {
            let edit = self.call([BEGIN, 0, 0, 0, 0, 0])[1];
            for record in 16 * k..16 * k + 16 {
                self.call([LOCK, edit, record, self.late, self.late, 0]);
                self.call([WRITE, edit, record, k, 0, 0]);
            }
            self.call([EARLIEST, edit, 0, 0, 0, 0]);
        }
    }
}

impl Base {
    fn case(&self, name: &'static str, make: impl Fn(&mut Maker)) -> Case {
        let plain = self.copy().plain;
        let mut maker = Maker { plain, before: vec![], calls: vec![], replies: vec![], late: self.late };
        make(&mut maker);
        Case { name, before: maker.before, calls: maker.calls, replies: maker.replies }
    }

    /// A list by 40 edits, for the first time.
    fn by_forty(&self, name: &'static str, list: impl Fn(&mut Maker, &[u64])) -> Case {
        self.case(name, |m| {
            let edits = m.edits(40);
            m.start();
            list(m, &edits);
        })
    }

    /// The same list again, ten times.
    fn again(&self, name: &'static str, list: impl Fn(&mut Maker, &[u64])) -> Case {
        self.case(name, |m| {
            let edits = m.edits(40);
            list(m, &edits);
            m.start();
            (0..10).for_each(|_| list(m, &edits));
        })
    }

    /// The ends of 63 edits.
    fn ending(&self, name: &'static str, call: impl Fn(Ready) -> Row) -> Case {
        self.case(name, |m| {
            let edits = m.busy();
            m.start();
            m.ends(&edits, &call);
        })
    }

    pub fn begins(&self) -> Vec<Case> {
        vec![
            self.case("Begin, first of its slot", |m| _ = m.edits(LARGEST.edits)),
            self.case("Begin, again in its slot", |m| {
                for edit in m.edits(LARGEST.edits) {
                    m.call([ABORT, edit, 0, 0, 0, 0]);
                }
                m.start();
                m.edits(LARGEST.edits);
            }),
        ]
    }

    pub fn cases(&self) -> Vec<Case> {
        vec![
            self.by_forty("Write, new record, 25 by each of 40 edits", Maker::writes),
            self.again("Write, again", Maker::writes),
            self.by_forty("Lock, all", |m, edits| m.locks(edits, 0)),
            self.by_forty("Lock, part", |m, edits| m.locks(edits, 1)),
            self.by_forty("Read, new record, 25 by each of 40 edits", Maker::reads),
            self.again("Read, again", Maker::reads),
            self.case("Read, 1,000 new records by one edit", |m| {
                let edits = m.edits(1);
                m.start();
                m.reads(&edits);
            }),
            self.case("Commit of these, settle", |m| {
                let edits = m.edits(1);
                m.reads(&edits);
                m.start();
                m.call([LATEST, edits[0], 0, 0, 0, 0]);
            }),
            self.ending("Commit, earliest, settle", |(edit, _)| [EARLIEST, edit, 0, 0, 0, 0]),
            self.ending("Commit, latest, settle", |(edit, _)| [LATEST, edit, 0, 0, 0, 0]),
            self.ending("Commit, named, settle", |(edit, point)| [NAMED, edit, point, 0, 0, 0]),
            self.ending("Commit, earliest, keep", |(edit, _)| [EARLIEST, edit, 1, 0, 0, 0]),
            self.ending("Abort, settle", |(edit, _)| [ABORT, edit, 0, 0, 0, 0]),
            self.case("Settle", |m| {
                let edits = m.busy();
                m.ends(&edits, |(edit, _)| [EARLIEST, edit, 1, 0, 0, 0]);
                m.start();
                m.ends(&edits, |(edit, _)| [SETTLE, edit, 0, 0, 0, 0]);
            }),
            self.case("Purge", |m| {
                m.saved();
                m.start();
                m.each(&[0], |_, record| [PURGE, record, LAST.word(), 0, 0, 0]);
            }),
            self.case("View", |m| {
                for _ in 0..100 {
                    m.each(&[0], |_, record| [VIEW, record, LAST.word(), 0, 0, 0]);
                }
            }),
        ]
    }
}
