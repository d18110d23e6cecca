//! This store. Every edit commits at a point of its own, later than all before, and its two records are then purged to
//! that point: so no call is refused for want of room. The purges are part of the edit's time.

use crate::job::Edit;
use crate::timing::Store;
use zohetiwa::*;

/// The point of a reading at seat 0.
pub fn at(reading: u64) -> Point {
    point(Reading(reading), Seat(0)).expect("a point")
}

/// The value that a record must have.
pub fn written(value: Value) -> u64 {
    match value {
        Value::Written(bits) => bits,
        Value::Never => panic!("every record of the plan is written"),
    }
}

/// The calls of the job, however they are made: reads up to a point and locks of it, all or none; commits settle.
pub trait Calls {
    fn begin(&mut self) -> Answer<Handle>;
    fn read(&mut self, edit: Handle, record: u64, m: Point) -> Answer<Read>;
    fn lock(&mut self, edit: Handle, record: u64, at: Point) -> Answer<Locked>;
    fn write(&mut self, edit: Handle, record: u64, value: u64) -> Answer<()>;
    fn commit(&mut self, edit: Handle) -> Answer<Commit>;
    fn purge(&mut self, record: u64, b: Point) -> Answer<Purged>;
    fn view(&self, record: u64, p: Point) -> Answer<Shown>;
}

/// The calls on `$store`, by the functions of their names in `$from`.
macro_rules! calls {
    ($store:ty, $from:ident) => {
        impl Calls for $store {
            fn begin(&mut self) -> Answer<Handle> {
                $from::begin(self)
            }

            fn read(&mut self, edit: Handle, record: u64, m: Point) -> Answer<Read> {
                $from::read(self, edit, record, m, Extent::All)
            }

            fn lock(&mut self, edit: Handle, record: u64, at: Point) -> Answer<Locked> {
                $from::lock(self, edit, record, at, at, Extent::All)
            }

            fn write(&mut self, edit: Handle, record: u64, value: u64) -> Answer<()> {
                $from::write(self, edit, record, value)
            }

            fn commit(&mut self, edit: Handle) -> Answer<Commit> {
                $from::commit(self, edit, Pick::Latest, Finish::Settle)
            }

            fn purge(&mut self, record: u64, b: Point) -> Answer<Purged> {
                $from::purge(self, record, b)
            }

            fn view(&self, record: u64, p: Point) -> Answer<Shown> {
                $from::view(self, record, p)
            }
        }
    };
}

// The public calls on lent words, each with its check; and those of a session, which was opened by one.
calls!([u64], zohetiwa);
calls!(Session<'_>, Session);

/// The store by single calls.
pub struct ByCalls<'a, C: ?Sized> {
    calls: &'a mut C,
    /// The clock reading of the last edit.
    now: u64,
}

impl<C: Calls + ?Sized> ByCalls<'_, C> {
    /// On a plan in which the last edit was made at this reading.
    pub fn new(calls: &mut C, now: u64) -> ByCalls<'_, C> {
        ByCalls { calls, now }
    }

    fn read(&mut self, edit: Handle, record: u64) -> Answer<u64> {
        match self.calls.read(edit, record, at(self.now))? {
            Read::New { value, .. } => Ok(written(value)),
            other => panic!("an edit of the job reads a record once: {other:?}"),
        }
    }

    fn commit(&mut self, edit: Handle) -> Answer<()> {
        assert_eq!(self.calls.commit(edit)?, Commit::At(at(self.now)));
        Ok(())
    }

    fn edit(&mut self, edit: &Edit) -> Answer<()> {
        self.now += 1;
        let handle = self.calls.begin()?;
        let [from, to] = edit.records;
        let before = [self.read(handle, from)?, self.read(handle, to)?];
        for (record, value) in edit.records.into_iter().zip(edit.moved(before)) {
            self.calls.lock(handle, record, at(self.now))?;
            self.calls.write(handle, record, value)?;
        }
        self.commit(handle)?;
        for record in edit.records {
            self.calls.purge(record, at(self.now))?;
        }
        Ok(())
    }

    /// An edit that reads all records and commits.
    fn read_all(&mut self, values: &mut [u64]) -> Answer<()> {
        self.now += 1;
        let edit = self.calls.begin()?;
        for (record, value) in (0..).zip(values) {
            *value = self.read(edit, record)?;
        }
        self.commit(edit)
    }
}

impl<C: Calls + ?Sized> Store for ByCalls<'_, C> {
    fn edits(&mut self, edits: &[Edit]) {
        for edit in edits {
            self.edit(edit).expect("no refusal");
        }
    }

    fn chart(&mut self, values: &mut [u64]) {
        self.read_all(values).expect("no refusal");
    }

    /// Views at the last commit point.
    fn chart_at_once(&mut self, values: &mut [u64]) {
        for (record, value) in (0..).zip(values) {
            *value = written(self.calls.view(record, at(self.now)).expect("no refusal").value);
        }
    }
}
