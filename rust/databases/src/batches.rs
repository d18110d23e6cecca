//! This store by batches: many calls after one check of the words. Only one edit is open at a time, so each takes slot
//! 1 and its next generation, and a batch can name the handle that its own Begin will give.

use crate::job::{Edit, RECORDS};
use crate::library::{at, written};
use crate::timing::Store;
use zohetiwa::*;

/// The largest store. The plan is its first 1,000 records.
const COUNTS: Counts = Counts { records: 1024, edits: 63, versions: 4095, locks: 4095, accesses: 4095 };

/// The words of a store in which one edit, at reading 1, has written the first values; all records are purged to them.
pub fn plan(start: &[u64]) -> Vec<u64> {
    let mut words = vec![0; COUNTS.length()];
    format(&mut words, COUNTS).expect("a store");
    let mut batches = Batches::new(&mut words, 0);
    let (edit, now) = batches.next();
    let mut calls = vec![Call::Begin];
    for (record, value) in (0..).zip(start) {
        calls.extend([Call::Lock(edit, record, now, now, Extent::All), Call::Write(edit, record, *value)]);
    }
    calls.push(Call::Commit(edit, Pick::Latest, Finish::Settle));
    calls.extend((0..RECORDS as u64).map(|record| Call::Purge(record, now)));
    batches.done(&calls);
    words
}

/// Two batches for each edit: what it writes it knows only when it has read. A batch, or a list of views, for a chart.
pub struct Batches<'a> {
    words: &'a mut [u64],
    /// How many edits were begun: the clock reading of the last one, and its generation.
    begun: u64,
    calls: Vec<u64>,
    replies: Vec<u64>,
}

impl Batches<'_> {
    /// On the words of a store in which so many edits were made.
    pub fn new(words: &mut [u64], begun: u64) -> Batches<'_> {
        Batches { words, begun, calls: vec![], replies: vec![] }
    }

    /// The handle and the point of the next edit.
    fn next(&mut self) -> (Handle, Point) {
        self.begun += 1;
        (Handle::of_word(self.begun * 64 + 1), at(self.begun))
    }

    /// Does the calls after one check, none of which may be refused; the value of each Read, in turn.
    fn done(&mut self, calls: &[Call]) -> Vec<u64> {
        self.calls.clear();
        for call in calls {
            self.calls.extend(call.words());
        }
        self.replies.resize(calls.len() * REPLY_WORDS, 0);
        assert_eq!(batch(self.words, &self.calls, &mut self.replies), calls.len() as u64);
        let mut values = Vec::with_capacity(calls.len());
        for (call, row) in calls.iter().zip(self.replies.chunks_exact(REPLY_WORDS)) {
            match call.reply(row.try_into().expect("six words")).expect("no refusal") {
                Reply::Read(Read::New { value, .. }) => values.push(written(value)),
                Reply::Read(other) => panic!("an edit of the job reads a record once: {other:?}"),
                Reply::Commit(Commit::NoPoint) => panic!("every edit of the job commits"),
                _ => {}
            }
        }
        values
    }

    fn edit(&mut self, edit: &Edit) {
        let (handle, now) = self.next();
        let before = self.done(&reads(handle, now, edit));
        let before = before.try_into().expect("two values");
        self.done(&writes(handle, now, edit, edit.moved(before)));
    }
}

fn reads(handle: Handle, now: Point, edit: &Edit) -> [Call; 3] {
    let read = |record| Call::Read(handle, record, now, Extent::All);
    let [from, to] = edit.records;
    [Call::Begin, read(from), read(to)]
}

fn writes(handle: Handle, now: Point, edit: &Edit, values: [u64; 2]) -> [Call; 7] {
    let lock = |record| Call::Lock(handle, record, now, now, Extent::All);
    let ([from, to], [less, more]) = (edit.records, values);
    [
        lock(from),
        Call::Write(handle, from, less),
        lock(to),
        Call::Write(handle, to, more),
        Call::Commit(handle, Pick::Latest, Finish::Settle),
        Call::Purge(from, now),
        Call::Purge(to, now),
    ]
}

impl Store for Batches<'_> {
    fn edits(&mut self, edits: &[Edit]) {
        for edit in edits {
            self.edit(edit);
        }
    }

    /// An edit that reads all records and commits.
    fn chart(&mut self, values: &mut [u64]) {
        let (handle, now) = self.next();
        let mut calls = Vec::with_capacity(RECORDS + 2);
        calls.push(Call::Begin);
        calls.extend((0..RECORDS as u64).map(|record| Call::Read(handle, record, now, Extent::All)));
        calls.push(Call::Commit(handle, Pick::Latest, Finish::Settle));
        values.copy_from_slice(&self.done(&calls));
    }

    /// Views at the last commit point.
    fn chart_at_once(&mut self, values: &mut [u64]) {
        let now = at(self.begun).word();
        self.calls.clear();
        for record in 0..RECORDS as u64 {
            self.calls.extend([record, now]);
        }
        self.replies.resize(RECORDS * SHOWN_WORDS, 0);
        assert_eq!(views(self.words, &self.calls, &mut self.replies), RECORDS as u64);
        for (value, reply) in values.iter_mut().zip(self.replies.chunks_exact(SHOWN_WORDS)) {
            assert_eq!((reply[0], reply[2]), (0, 1), "no refusal, and a value");
            *value = reply[3];
        }
    }
}

/// One batch for all edits between two charts. What they write has to be known before they have read: the values read
/// are compared with those that this was made of.
pub struct Known<'a>(pub Batches<'a>);

impl Store for Known<'_> {
    fn edits(&mut self, edits: &[Edit]) {
        let mut calls = Vec::with_capacity(edits.len() * 10);
        for edit in edits {
            let (handle, now) = self.0.next();
            calls.extend(reads(handle, now, edit));
            calls.extend(writes(handle, now, edit, edit.written));
        }
        let values = self.0.done(&calls);
        for (edit, before) in edits.iter().zip(values.chunks_exact(2)) {
            assert_eq!(edit.moved(before.try_into().expect("two values")), edit.written);
        }
    }

    fn chart(&mut self, values: &mut [u64]) {
        self.0.chart(values);
    }

    fn chart_at_once(&mut self, values: &mut [u64]) {
        self.0.chart_at_once(values);
    }
}
