//! The proved store as a store of rows: each call by its public function, and so with its own check; in a session; or
//! many after one check.

use crate::rows::{run, Store, ROW};
use zohetiwa::*;

/// The calls on `$store`, by the functions of their names in `$from`.
macro_rules! store {
    ($store:ty, $from:ident) => {
        impl Store for $store {
            fn begin(&mut self) -> Answer<Handle> {
                $from::begin(self)
            }

            fn write(&mut self, handle: Handle, record: u64, value: u64) -> Answer<()> {
                $from::write(self, handle, record, value)
            }

            fn lock(&mut self, handle: Handle, record: u64, low: Point, high: Point, extent: Extent) -> Answer<Locked> {
                $from::lock(self, handle, record, low, high, extent)
            }

            fn read(&mut self, handle: Handle, record: u64, m: Point, extent: Extent) -> Answer<Read> {
                $from::read(self, handle, record, m, extent)
            }

            fn commit(&mut self, handle: Handle, pick: Pick, finish: Finish) -> Answer<Commit> {
                $from::commit(self, handle, pick, finish)
            }

            fn abort(&mut self, handle: Handle, finish: Finish) -> Answer<()> {
                $from::abort(self, handle, finish)
            }

            fn settle(&mut self, handle: Handle) -> Answer<()> {
                $from::settle(self, handle)
            }

            fn purge(&mut self, record: u64, b: Point) -> Answer<Purged> {
                $from::purge(self, record, b)
            }

            fn view(&self, record: u64, p: Point) -> Answer<Shown> {
                $from::view(self, record, p)
            }
        }
    };
}

store!([u64], zohetiwa);
store!(Session<'_>, Session);

/// Many calls after one check.
pub fn batch(words: &mut [u64], calls: &[u64], replies: &mut [u64]) {
    let done = zohetiwa::batch(words, calls, replies);
    assert_eq!(done as usize, calls.len() / ROW);
}

/// A session on a sound store.
pub fn open(words: &mut [u64]) -> Session<'_> {
    Session::open(words).expect("a sound store")
}

/// Calls in a session that is opened for them.
pub fn session(words: &mut [u64], calls: &[u64], replies: &mut [u64]) {
    run(&mut open(words), calls, replies);
}

/// Many views after one check.
pub fn views(words: &[u64], asks: &[u64], replies: &mut [u64]) {
    let done = zohetiwa::views(words, asks, replies);
    assert_eq!(done as usize, asks.len() / ASK_WORDS);
}
