//! Calls of one kind through the batch, in a session and through the plain vectors: long lists of that kind, from the
//! largest store after a long mixed list and with all its edits settled. What comes before them, such as the Begins of
//! their edits, is not counted: it is done in the same session before the clock starts, and in another batch before.

mod cases;

use crate::library::{batch, open};
use crate::list::List;
use crate::plain::Plain;
use crate::rows::{self, VIEW};
use crate::stores::{self, LARGEST};
use crate::timing::{least, once};
use crate::Size;
use cases::Case;
use zohetiwa::Counts;

/// Begin is timed on a store of 63 slots and one row of each kind: on a larger one the check would hide 63 Begins.
const SLOTS: Counts = Counts { records: 1, edits: 63, versions: 1, locks: 1, accesses: 1 };

/// The same store as both kinds of vectors and as words.
pub struct Base {
    counts: Counts,
    pub plain: Plain<true>,
    pub bare: Plain<false>,
    pub words: Vec<u64>,
    /// A point later than all in it.
    pub late: u64,
}

impl Base {
    fn fresh(counts: Counts) -> Base {
        let (plain, bare) = (Plain::new(counts), Plain::new(counts));
        Base { counts, plain, bare, words: stores::fresh(counts), late: 1 }
    }

    /// The largest store after the list.
    pub fn after(list: &List) -> Base {
        let mut base = Base::fresh(LARGEST);
        base.run(&list.calls);
        base.late = list.late;
        base
    }

    /// Runs the calls in all three ways; the replies have to be the same.
    fn run(&mut self, calls: &[u64]) {
        let [mut ours, mut theirs, mut bare] = std::array::from_fn(|_| vec![0; calls.len()]);
        batch(&mut self.words, calls, &mut ours);
        rows::run(&mut self.plain, calls, &mut theirs);
        rows::run(&mut self.bare, calls, &mut bare);
        assert!(ours == theirs && ours == bare, "the batch and the vectors reply differently");
    }

    pub fn copy(&self) -> Base {
        let mut copy = Base { late: self.late, ..Base::fresh(self.counts) };
        copy.become_like(self);
        copy
    }

    /// Becomes the other, in the memory that it has.
    pub fn become_like(&mut self, other: &Base) {
        self.plain.become_like(&other.plain);
        self.bare.become_like(&other.bare);
        self.words.copy_from_slice(&other.words);
    }
}

/// Nanoseconds per call.
struct Times {
    session: f64,
    plain: f64,
    bare: f64,
    /// Of a batch after the one with the calls before: its index says nothing of their edits.
    batch: f64,
}

fn times(runs: usize, base: &Base, case: &Case) -> Times {
    let mut ready = base.copy();
    ready.run(&case.before);
    let mut now = ready.copy();
    // Views of a record that there is not, so many that a batch makes an index, as short ones do not.
    let idle = [VIEW, LARGEST.records as u64, 0, 0, 0, 0].repeat(16);
    let (list, start) = ([&idle, &case.calls[..]].concat(), idle.len());
    let mut replies = vec![0; list.len()];
    let [session, plain, batched, bare, idle] = least(runs, |way| {
        now.become_like(if way == 0 { base } else { &ready });
        let Base { plain, bare, words, .. } = &mut now;
        let time = match way {
            0 => {
                let mut session = open(words);
                rows::run(&mut session, &case.before, &mut vec![0; case.before.len()]);
                once(|| rows::run(&mut session, &list[start..], &mut replies[start..]))
            }
            1 => once(|| rows::run(plain, &list[start..], &mut replies[start..])),
            2 => once(|| batch(words, &list, &mut replies)),
            3 => once(|| rows::run(bare, &list[start..], &mut replies[start..])),
            _ => return once(|| batch(words, &list[..start], &mut replies[..start])),
        };
        assert!(replies[start..] == case.replies, "{}: way {way} and the vectors reply differently", case.name);
        time
    });
    let each = |time: f64| time / case.count() as f64;
    Times { session: each(session), plain: each(plain), bare: each(bare), batch: each(batched - idle) }
}

pub fn table(size: Size, base: &Base) {
    println!("Calls of one kind, by edits that the same session has begun; in the last column many in one batch, its");
    println!("check taken off, by edits that an earlier batch has begun, so that the index says nothing of them. All");
    println!("stores gave the same replies. Least of {} runs, ns per call.\n", size.kinds);
    println!("| Call | how many | session | vectors | without indexes | session / vectors | batch, begun before |");
    println!("|---|---|---|---|---|---|---|");
    let line = |base: &Base, case: &Case| {
        let Times { session, plain, bare, batch } = times(size.kinds, base, case);
        let (name, count, ratio) = (case.name, case.count(), session / plain);
        println!("| {name} | {count} | {session:.0} | {plain:.0} | {bare:.0} | {ratio:.1} | {batch:.0} |");
    };
    let slots = Base::fresh(SLOTS);
    for case in slots.begins() {
        line(&slots, &case);
    }
    for case in base.cases() {
        line(base, &case);
    }
}
