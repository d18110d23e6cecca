//! A long list of calls on the largest store, the same for one seed: some 40 edits are open at any time, each with a
//! plan of its own; now and then one reads 1,000 records and commits; and records are purged and edits settled often
//! enough that no call is refused for want of room. Handles come from replies, so the list is made by running it on
//! the plain store, whose replies are kept with it.

mod edits;

use crate::plain::Plain;
use crate::rows::{self, Row, ABORT, BEGIN, LATEST, PURGE, READ, SETTLE, VIEW};
use crate::stores::LARGEST;
use edits::Plan;
use std::collections::VecDeque;

/// Edits open at any time.
const OPEN: usize = 40;

/// Ended edits that wait to be settled, at most.
const WAITING: usize = 15;

/// Records that the reading edit reads.
const READS: usize = 1000;

/// Calls from one reading edit to the next, and before the first.
const EVERY: usize = 10_000;
const FIRST: usize = 1_000;

/// Clock readings that purges stay back.
pub const HORIZON: u64 = 2_000;

const RECORDS: u64 = LARGEST.records as u64;

/// A list of calls with the replies of the plain store.
pub struct List {
    pub calls: Vec<u64>,
    pub replies: Vec<u64>,
    /// The most rows in use: versions, locks, accesses.
    pub most: [usize; 3],
    /// Edits that have read 1,000 records and committed.
    pub readings: usize,
    /// A point later than all in the list.
    pub late: u64,
}

impl List {
    pub fn len(&self) -> usize {
        self.calls.len() / rows::ROW
    }
}

/// Numbers that look random (splitmix64).
pub struct Random(pub u64);

impl Random {
    /// A number below n.
    pub fn below(&mut self, n: u64) -> u64 {
        self.0 = self.0.wrapping_add(0x9e37_79b9_7f4a_7c15);
        let mixed = (self.0 ^ (self.0 >> 30)).wrapping_mul(0xbf58_476d_1ce4_e5b9);
        let mixed = (mixed ^ (mixed >> 27)).wrapping_mul(0x94d0_49bb_1331_11eb);
        (mixed ^ (mixed >> 31)) % n
    }

    fn percent(&mut self, n: u64) -> bool {
        self.below(100) < n
    }
}

/// The edit that reads 1,000 records up to m.
struct Reading {
    edit: u64,
    m: u64,
    next: u64,
    granted: usize,
}

struct Maker {
    plain: Plain<true>,
    list: List,
    random: Random,
    open: Vec<Plan>,
    /// Ended edits that are not settled, with their low ends.
    ended: VecDeque<(u64, u64)>,
    reading: Option<Reading>,
    next_reading: usize,
    /// The records that are written and purged next.
    to_write: u64,
    to_purge: u64,
}

/// A list of at least `count` calls; with `closed`, all edits are ended and settled after these.
pub fn make(seed: u64, count: usize, closed: bool) -> List {
    let mut maker = Maker {
        plain: Plain::new(LARGEST),
        list: List { calls: vec![], replies: vec![], most: [0; 3], readings: 0, late: 0 },
        random: Random(seed),
        open: vec![],
        ended: VecDeque::new(),
        reading: None,
        next_reading: FIRST,
        to_write: 0,
        to_purge: 0,
    };
    while maker.list.len() < count {
        maker.turn();
    }
    if closed {
        maker.close();
    }
    maker.list.late = maker.now(0) + HORIZON * 64;
    maker.list
}

impl Maker {
    /// The point of now at a seat. One call takes one clock reading; the first is late enough to look back from.
    fn now(&self, seat: u64) -> u64 {
        (2 * HORIZON + self.list.len() as u64) * 64 + seat
    }

    fn call(&mut self, call: Row) -> Row {
        let reply = rows::answer(&mut self.plain, call);
        assert!(!rows::no_room(reply), "no room: {call:?} replied {reply:?}");
        self.list.calls.extend(call);
        self.list.replies.extend(reply);
        for (most, used) in self.list.most.iter_mut().zip(self.plain.used()) {
            *most = used.max(*most);
        }
        reply
    }

    fn turn(&mut self) {
        if self.open.len() < OPEN {
            return self.begin();
        }
        if self.ended.len() > WAITING {
            return self.settle();
        }
        if self.reading.is_none() && self.list.len() >= self.next_reading {
            return self.begin_reading();
        }
        match self.random.below(100) {
            0..8 => self.view(),
            8..20 => self.purge(),
            20..22 => self.settle(),
            22..65 if self.reading.is_some() => self.read_on(),
            _ => self.step(),
        }
    }

    /// Any record, and half of the time one of the first 16, where edits get into each other's way.
    fn some_record(&mut self) -> u64 {
        let among = if self.random.percent(50) { 16 } else { RECORDS };
        self.random.below(among)
    }

    fn settle(&mut self) {
        if let Some((edit, _)) = self.ended.pop_front() {
            self.call([SETTLE, edit, 0, 0, 0, 0]);
        }
    }

    fn purge(&mut self) {
        // Sometimes too far: an edit holds a lock below.
        let back = if self.random.percent(5) { 0 } else { HORIZON };
        let b = self.now(0) - back * 64;
        let b = self.reading.as_ref().map_or(b, |reading| b.min(reading.m));
        self.call([PURGE, self.to_purge, b, 0, 0, 0]);
        self.to_purge = (self.to_purge + 1) % RECORDS;
    }

    fn view(&mut self) {
        // Sometimes below the floor.
        let back = self.random.below(HORIZON * 5 / 4) * 64;
        let (record, point) = (self.some_record(), self.now(63) - back);
        self.call([VIEW, record, point, 0, 0, 0]);
    }

    fn begin_reading(&mut self) {
        // Just below all points that an unsettled edit may have write-locked.
        let lows = self.open.iter().map(Plan::low).chain(self.ended.iter().map(|ended| ended.1));
        let m = lows.min().expect("an open edit") - 1;
        let edit = self.call([BEGIN, 0, 0, 0, 0, 0])[1];
        self.reading = Some(Reading { edit, m, next: 0, granted: 0 });
        self.next_reading += EVERY;
    }

    /// The next record of the reading edit. It commits after 1,000; a list in which there are fewer is no good.
    fn read_on(&mut self) {
        let Some(Reading { edit, m, next, granted }) = self.reading.take() else { return };
        if granted == READS {
            let reply = self.call([LATEST, edit, 0, 0, 0, 0]);
            assert_eq!(reply[0], 0, "the reading edit has to commit");
            self.list.readings += 1;
            return;
        }
        assert!(next < RECORDS, "the reading edit has read only {granted} records");
        let reply = self.call([READ, edit, next, m, 1, 0]);
        let granted = granted + usize::from(reply[0] == 0);
        self.reading = Some(Reading { edit, m, next: next + 1, granted });
    }

    fn close(&mut self) {
        let open = self.open.drain(..).map(|plan| plan.edit()).chain(self.reading.take().map(|r| r.edit));
        for edit in open.collect::<Vec<u64>>() {
            self.call([ABORT, edit, 0, 0, 0, 0]);
        }
        while !self.ended.is_empty() {
            self.settle();
        }
    }
}
