//! Sessions and charts: random lists of calls, of several edits and with every kind of misuse, by the public functions
//! on one store and in a session on another, with the same answers and, after each call, words that mean the same.
//! Where rows lie may differ, as a Settle with an index takes the records in another order; without an index all words
//! are the same. Then what a session and a chart refuse, and what of edits stays over the end of a session.

mod common;

use common::{alone, meaning, Numbers};
use std::collections::{BTreeMap, BTreeSet, VecDeque};
use zohetiwa::*;

fn p(word: u64) -> Point {
    Point::of_word(word)
}

fn fresh(counts: Counts) -> Vec<u64> {
    let mut words = vec![u64::MAX; counts.length()];
    format(&mut words, counts).expect("a store");
    words
}

fn inside(session: &mut Session, call: Call) -> Answer<Reply> {
    Ok(match call {
        Call::Begin => Reply::Edit(session.begin()?),
        Call::Write(h, record, value) => {
            session.write(h, record, value)?;
            Reply::Done
        }
        Call::Lock(h, record, low, high, extent) => Reply::Locked(session.lock(h, record, low, high, extent)?),
        Call::Read(h, record, m, extent) => Reply::Read(session.read(h, record, m, extent)?),
        Call::Commit(h, pick, finish) => Reply::Commit(session.commit(h, pick, finish)?),
        Call::Abort(h, finish) => {
            session.abort(h, finish)?;
            Reply::Done
        }
        Call::Settle(h) => {
            session.settle(h)?;
            Reply::Done
        }
        Call::Purge(record, b) => Reply::Purged(session.purge(record, b)?),
        Call::View(record, at) => Reply::Shown(session.view(record, at)?),
    })
}

/// More records than an index lists for an edit.
const MANY: usize = 63;

/// Random calls that follow their own replies. Now and then come runs of calls, among which others are mixed: one edit
/// touches many records, edits take all slots, all edits end, many records are purged.
struct Plan {
    numbers: Numbers,
    counts: Counts,
    open: Vec<Handle>,
    kept: Vec<Handle>,
    stale: Vec<Handle>,
    next: VecDeque<Call>,
    /// How often, in a hundred, the next call of a run comes before any other.
    strict: u64,
    /// Points are mostly base + 0..width, records first + 0..wide.
    base: u64,
    width: u64,
    first: u64,
    wide: u64,
    /// The records that the edit of each slot has touched, since its Begin.
    touched: BTreeMap<u64, BTreeSet<u64>>,
    /// Slots whose last edit had touched more than `MANY` records when it was settled.
    overflown: BTreeSet<u64>,
    seen: BTreeMap<String, u64>,
}

impl Plan {
    fn new(seed: u64, counts: Counts) -> Plan {
        Plan {
            numbers: Numbers(seed),
            counts,
            open: vec![],
            kept: vec![],
            stale: vec![],
            next: VecDeque::new(),
            strict: 80,
            base: 1,
            width: 8,
            first: 0,
            wide: 3,
            touched: BTreeMap::new(),
            overflown: BTreeSet::new(),
            seen: BTreeMap::new(),
        }
    }

    fn percent(&mut self, share: u64) -> bool {
        self.numbers.below(100) < share
    }

    fn handle(&mut self) -> Handle {
        let edits = self.counts.edits as u64;
        let list = match self.numbers.below(100) {
            0..=2 => &self.kept,
            3..=5 => &self.stale,
            6 => {
                let slot = self.numbers.pick(&[0, 1, edits, edits + 1, 63]);
                let generation = self.numbers.pick(&[0, 1, 2, 65_535, 65_536, 1 << 57]);
                return Handle::of_word(self.numbers.pick(&[generation * 64 + slot, u64::MAX]));
            }
            _ => &self.open,
        };
        if list.is_empty() {
            return Handle::of_word(65);
        }
        self.numbers.pick(list)
    }

    fn record(&mut self) -> u64 {
        let records = self.counts.records as u64;
        if self.percent(2) {
            return self.numbers.pick(&[records, records + 1, 1_024, 65_535, 65_536, 1 << 32, u64::MAX]);
        }
        (self.first + self.numbers.below(self.wide)) % records
    }

    fn point(&mut self) -> Point {
        p(match self.numbers.below(100) {
            0..=1 => self.numbers.pick(&[0, LAST.word(), LAST.word() + 1, u64::MAX]),
            2..=4 => 1 + self.numbers.below(self.base),
            _ => self.base + self.numbers.below(self.width),
        })
    }

    fn extent(&mut self) -> Extent {
        self.numbers.pick(&[Extent::All, Extent::Part, Extent::Part])
    }

    fn finish(&mut self) -> Finish {
        self.numbers.pick(&[Finish::Settle, Finish::Settle, Finish::Keep])
    }

    fn end(&mut self, h: Handle) -> Call {
        let (at, finish) = (self.point(), self.finish());
        match self.numbers.below(7) {
            0..=1 => Call::Commit(h, Pick::Earliest, finish),
            2..=3 => Call::Commit(h, Pick::Latest, finish),
            4..=5 => Call::Commit(h, Pick::Named(at), finish),
            _ => Call::Abort(h, finish),
        }
    }

    fn single(&mut self) -> Call {
        if self.open.is_empty() && self.percent(70) {
            let full = self.kept.len() == self.counts.edits;
            return if full { Call::Settle(self.numbers.pick(&self.kept)) } else { Call::Begin };
        }
        let (h, record, at) = (self.handle(), self.record(), self.point());
        match self.numbers.below(40) {
            0..=3 => Call::Begin,
            4..=8 => Call::Write(h, record, self.numbers.below(1 << 31)),
            9..=16 => {
                let high = at.word().saturating_add(self.numbers.below(self.width));
                Call::Lock(h, record, at, p(if self.percent(3) { 0 } else { high }), self.extent())
            }
            17..=25 => Call::Read(h, record, at, self.extent()),
            26..=30 => self.end(h),
            31..=33 => {
                let any = self.percent(10) || self.kept.is_empty();
                Call::Settle(if any { h } else { self.numbers.pick(&self.kept) })
            }
            34..=36 => Call::Purge(record, at),
            _ => Call::View(record, at),
        }
    }

    /// Plans a run of calls.
    fn run(&mut self) {
        let h = if self.open.is_empty() { self.handle() } else { self.numbers.pick(&self.open) };
        let at = self.base + self.numbers.below(self.width);
        let records = self.counts.records as u64;
        let many = self.numbers.pick(&[3, 20, 63, 64, 65, 100, 300, records]).min(records);
        let from = self.numbers.below(records);
        let every = (from..from + many).map(|record| record % records);
        let (open, kept) = (self.open.clone(), self.kept.clone());
        match self.numbers.below(8) {
            0..=1 => self.next.extend(every.map(|r| Call::Read(h, r, p(at), Extent::Part))),
            2 => self.next.extend(every.map(|r| Call::Lock(h, r, p(at), p(at + 5), Extent::Part))),
            3 => self.next.extend(every.map(|r| Call::Write(h, r, at))),
            4 => {
                let both = |r| [Call::Lock(h, r, p(at), p(at), Extent::All), Call::Write(h, r, r)];
                self.next.extend(every.flat_map(both));
                self.next.push_back(Call::Commit(h, Pick::Latest, Finish::Settle));
            }
            5 => self.next.extend(every.map(|r| Call::Purge(r, p(at)))),
            6 => self.next.extend((0..=self.counts.edits).map(|_| Call::Begin)),
            _ => {
                let ends: Vec<Call> = open.into_iter().map(|h| self.end(h)).collect();
                self.next.extend(ends);
                self.next.extend(kept.into_iter().map(Call::Settle));
                self.base += self.numbers.below(10);
            }
        }
    }

    fn call(&mut self) -> Call {
        if self.percent(3) {
            self.base += self.numbers.below(3);
            self.width = self.numbers.pick(&[2, 5, 12, 40]);
            self.wide = self.numbers.pick(&[1, 2, 4, 30, 1_024]);
            self.first = self.numbers.below(self.counts.records as u64);
        }
        if self.next.is_empty() {
            self.strict = 80;
            if self.percent(2) {
                self.run();
            }
        }
        match self.next.pop_front() {
            Some(call) if self.percent(self.strict) => call,
            Some(call) => {
                self.next.push_front(call);
                self.single()
            }
            None => self.single(),
        }
    }

    fn count(&mut self, what: &str) {
        *self.seen.entry(what.to_string()).or_default() += 1;
    }

    fn touch(&mut self, h: Handle, record: u64) {
        self.touched.entry(h.word() % 64).or_default().insert(record);
    }

    /// The edit has ended, and is settled or kept.
    fn ended(&mut self, h: Handle, finish: Finish) {
        self.open.retain(|&other| other != h);
        match finish {
            Finish::Keep => self.kept.push(h),
            Finish::Settle => self.settled(h),
        }
    }

    fn settled(&mut self, h: Handle) {
        let slot = h.word() % 64;
        self.kept.retain(|&other| other != h);
        self.stale.push(h);
        if self.touched.get(&slot).is_some_and(|records| records.len() > MANY) {
            self.count("settled with many records");
            self.overflown.insert(slot);
        }
    }

    /// Hears what a call was answered.
    fn told(&mut self, call: Call, answer: Answer<Reply>) {
        let reply = match answer {
            Ok(reply) => reply,
            Err(refusal) => return self.count(&format!("no {}", refusal.number())),
        };
        match (call, reply) {
            (Call::Begin, Reply::Edit(h)) => {
                let slot = h.word() % 64;
                self.open.push(h);
                self.touched.remove(&slot);
                if self.overflown.remove(&slot) {
                    self.count("used again after many records");
                }
                self.count("begin");
            }
            (Call::Write(h, record, _), _) => {
                self.touch(h, record);
                self.count("write");
            }
            (Call::Lock(h, record, ..), _) => {
                self.touch(h, record);
                self.count("lock");
            }
            (Call::Read(h, record, ..), Reply::Read(Read::New { .. })) => {
                self.touch(h, record);
                self.count("read");
            }
            (_, Reply::Read(Read::Own(_))) => self.count("own"),
            (_, Reply::Read(Read::Again { .. })) => self.count("again"),
            (Call::Commit(h, _, finish), reply) => {
                self.ended(h, finish);
                self.count(if reply == Reply::Commit(Commit::NoPoint) { "nopoint" } else { "commit" });
            }
            (Call::Abort(h, finish), _) => {
                self.ended(h, finish);
                self.count("abort");
            }
            (Call::Settle(h), _) => {
                self.settled(h);
                self.count("settle");
            }
            (_, Reply::Purged(Purged { versions: 0, locks: 0 })) => self.count("nothing purged"),
            (_, Reply::Purged(_)) => self.count("purge"),
            (_, Reply::Shown(_)) => self.count("view"),
            other => panic!("{other:?}"),
        }
    }

    fn call_both(&mut self, what: &str, mut both: impl FnMut(Call) -> (Answer<Reply>, Answer<Reply>)) {
        let call = self.call();
        let (expected, answer) = both(call);
        assert_eq!(answer, expected, "{call:?} {what}");
        self.told(call, answer);
    }
}

/// Sessions one after the other on one store, with so many calls each; between them some public calls. The first finds
/// a fresh store, the others edits in use. `lengths` are those of their indexes in turn. The words are compared after
/// each call, or after every tenth in a large store.
fn side_by_side(mut plan: Plan, sessions: usize, calls: usize, lengths: &[usize]) -> BTreeMap<String, u64> {
    let counts = plan.counts;
    let every = if counts.length() > 20_000 { 10 } else { 1 };
    let exact = !lengths.contains(&INDEX);
    let same = |one: &[u64], other: &[u64]| if exact { one == other } else { meaning(one) == meaning(other) };
    let (mut one, mut other) = (fresh(counts), fresh(counts));
    for round in 0..sessions {
        let length = lengths[round % lengths.len()];
        let junk = plan.numbers.pick(&[0, 1, 63, u16::MAX]);
        let mut session = Session::open_with(&mut other, vec![junk; length]).expect("a sound store");
        if plan.open.len() + plan.kept.len() > 0 {
            plan.count("opened with edits in use");
        }
        for i in 0..calls {
            plan.call_both("in a session", |call| (alone(&mut one, call), inside(&mut session, call)));
            if i % every == 0 {
                assert!(same(session.words(), &one), "the words after a call differ");
            }
        }
        for record in 0..counts.records as u64 {
            let at = plan.point();
            assert_eq!(session.chart().view(record, at), view(&one, record, at));
        }
        for _ in 0..plan.numbers.below(20) {
            plan.call_both("alone", |call| (alone(&mut one, call), alone(&mut other, call)));
        }
        assert!(same(&other, &one));
        let chart = Chart::open(&other).expect("a sound store");
        let (record, at) = (plan.record(), plan.point());
        assert_eq!(chart.view(record, at), view(&one, record, at));
    }
    plan.seen
}

/// Each of these came so often.
fn came(seen: &BTreeMap<String, u64>, least: u64, wanted: &[&str]) {
    for what in wanted {
        let times = seen.get(*what).copied().unwrap_or(0);
        assert!(times >= least, "{what} came only {times} times: {seen:?}");
    }
}

const ALL: [&str; 13] = [
    "begin",
    "write",
    "lock",
    "read",
    "own",
    "again",
    "commit",
    "nopoint",
    "abort",
    "settle",
    "purge",
    "nothing purged",
    "view",
];
const REFUSED: [&str; 14] = [
    "no 2", "no 3", "no 4", "no 5", "no 6", "no 7", "no 8", "no 9", "no 10", "no 11", "no 12", "no 13", "no 14",
    "no 15",
];
const LENGTHS: [usize; 5] = [INDEX, 0, INDEX, INDEX - 1, INDEX + 1];

#[test]
fn small_stores() {
    let mut seen = BTreeMap::new();
    for counts in [
        Counts { records: 1, edits: 1, versions: 1, locks: 1, accesses: 1 },
        Counts { records: 1, edits: 3, versions: 9, locks: 30, accesses: 2 },
        Counts { records: 2, edits: 2, versions: 4, locks: 8, accesses: 8 },
        Counts { records: 4, edits: 5, versions: 6, locks: 200, accesses: 9 },
        Counts { records: 9, edits: 63, versions: 40, locks: 300, accesses: 50 },
        Counts { records: 63, edits: 4, versions: 200, locks: 600, accesses: 200 },
    ] {
        for seed in 1..=20 {
            for (what, times) in side_by_side(Plan::new(seed, counts), 5, 200, &LENGTHS) {
                *seen.entry(what).or_default() += times;
            }
        }
    }
    came(&seen, 100, &ALL);
    came(&seen, 100, &REFUSED);
    came(&seen, 50, &["opened with edits in use"]);
}

#[test]
fn stores_with_more_records_than_an_index_lists() {
    for (seed, records) in [(11, 64), (12, 65), (13, 130)] {
        let counts = Counts { records, edits: 6, versions: 500, locks: 1_500, accesses: 600 };
        let seen = side_by_side(Plan::new(seed, counts), 20, 1_000, &LENGTHS);
        came(&seen, 5, &ALL);
        came(&seen, 5, &["settled with many records", "used again after many records", "opened with edits in use"]);
    }
}

#[test]
fn without_an_index_all_words_are_the_same() {
    for (seed, records, edits) in [(31, 4, 5), (32, 130, 6)] {
        let counts = Counts { records, edits, versions: 300, locks: 900, accesses: 300 };
        let seen = side_by_side(Plan::new(seed, counts), 20, 500, &[0, 7, INDEX - 1, INDEX + 1]);
        came(&seen, 5, &ALL);
    }
}

/// Four edits write every record of the largest store, each at its point, with the last row of each table; a fifth has
/// none for its version. Then as above.
#[test]
fn the_largest_store() {
    let counts = Counts { records: 1_024, edits: 63, versions: 4_095, locks: 4_095, accesses: 4_095 };
    let mut plan = Plan::new(21, counts);
    let edits: Vec<(Handle, Point)> = (1..=4).map(|slot| (Handle::of_word(64 + slot), p(10 * slot))).collect();
    plan.next.extend(edits.iter().map(|_| Call::Begin));
    for &(h, at) in &edits {
        plan.next.extend((0..1_024).flat_map(|r| [Call::Lock(h, r, at, at, Extent::All), Call::Write(h, r, r)]));
    }
    plan.next.extend(edits.iter().map(|&(h, _)| Call::Commit(h, Pick::Latest, Finish::Settle)));
    let fifth = Handle::of_word(129);
    let lock = Call::Lock(fifth, 0, p(50), p(50), Extent::All);
    plan.next.extend([Call::Begin, lock, Call::Purge(0, p(10)), lock, Call::Write(fifth, 0, 5)]);
    plan.next.push_back(Call::Commit(fifth, Pick::Latest, Finish::Settle));
    plan.strict = 100;
    let seen = side_by_side(plan, 8, 3_000, &[INDEX, INDEX, INDEX, 0]);
    came(&seen, 5, &ALL);
    came(&seen, 5, &["settled with many records", "used again after many records", "opened with edits in use"]);
    came(&seen, 1, &["no 10", "no 11", "no 12", "no 13"]);
}

const COUNTS: Counts = Counts { records: 2, edits: 2, versions: 4, locks: 8, accesses: 8 };

#[test]
fn words_that_are_not_sound_are_refused() {
    let mut words = fresh(COUNTS);
    words[0] = 5000;
    let before = words.clone();
    assert_eq!(Session::open(&mut words).err(), Some(Refusal::Unsound));
    assert_eq!(Chart::open(&words).err(), Some(Refusal::Unsound));
    for length in LENGTHS {
        let index: Vec<u16> = (0..length).map(|i| i as u16).collect();
        let refused = Session::open_with(&mut words, index.clone()).err();
        assert_eq!(refused, Some((Refusal::Unsound, index)));
    }
    assert_eq!(words, before);
    assert_eq!(Session::open(&mut []).err(), Some(Refusal::Unsound));
    assert_eq!(Chart::open(&[]).err(), Some(Refusal::Unsound));
}

#[test]
fn opening_changes_no_word() {
    let mut words = fresh(COUNTS);
    begin(&mut words).unwrap();
    let before = words.clone();
    assert_eq!(Session::open(&mut words).unwrap().words(), before);
    assert_eq!(words, before);
}

#[test]
fn edits_stay_open_over_sessions() {
    let mut words = fresh(COUNTS);
    let early = begin(&mut words).unwrap();
    lock(&mut words, early, 0, p(3), p(5), Extent::All).unwrap();
    let mut session = Session::open(&mut words).unwrap();
    let late = session.begin().unwrap();
    assert_eq!(session.lock(late, 0, p(4), p(4), Extent::All), Err(Refusal::Held(early)));
    session.write(early, 0, 50).unwrap();
    session.lock(late, 1, p(4), p(4), Extent::All).unwrap();
    session.write(late, 1, 60).unwrap();
    assert_eq!(session.commit(early, Pick::Latest, Finish::Keep), Ok(Commit::At(p(5))));
    assert_eq!(commit(&mut words, late, Pick::Latest, Finish::Settle), Ok(Commit::At(p(4))));
    let mut desk = Desk::open(&mut words, p(5), 3, Setting::Earliest).unwrap();
    desk.write(&mut words, 0, 51).unwrap();
    let mut session = Session::open(&mut words).unwrap();
    session.settle(early).unwrap();
    assert_eq!(session.commit(desk.handle(), Pick::Latest, Finish::Settle), Ok(Commit::At(p(8))));
    let chart = Chart::open(&words).unwrap();
    let shown = |point, value| Ok(Shown { point: p(point), value: Value::Written(value) });
    assert_eq!(
        [chart.view(0, p(5)), chart.view(0, p(8)), chart.view(1, p(8))],
        [shown(5, 50), shown(8, 51), shown(4, 60)]
    );
}
