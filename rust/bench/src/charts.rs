//! A chart is 1,000 records of one moment: read in an edit that then commits, or viewed. In a session, by a `Chart` and
//! through both kinds of plain vectors, all from the store that the calls of one kind are timed on.

use crate::kinds::Base;
use crate::library::open;
use crate::rows::{self, Store, BEGIN, LATEST, READ, ROW};
use crate::timing::{least_parts, once};
use crate::Size;
use zohetiwa::{Answer, Chart, Point, Shown, SHOWN_WORDS};

const RECORDS: u64 = 1000;

/// What a store has no part of.
const NONE: f64 = f64::INFINITY;

/// A chart both ways, and the replies of the plain vectors.
struct Lists {
    /// Begin, the Reads and the Commit.
    calls: Vec<u64>,
    replies: Vec<u64>,
    asks: Vec<u64>,
    shown: Vec<u64>,
}

impl Lists {
    fn new(base: &Base) -> Lists {
        let mut calls = vec![BEGIN, 0, 0, 0, 0, 0];
        let edit = rows::answer(&mut base.copy().plain, [BEGIN, 0, 0, 0, 0, 0])[1];
        calls.extend((0..RECORDS).flat_map(|record| [READ, edit, record, base.late, 0, 0]));
        calls.extend([LATEST, edit, 0, 0, 0, 0]);
        let asks: Vec<u64> = (0..RECORDS).flat_map(|record| [record, base.late]).collect();
        let (mut plain, mut replies) = (base.copy().plain, vec![0; calls.len()]);
        rows::run(&mut plain, &calls, &mut replies);
        assert!(replies.chunks(ROW).all(|reply| reply[0] == 0), "the chart has to be granted");
        let mut shown = vec![0; RECORDS as usize * SHOWN_WORDS];
        rows::show(|record, p| plain.view(record, p), &asks, &mut shown);
        Lists { calls, replies, asks, shown }
    }

    fn viewed(&self, view: impl Fn(u64, Point) -> Answer<Shown>) -> f64 {
        let mut shown = vec![u64::MAX; self.shown.len()];
        let time = once(|| rows::show(view, &self.asks, &mut shown));
        assert!(shown == self.shown, "a chart by views differs from that of the vectors");
        time
    }

    /// Nanoseconds of Begin and the Reads, of the Commit, and of the views.
    fn parts(&self, store: &mut impl Store) -> [f64; 3] {
        let (last, mut replies) = (self.calls.len() - ROW, vec![u64::MAX; self.calls.len()]);
        let reads = once(|| rows::run(store, &self.calls[..last], &mut replies[..last]));
        let commit = once(|| rows::run(store, &self.calls[last..], &mut replies[last..]));
        assert!(replies == self.replies, "a chart by reads differs from that of the vectors");
        [reads, commit, self.viewed(|record, p| store.view(record, p))]
    }

    /// The same after the nanoseconds of the opening.
    fn in_session(&self, words: &mut [u64]) -> [f64; 4] {
        let mut session = None;
        let opening = once(|| session = Some(open(words)));
        let [reads, commit, views] = self.parts(session.as_mut().expect("it is open"));
        [opening, reads, commit, views]
    }

    fn by_chart(&self, words: &[u64]) -> [f64; 4] {
        let mut chart = None;
        let opening = once(|| chart = Some(Chart::open(words).expect("a sound store")));
        let chart = chart.expect("it is open");
        [opening, NONE, NONE, self.viewed(|record, p| chart.view(record, p))]
    }

    fn in_vectors(&self, store: &mut impl Store) -> [f64; 4] {
        let [reads, commit, views] = self.parts(store);
        [0.0, reads, commit, views]
    }
}

fn line(name: &str, times: [f64; 3]) {
    let cell = |time: f64| if time == NONE { "–".to_string() } else { format!("{:.0}", time / RECORDS as f64) };
    println!("| {name} | {} | {} | {} |", cell(times[0]), cell(times[1]), cell(times[2]));
}

pub fn table(size: Size, base: &Base) {
    let (lists, mut now) = (Lists::new(base), base.copy());
    let [session, chart, plain, bare] = least_parts(size.kinds, |way| {
        now.become_like(base);
        match way {
            0 => lists.in_session(&mut now.words),
            1 => lists.by_chart(&now.words),
            2 => lists.in_vectors(&mut now.plain),
            _ => lists.in_vectors(&mut now.bare),
        }
    });
    println!("A chart of 1,000 records of the same store at one point: read in an edit, Begin included, that then");
    println!(
        "commits and is settled; and viewed. All gave the same replies. Least of {} runs, ns per record.\n",
        size.kinds
    );
    println!("| Store | reads in an edit | its Commit | views |");
    println!("|---|---|---|---|");
    for (name, [opening, reads, commit, views]) in [("session", session), ("`Chart`", chart)] {
        line(name, [reads, commit, views]);
        line(&format!("{name}, its opening included"), [opening + reads, NONE, opening + views]);
    }
    for (name, [_, reads, commit, views]) in [("plain vectors", plain), ("plain vectors without indexes", bare)] {
        line(name, [reads, commit, views]);
    }
    println!("\nThe opening: a session {:.0} ns, a `Chart` {:.0} ns.", session[0], chart[0]);
}
