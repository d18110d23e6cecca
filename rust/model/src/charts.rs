//! What charts promise, of one history: views at one point are one moment of the plan, they stay so, and at the commit
//! point of an edit they show what it read and wrote. Each view made is compared with the plain runs and later views,
//! and is granted unless a Purge was above its point.

use crate::reply::{Refusal, Reply, Value};
use crate::script::Call;
use crate::serial::{self, Committed, Run};
use crate::store::{Store, LAST};
use std::collections::{BTreeMap, BTreeSet};

/// A view that was granted.
#[derive(Clone, Copy, Debug, PartialEq, Eq)]
pub struct View {
    /// How many edits had committed by then.
    pub commits: usize,
    pub record: u64,
    pub point: u64,
    /// The point replied.
    pub version: u64,
    pub value: Value,
}

/// How many comparisons were made, for each statement.
#[derive(Clone, Copy, Debug, Default, PartialEq, Eq)]
pub struct Compared {
    /// Of a view with a plain run of the edits committed by then.
    pub moment: u64,
    /// Of a view with the next one of its record at its point.
    pub again: u64,
    /// Of a view with a plain run of the longest list that does not change it, if edits have committed since.
    pub lasting: u64,
    /// Of a view at the commit point of an edit with a plain run right after the edit, of a record that it touched.
    pub own: u64,
    /// Of these, where other edits committed at the same point.
    pub own_in_tie: u64,
}

impl Compared {
    pub fn add(&mut self, more: Compared) {
        self.moment += more.moment;
        self.again += more.again;
        self.lasting += more.lasting;
        self.own += more.own;
        self.own_in_tie += more.own_in_tie;
    }

    /// The counts with their names.
    pub fn counts(&self) -> [(&'static str, u64); 5] {
        [
            ("charts: one moment of the plain run", self.moment),
            ("charts: the same reply again", self.again),
            ("charts: still the plain run's value", self.lasting),
            ("charts: as the edit read or wrote", self.own),
            ("charts: so with other edits at its point", self.own_in_tie),
        ]
    }
}

/// A chart shows the points of this many commits, the latest, so that a long list does not take too long.
const LATEST: usize = 16;

/// A chart is taken each time that this many calls were made, and after each commit.
const EVERY: usize = 8;

/// Is a chart taken after the list? Not after commits alone: other calls must not change one.
pub fn is_due(list: &[(Call, Reply)]) -> bool {
    matches!(list.last(), Some((_, Reply::Commit(_)))) || list.len() % EVERY == 0
}

/// The record that a call names.
fn record_of(call: &Call) -> Option<u64> {
    match *call {
        Call::Write(_, record, _)
        | Call::Lock(_, record, ..)
        | Call::Read(_, record, ..)
        | Call::Purge(record, _)
        | Call::View(record, _) => Some(record),
        Call::Format(_) | Call::Begin | Call::Commit(..) | Call::Abort(..) | Call::Settle(_) => {
            None
        }
    }
}

/// The greatest point to which each record was to be purged.
fn purges(list: &[(Call, Reply)]) -> BTreeMap<u64, u64> {
    let mut found = BTreeMap::new();
    for &(call, _) in list {
        if let Call::Purge(record, b) = call {
            let greatest = found.entry(record).or_insert(b);
            *greatest = b.max(*greatest);
        }
    }
    found
}

/// The granted views of the records that the list names, on the store after it: at the latest commit points, beside
/// these, at the floor, at 0 and at LAST. All are granted but below a Purge.
pub fn chart(list: &[(Call, Reply)], store: &Store) -> Result<Vec<View>, String> {
    let point_of = |(_, reply): &(Call, Reply)| match reply {
        Reply::Commit(point) => Some(*point),
        _ => None,
    };
    let commits: Vec<u64> = list.iter().filter_map(point_of).collect();
    let latest = commits.iter().rev().take(LATEST);
    let points: BTreeSet<u64> = latest
        .flat_map(|t| [t - 1, *t, t + 1])
        .chain([0, LAST])
        .filter(|point| *point <= LAST)
        .collect();
    let records: BTreeSet<u64> = list
        .iter()
        .filter_map(|(call, _)| record_of(call))
        .filter(|record| *record < store.counts.records)
        .collect();
    let purges = purges(list);
    let mut views = vec![];
    for record in records {
        let floor = store.records[record as usize].floor;
        for point in points.iter().copied().chain([floor]) {
            match store.view(record, point) {
                Ok(Reply::At(version, value)) => views.push(View {
                    commits: commits.len(),
                    record,
                    point,
                    version,
                    value,
                }),
                Err(Refusal::AtFloor) if purges.get(&record).is_some_and(|b| *b > point) => {}
                other => return Err(format!("view of {record} at {point} gives {other:?}")),
            }
        }
    }
    Ok(views)
}

/// The views among the calls of a list.
fn views_among(list: &[(Call, Reply)]) -> Vec<View> {
    let mut views = vec![];
    let mut commits = 0;
    for &(call, reply) in list {
        match (call, reply) {
            (_, Reply::Commit(_)) => commits += 1,
            (Call::View(record, point), Reply::At(version, value)) => views.push(View {
                commits,
                record,
                point,
                version,
                value,
            }),
            _ => {}
        }
    }
    views
}

/// After how many commits the view is the same at least: up to the next one at or below its point by an edit that wrote
/// its record. The edits are in the order of their commits.
fn stays_until(edits: &[Committed], view: &View) -> usize {
    let changes = |edit: &Committed| edit.point <= view.point && edit.wrote(view.record).is_some();
    let next = edits[view.commits..].iter().position(changes);
    next.map_or(edits.len(), |more| view.commits + more)
}

/// The view is one moment of the plan: it shows the value after exactly the edits of the run at or below its point, and
/// where that was saved.
pub fn moment(run: &Run, view: &View) -> Result<(), String> {
    let saved = run.saved_at(view.record, view.point);
    if (view.version, view.value) != saved {
        return Err(format!(
            "{view:?} is not the moment of the plain run, which has {saved:?}"
        ));
    }
    Ok(())
}

/// The view shows the value right after the edit with this index in the run. It has to, at the commit point of the
/// edit, of a record that the edit read or wrote.
pub fn right_after(run: &Run, index: usize, view: &View) -> Result<(), String> {
    let value = run.value_after(index, view.record);
    if view.value != value {
        return Err(format!(
            "{view:?} is not what the plain run has right after an edit at its point, {value:?}"
        ));
    }
    Ok(())
}

/// At the commit point of an edit the view shows what the edit wrote last to its record, or else read; and that is what
/// the run has right after the edit.
pub fn own(run: &Run, view: &View, compared: &mut Compared) -> Result<(), String> {
    let at_point = |&(_, edit): &(usize, &&Committed)| edit.point == view.point;
    let edits = run.order.iter().enumerate().filter(at_point);
    let tie = edits.clone().count() > 1;
    for (index, edit) in edits {
        let wrote = edit.wrote(view.record).map(Some);
        let Some(value) = wrote.or(edit.read(view.record)) else {
            continue;
        };
        if view.value != value {
            return Err(format!(
                "{view:?} is not what the edit at its point wrote or read, {value:?}"
            ));
        }
        right_after(run, index, view)?;
        compared.own += 1;
        compared.own_in_tie += u64::from(tie);
    }
    Ok(())
}

/// Each view is the same as the next one of its record at its point, if it stays until then.
/// The views are in the order of record, point and commits.
fn again(edits: &[Committed], views: &[View], compared: &mut Compared) -> Result<(), String> {
    for pair in views.windows(2) {
        let (first, next) = (&pair[0], &pair[1]);
        let same_place = (first.record, first.point) == (next.record, next.point);
        if same_place && next.commits <= stays_until(edits, first) {
            if (first.version, first.value) != (next.version, next.value) {
                return Err(format!("{first:?} did not stay, it became {next:?}"));
            }
            compared.again += 1;
        }
    }
    Ok(())
}

/// Checks the charts of one history: the calls after a Format that replied `ok`, and the views made beside them.
pub fn check(list: &[(Call, Reply)], charts: &[View]) -> Result<Compared, String> {
    let edits = serial::committed_edits(list);
    let mut views = views_among(list);
    views.extend(charts);
    views.sort_by_key(|view| (view.record, view.point, view.commits));
    let mut compared = Compared::default();
    again(&edits, &views, &mut compared)?;
    let until: Vec<usize> = views.iter().map(|view| stays_until(&edits, view)).collect();
    for commits in 0..=edits.len() {
        for run in serial::runs(&edits[..commits])? {
            for (view, &until) in views.iter().zip(&until) {
                if view.commits == commits {
                    moment(&run, view)?;
                    compared.moment += 1;
                    own(&run, view, &mut compared)?;
                } else if until == commits {
                    moment(&run, view)?;
                    compared.lasting += 1;
                }
            }
        }
    }
    Ok(compared)
}
