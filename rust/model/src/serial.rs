//! The plain, serial run: one value for each record, each committed edit whole, by rising point.

use crate::generate::Random;
use crate::reply::{Reply, Value};
use crate::script::Call;
use crate::store::LAST;
use std::collections::BTreeMap;

/// A value, and the commit point of the edit that wrote it.
#[derive(Clone, Copy)]
struct Saved {
    point: u64,
    value: u64,
}

/// The value of each record; one that is not there was never written.
type Values = BTreeMap<u64, Saved>;

/// A committed edit: where in the list it committed, its commit point, and its calls in list order.
pub struct Committed {
    commit: usize,
    pub point: u64,
    calls: Vec<(Call, Reply)>,
}

impl Committed {
    /// The value that it wrote last to the record, if it wrote it.
    pub fn wrote(&self, record: u64) -> Option<u64> {
        let of_step = |&(call, reply): &(Call, Reply)| match (call, reply) {
            (Call::Write(_, of, value), Reply::Ok) if of == record => Some(value),
            _ => None,
        };
        self.calls.iter().rev().find_map(of_step)
    }

    /// The value that it read of the record, if it read it.
    pub fn read(&self, record: u64) -> Option<Value> {
        let of_step = |&(call, reply): &(Call, Reply)| match call {
            Call::Read(_, of, ..) if of == record => seen(reply),
            _ => None,
        };
        self.calls.iter().find_map(of_step)
    }

    /// Takes the edit whole: writes set the values, and reads have to have them in their replies.
    fn take(&self, values: &mut Values) -> Result<(), String> {
        for &(call, reply) in &self.calls {
            match (call, reply) {
                (Call::Write(_, record, value), Reply::Ok) => {
                    let point = self.point;
                    values.insert(record, Saved { point, value });
                }
                (Call::Read(_, record, ..), reply) => {
                    let value = values.get(&record).map(|saved| saved.value);
                    if seen(reply).is_some_and(|read| read != value) {
                        return Err(format!("the plain run does not give {call:?} {reply:?}"));
                    }
                }
                _ => {}
            }
        }
        Ok(())
    }
}

/// The value in the reply of a Read that was granted.
fn seen(reply: Reply) -> Option<Value> {
    match reply {
        Reply::Read(_, _, value) | Reply::Again(_, value) => Some(value),
        Reply::Own(value) => Some(Some(value)),
        _ => None,
    }
}

/// The handle a call names.
fn handle_of(call: &Call) -> Option<u64> {
    match *call {
        Call::Write(handle, ..)
        | Call::Lock(handle, ..)
        | Call::Read(handle, ..)
        | Call::Commit(handle, ..)
        | Call::Abort(handle, ..)
        | Call::Settle(handle) => Some(handle),
        Call::Format(_) | Call::Begin | Call::Purge(..) | Call::View(..) => None,
    }
}

/// The committed edits of a list, in the order of their commits.
/// A call belongs to the edit of the last Begin before it that gave its handle.
pub fn committed_edits(list: &[(Call, Reply)]) -> Vec<Committed> {
    let mut found = vec![];
    for (start, (_, reply)) in list.iter().enumerate() {
        let Reply::Edit(handle) = *reply else {
            continue;
        };
        let rest = &list[start + 1..];
        let end = rest.iter().position(|(_, r)| *r == Reply::Edit(handle));
        let of_edit = rest[..end.unwrap_or(rest.len())]
            .iter()
            .enumerate()
            .filter(|(_, (call, _))| handle_of(call) == Some(handle));
        let committed = of_edit.clone().find_map(|(i, (_, reply))| match reply {
            Reply::Commit(point) => Some((start + 1 + i, *point)),
            _ => None,
        });
        if let Some((commit, point)) = committed {
            let calls = of_edit.map(|(_, step)| *step).collect();
            found.push(Committed {
                commit,
                point,
                calls,
            });
        }
    }
    found.sort_by_key(|edit| edit.commit);
    found
}

/// A plain run: committed edits in an order by rising point, and the values at first and after each of them.
pub struct Run<'a> {
    pub order: Vec<&'a Committed>,
    values: Vec<Values>,
}

impl<'a> Run<'a> {
    fn new(order: Vec<&'a Committed>) -> Result<Run<'a>, String> {
        let mut now = Values::new();
        let mut values = vec![now.clone()];
        for edit in &order {
            edit.take(&mut now)?;
            values.push(now.clone());
        }
        Ok(Run { order, values })
    }

    /// The value of the record after exactly the edits whose commit point is at most p, and the commit point of the
    /// edit that wrote it; 0 if it was never written.
    pub fn saved_at(&self, record: u64, p: u64) -> (u64, Value) {
        let count = self.order.partition_point(|edit| edit.point <= p);
        match self.values[count].get(&record) {
            Some(saved) => (saved.point, Some(saved.value)),
            None => (0, None),
        }
    }

    /// The value of the record right after the edit with this index in the order.
    pub fn value_after(&self, index: usize, record: u64) -> Value {
        self.values[index + 1].get(&record).map(|saved| saved.value)
    }
}

/// The plain runs of the edits. Equal points are taken in the order given, in reverse, and shuffled; each order once.
pub fn runs(edits: &[Committed]) -> Result<Vec<Run<'_>>, String> {
    let mut order: Vec<usize> = (0..edits.len()).collect();
    order.sort_by_key(|&i| (edits[i].point, i));
    let mut orders = vec![order.clone()];
    order.sort_by_key(|&i| (edits[i].point, usize::MAX - i));
    orders.push(order.clone());
    for seed in 0..6 {
        let mut random = Random::new(seed);
        order.sort_by_cached_key(|&i| (edits[i].point, random.next()));
        orders.push(order.clone());
    }
    orders.sort();
    orders.dedup();
    orders
        .into_iter()
        .map(|order| Run::new(order.into_iter().map(|i| &edits[i]).collect()))
        .collect()
}

/// Checks one history: the calls after a Format that replied `ok`, and the newest value of each
/// record at the end.
pub fn check(list: &[(Call, Reply)], newest: &[Value]) -> Result<(), String> {
    for run in runs(&committed_edits(list))? {
        for (record, value) in (0..).zip(newest) {
            let (_, last) = run.saved_at(record, LAST);
            if last != *value {
                return Err(format!(
                    "record {record}: the plain run ends in {last:?}, not in {value:?}"
                ));
            }
        }
    }
    Ok(())
}
