//! What a store does in the job, and one run of the job on a store: its times, and that every chart shows the values
//! that the job says.

use crate::job::{Edit, Job, EDITS, RECORDS};
use std::time::Instant;

/// A store that keeps the plan.
pub trait Store {
    /// Does the edits one after another, each a transaction of its own.
    fn edits(&mut self, edits: &[Edit]);

    /// All records of one moment, each by a read of its own in one transaction.
    fn chart(&mut self, values: &mut [u64]);

    /// The same in the store's quickest way.
    fn chart_at_once(&mut self, values: &mut [u64]);
}

/// Nanoseconds: for each record of a chart, for each record of a chart at once, for each edit.
pub type Times = [f64; 3];

/// A row of the table: a store, and a run of the job on it from its start.
pub struct Way {
    pub name: String,
    pub run: Box<dyn Fn(&Job) -> Times>,
}

impl Way {
    pub fn new(name: impl Into<String>, run: impl Fn(&Job) -> Times + 'static) -> Way {
        Way { name: name.into(), run: Box::new(run) }
    }
}

/// Runs the job on a store that has the job's first values.
pub fn timed(job: &Job, store: &mut impl Store) -> Times {
    let [mut charts, mut at_once, mut edits] = [0.0; 3];
    for (number, round) in job.rounds.iter().enumerate() {
        edits += nanoseconds(|| store.edits(&round.edits));
        let mut values = vec![0; RECORDS];
        charts += nanoseconds(|| store.chart(&mut values));
        compare(number, &values, &round.chart);
        values.fill(0);
        at_once += nanoseconds(|| store.chart_at_once(&mut values));
        compare(number, &values, &round.chart);
    }
    let rounds = job.rounds.len() as f64;
    [charts / rounds / RECORDS as f64, at_once / rounds / RECORDS as f64, edits / rounds / EDITS as f64]
}

fn nanoseconds(work: impl FnOnce()) -> f64 {
    let start = Instant::now();
    work();
    start.elapsed().as_nanos() as f64
}

fn compare(round: usize, shown: &[u64], expected: &[u64]) {
    for (record, (shown, expected)) in shown.iter().zip(expected).enumerate() {
        assert_eq!(shown, expected, "record {record} in a chart after round {round}");
    }
}
