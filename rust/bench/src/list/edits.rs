//! The open edits of the list: each has a plan made when it begins, and goes on by one step when its turn comes.

use super::{Maker, RECORDS};
use crate::rows::{ABORT, BEGIN, EARLIEST, LATEST, LOCK, NAMED, READ, WRITE};
use zohetiwa::Refusal;

#[derive(Clone, Copy)]
enum Step {
    Write(u64),
    /// Write-locks the edit's span.
    Lock(u64),
    /// Reads up to the end of the span.
    Read(u64),
}

impl Step {
    fn record(self) -> u64 {
        match self {
            Step::Write(record) | Step::Lock(record) | Step::Read(record) => record,
        }
    }
}

/// An open edit: what it still does before it ends, the next step last.
pub struct Plan {
    edit: u64,
    low: u64,
    high: u64,
    steps: Vec<Step>,
}

impl Plan {
    pub fn edit(&self) -> u64 {
        self.edit
    }

    pub fn low(&self) -> u64 {
        self.low
    }
}

impl Maker {
    pub fn begin(&mut self) {
        let seat = self.random.below(64);
        let low = self.now(seat);
        let edit = self.call([BEGIN, 0, 0, 0, 0, 0])[1];
        let (mut high, mut steps) = (low, vec![]);
        match self.random.below(100) {
            // Locks a span on some records and writes them.
            0..60 => {
                high += self.random.below(640);
                self.plan_writes(&mut steps, 8, false);
            }
            // Reads a record up to a point, locks that point and writes.
            60..85 => self.plan_writes(&mut steps, 4, true),
            // Reads only.
            85..97 => steps.extend((0..1 + self.random.below(6)).map(|_| Step::Read(self.some_record()))),
            // Writes with no lock: there is no point to commit at.
            _ => steps.push(Step::Write(self.random.below(RECORDS))),
        }
        // Some look again at the record that they touch last.
        if self.random.percent(20) {
            steps.insert(0, Step::Read(steps[0].record()));
        }
        self.open.push(Plan { edit, low, high, steps });
    }

    /// Lock and Write of up to `most` records, most of them those whose turn it is: so all are written again and again.
    fn plan_writes(&mut self, steps: &mut Vec<Step>, most: u64, read: bool) {
        for _ in 0..=self.random.below(most) {
            let record = if self.random.percent(20) { self.some_record() } else { self.to_write };
            self.to_write = (self.to_write + 1) % RECORDS;
            steps.extend([Step::Write(record), Step::Lock(record)]);
            if read {
                steps.push(Step::Read(record));
            }
        }
    }

    /// The next step of the older of two open edits, or its end.
    pub fn step(&mut self) {
        let mut some = || self.random.below(self.open.len() as u64) as usize;
        let (one, other) = (some(), some());
        let index = if self.open[one].low < self.open[other].low { one } else { other };
        let Plan { edit, low, high, .. } = self.open[index];
        let Some(step) = self.open[index].steps.pop() else {
            self.open.swap_remove(index);
            return self.end(edit, low);
        };
        let (part, value) = (self.random.below(2), self.random.below(1 << 32));
        self.call(match step {
            Step::Write(record) => [WRITE, edit, record, value, 0, 0],
            Step::Lock(record) => [LOCK, edit, record, low, high, part],
            Step::Read(record) => [READ, edit, record, high, part, 0],
        });
    }

    /// Commit or Abort, with S or K. A named point may be refused: the edit is then aborted.
    fn end(&mut self, edit: u64, point: u64) {
        let keep = u64::from(self.random.percent(25));
        let reply = match self.random.below(100) {
            0..35 => self.call([EARLIEST, edit, keep, 0, 0, 0]),
            35..65 => self.call([LATEST, edit, keep, 0, 0, 0]),
            65..90 => self.call([NAMED, edit, point, keep, 0, 0]),
            _ => self.call([ABORT, edit, keep, 0, 0, 0]),
        };
        if reply[0] == Refusal::NotCommon.number() {
            self.call([ABORT, edit, keep, 0, 0, 0]);
        }
        if keep > 0 {
            self.ended.push_back((edit, point));
        }
    }
}
