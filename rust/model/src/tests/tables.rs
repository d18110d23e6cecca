//! The joined table of lock rows against document 01's (document 02, M-105): both run the same calls from the same
//! Format, up to but without the first call that the old one refuses with 11.

use super::*;
use crate::generate;
use crate::joined::Joined;
use crate::record::{Lock, Mode, Record, Table};
use crate::reply::{Refusal, Reply};
use crate::script::Call;
use crate::sound;
use crate::store::{Counts, Store};

/// The two runs, and what they have met.
struct Both {
    old: Session,
    new: Session,
    /// Has the old one refused a call with 11 since the last Format?
    over: bool,
    met: Met,
}

#[derive(Default)]
struct Met {
    calls: u64,
    refused_with_11: u64,
    granted_by_the_new: u64,
    purges_that_differ: u64,
    joined: Joined,
}

impl Both {
    fn new() -> Both {
        Both {
            old: Session::with(Table::Plain, false),
            new: Session::with(Table::Joined, false),
            over: false,
            met: Met::default(),
        }
    }

    /// Makes a call on both, and compares what they reply and the stores after it. Without an effect from the first 11
    /// of the old one to the next Format.
    fn call(&mut self, call: Call) -> Result<(), String> {
        let format = matches!(call, Call::Format(_));
        if self.over && !format {
            return Ok(());
        }
        let before = self.new.store.clone();
        let (old, new) = (self.old.call(call)?, self.new.call(call)?);
        if old == Reply::No(Refusal::NoLockRow) {
            self.over = true;
            self.met.refused_with_11 += 1;
            self.met.granted_by_the_new += u64::from(!matches!(new, Reply::No(_)));
            return Ok(());
        }
        self.met.calls += 1;
        same_replies(old, new, &mut self.met).map_err(|e| format!("{call:?}: {e}"))?;
        if format {
            // A refused one keeps the stores, which may have parted.
            self.over &= old != Reply::Ok;
            return Ok(());
        }
        let (Some(old), Some(new)) = (&self.old.store, &self.new.store) else {
            return Ok(());
        };
        sound::check(old)?;
        sound::check(new)?;
        same_meaning(old, new).map_err(|e| format!("after {call:?} {e}"))?;
        if let Some(before) = before {
            self.met.joined.step(&before, new);
        }
        Ok(())
    }
}

/// The replies are equal, but of the lock rows that a purge counts the new table has at most as many.
fn same_replies(old: Reply, new: Reply, met: &mut Met) -> Result<(), String> {
    let same = match (old, new) {
        (Reply::Purged(versions, locks), Reply::Purged(versions_now, locks_now)) => {
            met.purges_that_differ += u64::from(locks_now < locks);
            versions == versions_now && locks_now <= locks
        }
        _ => old == new,
    };
    that(same, || format!("replied {old:?} and {new:?}"))
}

fn that(holds: bool, message: impl FnOnce() -> String) -> Result<(), String> {
    if holds {
        Ok(())
    } else {
        Err(message())
    }
}

/// Edits, versions and floors are the same, the new table has no more rows, and on every record each owner has the same
/// modes on every point.
fn same_meaning(old: &Store, new: &Store) -> Result<(), String> {
    that(old.counts == new.counts && old.edits == new.edits, || {
        "the edits differ".to_string()
    })?;
    for (r, (old, new)) in old.records.iter().zip(&new.records).enumerate() {
        that(
            old.versions == new.versions && old.floor == new.floor,
            || format!("the versions of record {r} differ"),
        )?;
        that(new.locks.len() <= old.locks.len(), || {
            format!("the joined table has more rows of record {r}")
        })?;
        same_modes(old, new).map_err(|e| format!("on record {r} {e}"))?;
    }
    Ok(())
}

/// Modes change only at the ends of locks, so the points at and beside these stand for all.
fn same_modes(old: &Record, new: &Record) -> Result<(), String> {
    for lock in old.locks.iter().chain(&new.locks) {
        for point in [lock.low - 1, lock.low, lock.high, lock.high + 1] {
            for other in old.locks.iter().chain(&new.locks) {
                let has =
                    |l: &&Lock| l.owner == other.owner && l.mode == other.mode && l.covers(point);
                let (before, now) = (old.locks.iter().find(has), new.locks.iter().find(has));
                that(before.is_some() == now.is_some(), || {
                    format!("point {point}: {before:?} and {now:?}")
                })?;
            }
        }
    }
    Ok(())
}

/// The call with more lock rows, where it is a Format: so longer lists come before the first 11.
fn roomy(call: Call) -> Call {
    match call {
        Call::Format(Counts {
            records,
            edits,
            versions,
            locks,
            accesses,
        }) => Call::Format(Counts {
            records,
            edits,
            versions,
            locks: locks.max(200),
            accesses,
        }),
        other => other,
    }
}

#[test]
fn the_joined_table_means_the_old_one() {
    let mut both = Both::new();
    for seed in 1..=1_000 {
        for (i, line) in generate::script(seed, 200, true).iter().enumerate() {
            let call = script::parse(line).expect("a call");
            let call = if seed % 3 == 0 { call } else { roomy(call) };
            let done = both.call(call);
            done.unwrap_or_else(|e| panic!("seed {seed} line {}: {e}", i + 1));
        }
    }
    let met = both.met;
    let joins = met.joined.counts();
    for (kind, count) in joins.into_iter().chain([
        ("calls", met.calls / 1_000),
        ("refused with 11", met.refused_with_11),
        (
            "granted where the old is refused with 11",
            met.granted_by_the_new,
        ),
        ("purges that count fewer rows", met.purges_that_differ),
    ]) {
        assert!(count >= 20, "{kind}: {count}");
        println!("{count:>9}  {kind}");
    }
}

/// Runs a list of "line = answer" on both tables; "old | new" where they differ.
fn expect_both(list: &str) {
    for (table, which) in [(Table::Plain, 0), (Table::Joined, 1)] {
        let mut session = Session::with(table, true);
        for pair in list.lines().map(str::trim).filter(|l| !l.is_empty()) {
            let (line, answer) = pair.split_once(" = ").expect("a pair");
            let (old, new) = answer.split_once(" | ").unwrap_or((answer, answer));
            let said = session.line(line.as_bytes()).expect("sound");
            assert_eq!(said, [old, new][which], "{table:?}: {line}");
        }
        session.finish().expect("the plain run");
    }
}

#[test]
fn settled_reads_that_overlap_are_one_row() {
    // 1..3, then 1..5, then 1..4: the longest stays. With the write on 7 they go together.
    expect_both(
        "
        F 1 1 4 8 8 = ok
        B = edit 65
        R 65 0 3 A = read 0 3 -
        C 65 L S = commit 3
        B = edit 129
        R 129 0 5 A = read 0 5 -
        C 129 L S = commit 5
        B = edit 193
        R 193 0 4 A = read 0 4 -
        C 193 L S = commit 4
        B = edit 257
        L 257 0 5 7 P = locked 6 7
        W 257 0 9 = ok
        C 257 L S = commit 7
        P 0 7 = purged 0 4 | purged 0 2
    ",
    );
}

#[test]
fn settled_reads_that_adjoin_are_one_row() {
    // 1..3 of an edit that also wrote at 3, and 4..6 of a reader of that; writes on 3 and 8.
    expect_both(
        "
        F 1 1 4 8 8 = ok
        B = edit 65
        R 65 0 3 A = read 0 3 -
        L 65 0 3 3 A = locked 3 3
        W 65 0 1 = ok
        C 65 L S = commit 3
        B = edit 129
        R 129 0 6 A = read 3 6 1
        C 129 L S = commit 6
        B = edit 193
        L 193 0 8 8 A = locked 8 8
        W 193 0 2 = ok
        C 193 L S = commit 8
        P 0 8 = purged 1 4 | purged 1 3
    ",
    );
}

#[test]
fn a_gap_of_one_point_stays() {
    // 1..3 and 5..6; the write on 4 between them is no read.
    expect_both(
        "
        F 1 1 4 8 8 = ok
        B = edit 65
        R 65 0 3 A = read 0 3 -
        C 65 L S = commit 3
        B = edit 129
        L 129 0 4 4 A = locked 4 4
        W 129 0 1 = ok
        C 129 L S = commit 4
        B = edit 193
        R 193 0 6 A = read 4 6 1
        C 193 L S = commit 6
        B = edit 257
        L 257 0 8 8 A = locked 8 8
        W 257 0 2 = ok
        C 257 L S = commit 8
        P 0 8 = purged 1 4
    ",
    );
}

/// Rows 1..2 and 6..8, and then 1..5 of an edit that read and wrote, was kept, and is settled last.
const ROW_BETWEEN: &str = "
    F 1 2 4 8 8 = ok
    B = edit 65
    R 65 0 5 A = read 0 5 -
    B = edit 66
    R 66 0 2 A = read 0 2 -
    C 66 L S = commit 2
    L 65 0 5 5 A = locked 5 5
    W 65 0 1 = ok
    C 65 L K = commit 5
    B = edit 130
    R 130 0 8 A = read 5 8 1
    C 130 L S = commit 8
    S 65 = ok
";

#[test]
fn one_row_takes_in_two() {
    // One row, 1..8, and the writes on 5 and 10.
    expect_both(&format!(
        "{ROW_BETWEEN}
        B = edit 129
        L 129 0 9 10 A = locked 9 10
        W 129 0 2 = ok
        C 129 L S = commit 10
        P 0 10 = purged 1 5 | purged 1 3
    "
    ));
}

#[test]
fn a_joined_row_is_shortened() {
    // Of 1..8 the purge leaves 6..8, which the next counts.
    expect_both(&format!(
        "{ROW_BETWEEN}
        P 0 5 = purged 0 3 | purged 0 1
        B = edit 129
        L 129 0 6 6 A = no 9
        L 129 0 8 10 P = locked 9 10
        W 129 0 2 = ok
        C 129 L S = commit 10
        P 0 9 = purged 0 0
        P 0 10 = purged 1 2
        P 0 10 = purged 0 0
    "
    ));
}

#[test]
fn other_rows_are_not_joined() {
    // Settled writes on 3, 4 and 5, and the read 1..3 of the first writer.
    expect_both(
        "
        F 1 1 4 8 8 = ok
        B = edit 65
        R 65 0 3 A = read 0 3 -
        L 65 0 3 3 A = locked 3 3
        W 65 0 1 = ok
        C 65 L S = commit 3
        B = edit 129
        L 129 0 4 4 A = locked 4 4
        W 129 0 2 = ok
        C 129 L S = commit 4
        B = edit 193
        L 193 0 5 5 A = locked 5 5
        W 193 0 3 = ok
        C 193 L S = commit 5
        P 0 5 = purged 2 4
    ",
    );
    // An edit's reads and locks that touch, and a settled read beside them, each have their row.
    expect_both(
        "
        F 1 3 4 4 8 = ok
        B = edit 65
        R 65 0 3 A = read 0 3 -
        C 65 L S = commit 3
        B = edit 129
        R 129 0 3 A = read 0 3 -
        L 129 0 4 4 A = locked 4 4
        L 129 0 4 4 A = locked 4 4
        L 129 0 5 5 A = no 11
        C 129 3 K = commit 3
        B = edit 66
        R 66 0 2 A = no 11
        S 129 = ok
        R 66 0 2 A = read 0 2 -
    ",
    );
}

#[test]
fn joined_rows_leave_room() {
    expect_both(
        "
        F 1 1 4 2 8 = ok
        B = edit 65
        R 65 0 3 A = read 0 3 -
        C 65 L S = commit 3
        B = edit 129
        R 129 0 5 A = read 0 5 -
        C 129 L S = commit 5
        B = edit 193
        R 193 0 7 A = no 11 | read 0 7 -
    ",
    );
}

/// No list of calls makes these stores: a settled read row can take in more than two others only there.
#[test]
fn one_row_takes_in_many() {
    let read = |low, high| Lock {
        low,
        high,
        mode: Mode::Read,
        owner: 0,
    };
    let rows = [
        read(2, 3),
        read(5, 5),
        read(7, 9),
        read(12, 14),
        read(20, 20),
    ];
    for (new, expected) in [
        (read(4, 11), vec![read(2, 14), read(20, 20)]),
        (read(1, 30), vec![read(1, 30)]),
        (
            read(5, 7),
            vec![read(2, 3), read(5, 9), read(12, 14), read(20, 20)],
        ),
        (
            read(16, 18),
            vec![
                read(2, 3),
                read(5, 5),
                read(7, 9),
                read(12, 14),
                read(16, 18),
                read(20, 20),
            ],
        ),
        (
            read(15, 19),
            vec![read(2, 3), read(5, 5), read(7, 9), read(12, 20)],
        ),
        (read(8, 8), rows.to_vec()),
    ] {
        let mut record = Record {
            versions: vec![],
            locks: rows.iter().copied().chain([new]).collect(),
            floor: 0,
        };
        record.tidy(Table::Joined);
        assert_eq!(record.locks, expected, "{new:?}");
    }
}
