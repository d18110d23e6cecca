//! Planning desks: lists of script lines and of lines of desks, and the store calls that each call of a desk makes.

use super::*;
use crate::desk::{self, Done, Told};
use crate::reply::{At, End, Refusal, Reply, Want};
use crate::script::Call;
use crate::store::LAST;
use crate::words;
use std::collections::BTreeMap;

/// A run with the checks on, and the sessions of desks by name.
struct Desks {
    run: Session,
    sessions: BTreeMap<String, desk::Session>,
}

fn number(word: &str) -> u64 {
    word.parse().expect("a number")
}

fn shown(told: Told) -> String {
    match told {
        Told::Opened(session) => format!("edit {}", session.handle),
        Told::Reply(reply) => script::show(reply),
        Told::Emptied => "emptied".to_string(),
    }
}

impl Desks {
    /// Answers a script line or one of a desk, which is named by a letter:
    ///     open a T WIDTH E|L
    ///     set a HANDLE LOW HIGH E|L       any session, with a width that cannot be
    ///     a R RECORD, a W RECORD VALUE, a C
    /// Their answers end in the interval after the call. A refused open leaves a session of the name alone.
    fn line(&mut self, line: &str) -> String {
        let words: Vec<&str> = line.split(' ').collect();
        let (name, told) = match words[..] {
            ["open", name, t, width, setting] => {
                let latest = setting == "L";
                let done = desk::open(&mut self.run, number(t), number(width), latest);
                let told = done.expect("sound").told;
                let Told::Opened(session) = told else {
                    return shown(told);
                };
                assert_eq!((session.width, session.latest), (number(width), latest));
                self.sessions.insert(name.to_string(), session);
                (name, shown(told))
            }
            ["set", name, handle, low, high, setting] => {
                let session = desk::Session {
                    handle: number(handle),
                    low: number(low),
                    high: number(high),
                    width: u64::MAX,
                    latest: setting == "L",
                };
                self.sessions.insert(name.to_string(), session);
                (name, "set".to_string())
            }
            [name, "R", record] => (name, self.call(name, |s, run| s.read(run, number(record)))),
            [name, "W", record, value] => {
                let write = |s: &mut desk::Session, run: &mut Session| {
                    s.write(run, number(record), number(value))
                };
                (name, self.call(name, write))
            }
            [name, "C"] => (name, self.call(name, |s, run| s.commit(run))),
            _ => return self.run.line(line.as_bytes()).expect("sound"),
        };
        let session = &self.sessions[name];
        format!("{told} in {}..{}", session.low, session.high)
    }

    /// A call of a session. The interval changes at most, and not the store if no store call was granted.
    fn call(
        &mut self,
        name: &str,
        call: impl FnOnce(&mut desk::Session, &mut Session) -> Result<Done, String>,
    ) -> String {
        let session = self.sessions.get_mut(name).expect("a session");
        let (old, store) = (*session, self.run.store.clone());
        let done = call(session, &mut self.run).expect("sound");
        let (low, high) = (session.low, session.high);
        assert_eq!(*session, desk::Session { low, high, ..old });
        let granted = |(_, reply): &(Call, Reply)| !matches!(reply, Reply::No(_));
        if !done.calls.iter().any(granted) {
            assert_eq!((old, store), (*session, self.run.store.clone()));
        }
        shown(done.told)
    }
}

/// Runs a list of "line = answer", and checks the plain run and the charts of the store calls made.
fn expect_desks(list: &str) {
    let mut desks = Desks {
        run: Session::new(true),
        sessions: BTreeMap::new(),
    };
    answers(list, |line| desks.line(line));
    desks.run.finish().expect("the plain run");
}

/// Record 0 is 7 from 5 on; the next handle is 129.
const VERSION_AT_5: &str = "
    F 2 2 4 8 8 = ok
    open a 5 0 E = edit 65 in 5..5
    a W 0 7 = ok in 5..5
    a C = commit 5 in 1..0
";

/// Edit 66 has write-locked 4..5 of record 0; the next handle is 129.
const HELD: &str = "
    F 2 2 4 8 8 = ok
    B = edit 65
    B = edit 66
    L 66 0 4 5 A = locked 4 5
    A 65 S = ok
";

#[test]
fn an_interval_is_t_to_t_plus_width() {
    expect_desks(&format!(
        "
        F 1 4 1 4 4 = ok
        open a 4 3 E = edit 65 in 4..7
        open b 4 0 L = edit 66 in 4..4
        open c 1 {} E = edit 67 in 1..{LAST}
        open d {LAST} 0 E = edit 68 in {LAST}..{LAST}
    ",
        LAST - 1
    ));
}

#[test]
fn no_point_0_and_none_above_last() {
    // A Begin for a bad point would show in the handle.
    expect_desks(&format!(
        "
        F 1 1 1 1 1 = ok
        open a 0 0 E = no 6
        open a 0 3 L = no 6
        open a 0 {max} E = no 6
        open a 1 {LAST} E = no 6
        open a 1 {max} E = no 6
        open a 2 {max} L = no 6
        open a {LAST} 1 E = no 6
        open a {LAST} {max} E = no 6
        open a {above} 0 E = no 6
        open a {max} 0 E = no 6
        open a {max} 1 E = no 6
        open a {max} {max} E = no 6
        open a 1 0 E = edit 65 in 1..1
    ",
        max = u64::MAX,
        above = LAST + 1
    ));
}

#[test]
fn opening_meets_1_then_13_then_6() {
    expect_desks(
        "
        open a 0 0 E = no 1
        open a 4 3 E = no 1
        F 1 1 1 1 1 = ok
        open a 0 0 E = no 6
        open a 4 3 E = edit 65 in 4..7
        open b 0 0 E = no 13
        open b 4 3 E = no 13
        A 65 S = ok
        open b 0 0 E = no 6
        open b 4 3 E = edit 129 in 4..7
    ",
    );
}

#[test]
fn a_read_leaves_the_part_within_the_lock() {
    // From tr + 1 on, all of it, up to a point that another edit has write-locked.
    expect_desks(&format!(
        "{VERSION_AT_5}
        open a 4 4 E = edit 129 in 4..8
        a R 0 = read 5 8 7 in 6..8
        a R 1 = read 0 8 - in 6..8
        B = edit 66
        L 66 1 9 9 A = locked 9 9
        open b 8 3 E = no 13
        a C = commit 6 in 1..0
        open b 8 3 E = edit 193 in 8..11
        b R 1 = read 0 8 - in 8..8
        b R 0 = read 5 8 7 in 8..8
        b C = commit 8 in 1..0
    "
    ));
}

#[test]
fn a_version_at_the_end_is_not_read_and_cuts() {
    expect_desks(&format!(
        "{VERSION_AT_5}
        open a 4 1 L = edit 129 in 4..5
        a R 0 = read 0 4 - in 4..4
        a C = commit 4 in 1..0
    "
    ));
}

#[test]
fn own_and_repeated_reads_leave_the_interval() {
    expect_desks(&format!(
        "{HELD}
        open a 2 6 E = edit 129 in 2..8
        a R 1 = read 0 8 - in 2..8
        a W 0 1 = ok in 2..3
        a R 1 = again 0 - in 2..3
        a R 0 = own 1 in 2..3
        L 129 1 7 9 A = locked 7 9
        a R 1 = again 0 - in 2..3
        a C = commit 2 in 1..0
    "
    ));
    // Nor does one that would leave nothing.
    expect_desks(&format!(
        "{VERSION_AT_5}
        open a 3 5 E = edit 129 in 3..8
        a R 0 = read 5 8 7 in 6..8
        set b 129 2 4 E = set in 2..4
        b R 0 = again 5 7 in 2..4
        b C = no 14 in 2..4
        a C = commit 6 in 1..0
    "
    ));
}

#[test]
fn an_interval_of_one_point_is_emptied_by_a_version_there() {
    // Nothing of the edit is left: its slot, its rows and its points are free.
    expect_desks(
        "
        F 1 1 2 3 1 = ok
        open a 5 0 E = edit 65 in 5..5
        a W 0 7 = ok in 5..5
        a C = commit 5 in 1..0
        open a 5 0 L = edit 129 in 5..5
        a R 0 = emptied in 1..0
        R 129 0 5 P = no 2
        open b 4 0 L = edit 193 in 4..4
        b W 0 8 = ok in 4..4
        L 193 0 1 3 A = locked 1 3
        L 193 0 6 6 A = no 11
        b C = commit 4 in 1..0
    ",
    );
}

#[test]
fn an_interval_is_emptied_where_the_lock_ends_below_it() {
    expect_desks(&format!(
        "{HELD}
        open a 6 3 E = edit 129 in 6..9
        a W 1 1 = ok in 6..9
        a R 0 = emptied in 1..0
        V 1 9 = at 0 -
        L 66 1 1 9 A = locked 1 9
        open a 1 8 E = edit 193 in 1..9
        a R 0 = read 0 3 - in 1..3
    "
    ));
}

#[test]
fn an_ended_session_gives_3() {
    let ended = "a R 0 = no 3 in 1..0\n a W 0 1 = no 3 in 1..0\n a C = no 3 in 1..0\n a R 9 = no 3 in 1..0\n";
    expect_desks(&format!(
        "{VERSION_AT_5} {ended}
        open a 5 0 L = edit 129 in 5..5
        a R 0 = emptied in 1..0
        {ended}
        open a 6 0 L = edit 193 in 6..6
        W 193 1 1 = ok
        a C = nopoint in 1..0
        {ended}
        B = edit 257
        set a 257 1 0 L = set in 1..0
        {ended}
        set b 257 {max} {LAST} L = set in {max}..{LAST}
        b R 0 = no 3 in {max}..{LAST}
        b W 0 1 = no 3 in {max}..{LAST}
        b C = no 3 in {max}..{LAST}
        C 257 E S = commit 1
    ",
        max = u64::MAX
    ));
}

#[test]
fn an_unsound_store_gives_1_before_3() {
    let calls = "
        set a 65 4 7 E = set in 4..7
        set b 65 1 0 E = set in 1..0
        a R 0 = no 1 in 4..7
        a W 0 1 = no 1 in 4..7
        a C = no 1 in 4..7
        b R 0 = no 1 in 1..0
        b W 0 1 = no 1 in 1..0
        b C = no 1 in 1..0
        open a 0 0 E = no 1
        open a 4 3 E = no 1
    ";
    expect_desks(calls);
    let mut desks = Desks {
        run: Session::new(false),
        sessions: BTreeMap::new(),
    };
    desks.line("F 1 1 1 1 1");
    let store = desks.run.store.take().expect("a store");
    let mut lent = words::fresh(&store.counts);
    lent[0] = 5000;
    desks.run.store = words::decode(&lent);
    answers(calls, |line| desks.line(line));
}

#[test]
fn a_write_leaves_what_its_lock_was_granted() {
    expect_desks(&format!(
        "{HELD}
        open a 2 6 E = edit 129 in 2..8
        a W 0 1 = ok in 2..3
        a W 1 2 = ok in 2..3
        a W 0 3 = ok in 2..3
        a C = commit 2 in 1..0
        open a 4 5 L = edit 193 in 4..9
        a W 1 4 = ok in 4..9
        a W 0 5 = ok in 6..9
        a C = commit 9 in 1..0
        V 0 9 = at 9 5
        V 0 8 = at 2 3
    "
    ));
}

#[test]
fn lock_and_interval_remain_where_the_value_meets_10() {
    expect_desks(
        "
        F 2 2 4 8 1 = ok
        open a 4 5 E = edit 65 in 4..9
        a W 0 7 = ok in 4..9
        B = edit 66
        L 66 1 7 8 A = locked 7 8
        a W 1 8 = no 10 in 4..6
        L 66 1 6 6 A = no 8 65
        L 66 1 9 9 A = locked 9 9
        a W 1 8 = no 10 in 4..6
        a W 0 9 = ok in 4..6
        a C = commit 4 in 1..0
        L 66 1 6 6 A = locked 6 6
    ",
    );
}

#[test]
fn each_write_takes_a_lock_row() {
    expect_desks(
        "
        F 1 2 2 2 2 = ok
        open a 4 5 E = edit 65 in 4..9
        a W 0 7 = ok in 4..9
        a W 0 8 = ok in 4..9
        a W 0 9 = no 11 in 4..9
        a R 0 = own 8 in 4..9
        open b 10 0 E = edit 66 in 10..10
        b R 0 = no 11 in 10..10
    ",
    );
}

#[test]
fn a_commit_is_at_the_earliest_or_the_latest_point() {
    for (setting, point) in [("E", 4), ("L", 7)] {
        expect_desks(&format!(
            "
            F 1 1 1 4 4 = ok
            open a 4 3 {setting} = edit 65 in 4..7
            a W 0 1 = ok in 4..7
            a C = commit {point} in 1..0
            V 0 {LAST} = at {point} 1
            B = edit 129
            L 129 0 {point} {point} A = no 9
        "
        ));
        // Of an edit that touched nothing as well, and settled in any case.
        expect_desks(&format!(
            "
            F 1 1 1 1 1 = ok
            open a 4 3 {setting} = edit 65 in 4..7
            a C = commit {point} in 1..0
            S 65 = no 2
        "
        ));
    }
}

#[test]
fn the_store_s_refusals_of_a_read_are_passed_on() {
    expect_desks(&format!(
        "{VERSION_AT_5}
        set a 999 4 9 E = set in 4..9
        a R 0 = no 2 in 4..9
        open b 6 3 E = edit 129 in 6..9
        b R 2 = no 5 in 6..9
        A 129 K = ok
        b R 0 = no 3 in 6..9
        S 129 = ok
        b R 0 = no 2 in 6..9
        open a 6 0 E = edit 193 in 6..6
        a W 0 8 = ok in 6..6
        open b 6 1 E = edit 66 in 6..7
        b R 0 = no 8 193 in 6..7
        a C = commit 6 in 1..0
        set b 66 3 6 E = set in 3..6
        b R 0 = no 9 in 3..6
        A 66 S = ok
        P 0 6 = purged 1 2
        open b 3 3 E = edit 257 in 3..6
        b R 0 = no 7 in 3..6
    "
    ));
    expect_desks(
        "
        F 2 1 1 8 1 = ok
        open a 4 5 E = edit 65 in 4..9
        a R 0 = read 0 9 - in 4..9
        a R 1 = no 10 in 4..9
        a C = commit 4 in 1..0
    ",
    );
}

#[test]
fn the_store_s_refusals_of_a_lock_are_passed_on() {
    expect_desks(&format!(
        "{VERSION_AT_5}
        set a 999 4 9 E = set in 4..9
        a W 0 1 = no 2 in 4..9
        open a 5 0 E = edit 129 in 5..5
        a W 2 1 = no 5 in 5..5
        a W 0 1 = no 9 in 5..5
        open b 5 0 E = edit 66 in 5..5
        b W 1 1 = ok in 5..5
        a W 1 1 = no 8 66 in 5..5
        P 0 5 = purged 0 1
        a W 0 1 = no 7 in 5..5
        A 129 K = ok
        a W 0 1 = no 3 in 5..5
    "
    ));
}

#[test]
fn the_store_s_refusals_of_a_commit_leave_the_session() {
    expect_desks(
        "
        F 2 2 1 8 8 = ok
        open a 4 3 E = edit 65 in 4..7
        set b 999 4 7 E = set in 4..7
        b C = no 2 in 4..7
        a W 0 1 = ok in 4..7
        a W 1 2 = ok in 4..7
        a C = no 12 in 4..7
        a R 0 = own 1 in 4..7
        a C = no 12 in 4..7
        A 65 K = ok
        a C = no 3 in 4..7
        S 65 = ok
        a C = no 2 in 4..7
    ",
    );
    // With a version row free again the edit commits.
    expect_desks(
        "
        F 1 2 2 8 8 = ok
        open a 2 0 E = edit 65 in 2..2
        a W 0 1 = ok in 2..2
        a C = commit 2 in 1..0
        open a 3 0 E = edit 129 in 3..3
        a W 0 2 = ok in 3..3
        a C = commit 3 in 1..0
        open a 4 3 E = edit 193 in 4..7
        a W 0 3 = ok in 4..7
        a C = no 12 in 4..7
        P 0 3 = purged 1 2
        a C = commit 4 in 1..0
    ",
    );
    // Others use the handle: the interval is no longer in the common set, or that is empty.
    expect_desks(
        "
        F 2 2 4 8 8 = ok
        open a 4 3 L = edit 65 in 4..7
        R 65 0 5 A = read 0 5 -
        a C = no 14 in 4..7
        L 65 1 9 9 A = locked 9 9
        W 65 1 1 = ok
        a C = nopoint in 1..0
        S 65 = no 2
    ",
    );
}

#[test]
fn a_session_may_hold_anything() {
    let (above, max) = (LAST + 1, u64::MAX);
    expect_desks(&format!(
        "
        F 1 2 4 8 8 = ok
        B = edit 65
        set a 65 0 0 E = set in 0..0
        a R 0 = no 6 in 0..0
        a W 0 1 = no 7 in 0..0
        a C = no 6 in 0..0
        set a 65 4 {above} L = set in 4..{above}
        a R 0 = no 6 in 4..{above}
        a W 0 1 = no 6 in 4..{above}
        a C = no 6 in 4..{above}
        set a 65 {max} {max} E = set in {max}..{max}
        a R 0 = no 6 in {max}..{max}
        a W 0 1 = no 6 in {max}..{max}
        a C = no 6 in {max}..{max}
        set a 65 0 {max} E = set in 0..{max}
        a C = no 6 in 0..{max}
        set a 65 0 9 L = set in 0..9
        a W 0 1 = no 7 in 0..9
        a R 0 = read 0 9 - in 1..9
        a W 0 1 = ok in 1..9
        set a 65 4 {above} E = set in 4..{above}
        a R 0 = no 6 in 4..{above}
        a C = commit 4 in 1..0
        set a 0 1 9 E = set in 1..9
        a R 0 = no 2 in 1..9
        set a {max} 1 9 E = set in 1..9
        a C = no 2 in 1..9
    "
    ));
}

#[test]
fn two_sessions_of_one_handle() {
    expect_desks(
        "
        F 2 1 4 8 8 = ok
        open a 4 5 E = edit 65 in 4..9
        set b 65 2 7 L = set in 2..7
        b R 0 = read 0 7 - in 2..7
        a R 0 = again 0 - in 4..9
        a W 1 1 = ok in 4..9
        b R 1 = own 1 in 2..7
        b W 1 2 = ok in 2..7
        b C = commit 7 in 1..0
        a R 0 = no 2 in 4..9
        a W 0 1 = no 2 in 4..9
        a C = no 2 in 4..9
        B = edit 129
        a C = no 2 in 4..9
    ",
    );
}

/// The store calls are those that document 02 names, no more and no less.
#[test]
fn each_call_makes_its_store_calls() {
    let mut run = Session::new(true);
    run.line(b"F 2 1 4 8 1").expect("ok");
    let opened = desk::open(&mut run, 4, 3, true).expect("sound");
    assert_eq!(opened.calls, [(Call::Begin, Reply::Edit(65))]);
    let Told::Opened(mut desk) = opened.told else {
        panic!("{opened:?}");
    };
    let calls = |done: Result<Done, String>| done.expect("sound").calls;
    let lock = |record| Call::Lock(65, record, 4, 7, Want::Part);
    let locked = Reply::Locked(4, 7);
    let write = (Call::Write(65, 0, 1), Reply::Ok);
    let written = calls(desk.write(&mut run, 0, 1));
    assert_eq!(written, [(lock(0), locked), write]);
    let no_row = (Call::Write(65, 1, 1), Reply::No(Refusal::NoAccessRow));
    let written = calls(desk.write(&mut run, 1, 1));
    assert_eq!(written, [(lock(1), locked), no_row]);
    let own = (Call::Read(65, 0, 7, Want::Part), Reply::Own(1));
    assert_eq!(calls(desk.read(&mut run, 0)), [own]);
    let commit = Call::Commit(65, At::Point(7), End::Settle);
    assert_eq!(calls(desk.commit(&mut run)), [(commit, Reply::Commit(7))]);
    for none in [
        desk.commit(&mut run),
        desk.read(&mut run, 0),
        desk.write(&mut run, 0, 1),
        desk::open(&mut run, 0, 0, true),
    ] {
        assert_eq!(calls(none), vec![]);
    }
    run.line(b"B").expect("edit 129");
    (desk.handle, desk.low, desk.high) = (129, 7, 7);
    let emptied = [
        (Call::Read(129, 0, 7, Want::Part), Reply::Read(0, 6, None)),
        (Call::Abort(129, End::Settle), Reply::Ok),
    ];
    assert_eq!(calls(desk.read(&mut run, 0)), emptied);
    run.finish().expect("the plain run");
}
