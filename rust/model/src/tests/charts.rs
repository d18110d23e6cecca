//! What charts promise: right views pass, and each comparison reports wrong ones.

use super::*;
use crate::charts::{chart, check, moment, own, right_after, Compared, View};
use crate::count;
use crate::reply::{Reply, Value};
use crate::script::Call;
use crate::serial::{self, committed_edits, runs};
use crate::store::{Store, LAST};

/// The calls of a list of "line = answer" on a fresh store, with their replies, and the store after them.
fn played(list: &str) -> (Vec<(Call, Reply)>, Store) {
    let list = format!("F 3 3 8 16 16 = ok\n{list}");
    expect(&list);
    let mut session = Session::new(false);
    let lines = list.lines().filter_map(|pair| pair.split_once(" = "));
    let mut calls = vec![];
    for (line, _) in lines {
        let call = script::parse(line.trim().as_bytes()).expect("a call");
        calls.push((call, session.call(call).expect("a reply")));
    }
    (calls.split_off(1), session.store.expect("a store"))
}

fn history(list: &str) -> Vec<(Call, Reply)> {
    played(list).0
}

/// The view of a record at a point when so many edits had committed, and its reply.
fn view(commits: usize, place: (u64, u64), reply: (u64, Value)) -> View {
    let ((record, point), (version, value)) = (place, reply);
    View {
        commits,
        record,
        point,
        version,
        value,
    }
}

/// Checks that the views are reported, with these words.
fn wrong(list: &[(Call, Reply)], views: &[View], words: &str) {
    let message = check(list, views).expect_err("a wrong view");
    assert!(message.contains(words), "{message}");
}

/// An edit with this handle writes the record and commits at the point.
fn saves(handle: u64, record: u64, point: u64, value: u64) -> String {
    format!(
        "B = edit {handle}
        L {handle} {record} {point} {point} A = locked {point} {point}
        W {handle} {record} {value} = ok
        C {handle} {point} S = commit {point}
        "
    )
}

/// Record 0 is 7 from 5 on, and then 8 from 9 on.
fn two_commits() -> String {
    saves(65, 0, 5, 7) + &saves(129, 0, 9, 8)
}

#[test]
fn a_view_has_exactly_the_edits_at_or_below_its_point() {
    let list = history(&two_commits());
    let right = [
        view(0, (0, 9), (0, None)),
        view(1, (0, 9), (5, Some(7))),
        view(2, (0, 4), (0, None)),
        view(2, (0, 5), (5, Some(7))),
        view(2, (0, 8), (5, Some(7))),
        view(2, (0, 9), (9, Some(8))),
        view(2, (0, LAST), (9, Some(8))),
        view(2, (1, LAST), (0, None)),
    ];
    assert_eq!(check(&list, &right).map(|c| c.moment), Ok(8));
    for view in [
        // The edits below the point only.
        view(2, (0, 5), (0, None)),
        view(2, (0, 9), (5, Some(7))),
        // An edit above the point, and one that committed later.
        view(2, (0, 8), (9, Some(8))),
        view(1, (0, 9), (9, Some(8))),
        // The point asked for, and none.
        view(2, (0, 8), (8, Some(7))),
        view(2, (0, 9), (0, Some(8))),
        // 0 for never written, and the value of another record.
        view(2, (0, 4), (0, Some(0))),
        view(2, (1, 9), (9, Some(8))),
    ] {
        wrong(&list, &[view], "not the moment");
    }
}

#[test]
fn a_view_among_the_calls_has_the_edits_committed_by_then() {
    let mut list = history(&format!("V 0 9 = at 0 -\n{} V 0 9 = at 9 8", two_commits()));
    assert_eq!(check(&list, &[]).map(|c| c.moment), Ok(2));
    list[0].1 = Reply::At(9, Some(8));
    wrong(&list, &[], "not the moment");
}

#[test]
fn edits_at_one_point_are_in_a_moment_together() {
    let list = history(
        "
        B = edit 65
        B = edit 66
        L 65 0 5 5 A = locked 5 5
        W 65 0 1 = ok
        L 66 1 5 5 A = locked 5 5
        W 66 1 2 = ok
        C 65 5 S = commit 5
        C 66 5 S = commit 5
    ",
    );
    let (first, second) = (view(2, (0, 5), (5, Some(1))), view(2, (1, 5), (5, Some(2))));
    // Two views, each in both orders of the two edits.
    assert_eq!(check(&list, &[first, second]).map(|c| c.moment), Ok(4));
    assert_eq!(
        check(&list, &[view(1, (1, 5), (0, None))]).map(|c| c.moment),
        Ok(1)
    );
    // The tie cut in two, on either side.
    wrong(
        &list,
        &[first, view(2, (1, 5), (0, None))],
        "not the moment",
    );
    wrong(
        &list,
        &[view(2, (0, 5), (0, None)), second],
        "not the moment",
    );
}

#[test]
fn a_chart_stays_until_a_commit_at_or_below_it() {
    // Then record 1 is written at 6, and record 0 at 6.
    let list = history(&(two_commits() + &saves(193, 1, 6, 1) + &saves(257, 0, 6, 9)));
    let shown = |commits, version, value| view(commits, (0, 7), (version, Some(value)));
    let [first, second, third] = [1, 2, 3].map(|commits| shown(commits, 5, 7));
    let fourth = shown(4, 6, 9);
    let compared = check(&list, &[first, second, third, fourth]).expect("right views");
    assert_eq!(compared.again, 2);
    for changed in [shown(2, 4, 7), shown(2, 5, 8), shown(2, 0, 7)] {
        wrong(&list, &[first, changed], "did not stay");
    }
    wrong(&list, &[first, shown(3, 6, 9)], "did not stay");
    wrong(&list, &[first, shown(1, 6, 9)], "did not stay");
    wrong(&list, &[third, shown(4, 5, 7)], "not the moment");
}

#[test]
fn a_view_is_still_the_plain_value_where_a_purge_refuses_it() {
    let list = history(&format!(
        "{}
        V 0 8 = at 5 7
        V 0 9 = at 5 7
        {}
        P 0 9 = purged 1 2
        V 0 8 = no 7
    ",
        saves(65, 0, 5, 7),
        saves(129, 0, 9, 8)
    ));
    // The view at 8 is compared with the plain run of both edits, the one at 9 is not: it changes.
    let compared = check(&list, &[]).expect("right views");
    assert_eq!(
        (compared.moment, compared.lasting, compared.again),
        (2, 1, 0)
    );
    let edits = committed_edits(&list);
    let [run] = &runs(&edits).expect("serial")[..] else {
        panic!("two points have one order");
    };
    assert_eq!(moment(run, &view(1, (0, 8), (5, Some(7)))), Ok(()));
    assert!(moment(run, &view(1, (0, 9), (5, Some(7)))).is_err());
}

/// An edit reads record 0 and writes record 1 at 9; another writes record 2 at 9.
const TIE: &str = "
    B = edit 65
    L 65 0 5 5 A = locked 5 5
    W 65 0 7 = ok
    C 65 5 S = commit 5
    B = edit 129
    B = edit 66
    R 129 0 9 A = read 5 9 7
    L 129 1 9 9 A = locked 9 9
    W 129 1 4 = ok
    W 129 1 3 = ok
    R 129 1 9 A = own 3
    L 66 2 9 9 A = locked 9 9
    W 66 2 6 = ok
    C 129 9 S = commit 9
    C 66 9 K = commit 9
";

#[test]
fn a_chart_at_a_commit_point_shows_what_the_edit_read_and_wrote() {
    let list = history(TIE);
    let at_9 = |record, reply| view(3, (record, 9), reply);
    let chart = [
        at_9(0, (5, Some(7))),
        at_9(1, (9, Some(3))),
        at_9(2, (9, Some(6))),
    ];
    let compared = check(&list, &chart).expect("right views");
    // Three records, each touched by one edit, in two orders.
    assert_eq!((compared.own, compared.own_in_tie), (6, 6));
    let edits = committed_edits(&list);
    for run in &runs(&edits).expect("serial") {
        for wrong in [
            at_9(0, (0, None)),
            at_9(1, (9, Some(4))),
            at_9(1, (0, None)),
            at_9(2, (0, None)),
        ] {
            let message = own(run, &wrong, &mut Compared::default()).expect_err("a wrong view");
            assert!(message.contains("wrote or read"), "{message}");
        }
    }
}

#[test]
fn a_tie_may_change_a_record_that_the_edit_did_not_touch() {
    let list = history(TIE);
    let edits = committed_edits(&list);
    let runs = runs(&edits).expect("serial");
    assert_eq!(runs.len(), 2);
    // In how many orders the plain run has this value right after the edit that wrote `written`.
    let holds = |written: u64, record: u64, version: u64, value: u64| {
        let shown = view(3, (record, 9), (version, Some(value)));
        let right = runs.iter().filter(|run| {
            let mut order = run.order.iter();
            let index = order.position(|edit| edit.wrote(written).is_some());
            right_after(run, index.expect("an edit"), &shown).is_ok()
        });
        right.count()
    };
    assert_eq!(
        [holds(1, 0, 5, 7), holds(1, 1, 9, 3), holds(2, 2, 9, 6)],
        [2, 2, 2]
    );
    // Neither read nor wrote: it fails where the edit comes first.
    assert_eq!([holds(1, 2, 9, 6), holds(2, 1, 9, 3)], [1, 1]);
}

#[test]
fn a_view_is_granted_unless_a_purge_was_above_its_point() {
    let commits = two_commits();
    let purged = format!("{commits} P 0 9 = purged 1 2");
    for (list, floor, granted) in [
        // At 0, 4, 5, 6, 8, 9, 10, LAST and the floor; below the purge only from the floor on.
        (&commits, 0, Some(9)),
        (&commits, 5, None),
        (&purged, 9, Some(4)),
        (&purged, 10, None),
    ] {
        let (list, mut store) = played(list);
        store.records[0].floor = floor;
        let views = chart(&list, &store).ok();
        assert_eq!(views.map(|views| views.len()), granted, "floor {floor}");
    }
}

#[test]
fn charts_are_taken_after_commits_now_and_then_and_at_the_end() {
    let moments = |lines: &str| {
        let mut session = Session::new(true);
        for line in lines.lines().map(str::trim) {
            session.line(line.as_bytes()).expect("sound");
        }
        session.finish().expect("the plain run");
        session.compared.moment
    };
    // Record 0 at 0, at LAST and at its floor, at the end.
    let named = "F 1 1 4 8 8\nB\nW 65 0 1";
    assert_eq!(moments(named), 3);
    assert_eq!(moments("F 1 1 4 8 8\nB"), 0);
    // Also after the eighth call.
    assert_eq!(moments(&format!("{named}{}", "\nB".repeat(6))), 6);
    // After the commit and at the end, at 1, 2 and 3 too.
    assert_eq!(moments(&format!("{named}\nL 65 0 2 2 A\nC 65 2 S")), 12);
    // A Format ends the history before it.
    assert_eq!(moments(&format!("{named}\n{named}")), 6);
}

#[test]
fn a_plain_run_reports_a_wrong_read_and_a_wrong_end() {
    let mut list = history(TIE);
    let newest = [Some(7), Some(3), Some(6)];
    assert_eq!(serial::check(&list, &newest), Ok(()));
    for wrong in [[None, Some(3), Some(6)], [Some(7), Some(4), Some(6)]] {
        assert!(serial::check(&list, &wrong).is_err());
    }
    let read = list
        .iter()
        .position(|(_, reply)| matches!(reply, Reply::Read(..)));
    list[read.expect("a read")].1 = Reply::Read(5, 9, Some(8));
    let message = serial::check(&list, &newest).expect_err("a wrong read");
    assert!(message.contains("does not give"), "{message}");
}

#[test]
fn few_comparisons_are_not_enough() {
    let few = count::count(1, 20, true).expect("sound and serial");
    let message = few.compared_enough().expect_err("too few");
    assert!(message.contains("compared only"), "{message}");
}
