//! The session, the further lines, the misreadings, and calls that meet.

use super::*;
use crate::generate;
use crate::record::{Lock, Mode, Version};
use crate::sound;
use crate::store::LAST;

#[test]
fn session() {
    expect(SESSION);
}

#[test]
fn further_lines() {
    expect(&format!("F 2 2 4 8 8 = ok\n B = edit 65\n C 65 E S = commit 1\n B = edit 129\n C 129 L S = commit {LAST}"));
    expect("F 2 2 4 8 8 = ok\n B = edit 65\n W 65 0 1 = ok\n C 65 E S = nopoint");
    expect("F 2 2 4 8 8 = ok\n B = edit 65\n R 65 0 1 A = read 0 1 -");
    expect("F 2 2 4 8 8 = ok\n V 0 0 = at 0 -");
    expect(&format!("{SESSION} V 0 6 = no 7"));
}

#[test]
fn misreading_1_second_read_picks_a_newer_version() {
    expect(
        "
        F 2 2 4 8 8 = ok
        B = edit 65
        R 65 0 3 A = read 0 3 -
        B = edit 66
        L 66 0 5 5 A = locked 5 5
        W 66 0 7 = ok
        C 66 5 S = commit 5
        R 65 0 9 A = again 0 -
        R 65 0 9 P = again 0 -
        C 65 L S = commit 3
    ",
    );
}

#[test]
fn misreading_2_settling_drops_points_under_an_own_write_lock() {
    expect(
        "
        F 2 2 4 8 8 = ok
        B = edit 65
        R 65 0 3 A = read 0 3 -
        L 65 0 4 8 A = locked 4 8
        C 65 8 S = commit 8
        B = edit 129
        L 129 0 6 6 A = no 9
        L 129 0 8 8 A = no 9
        L 129 0 9 9 A = locked 9 9
    ",
    );
    // A write lock that stands apart from the read lock is not in the common set.
    expect(
        "
        F 2 2 4 8 8 = ok
        B = edit 65
        R 65 0 3 A = read 0 3 -
        L 65 0 5 8 A = locked 5 8
        C 65 8 S = no 14
        W 65 0 1 = ok
        C 65 8 S = nopoint
    ",
    );
}

#[test]
fn misreading_3_read_gives_the_version_at_m() {
    expect(
        "
        F 2 2 4 8 8 = ok
        B = edit 65
        L 65 0 7 7 A = locked 7 7
        W 65 0 1 = ok
        C 65 7 S = commit 7
        B = edit 129
        R 129 0 7 A = no 9
        R 129 0 7 P = read 0 6 -
        B = edit 66
        R 66 0 8 A = read 7 8 1
        R 66 0 9 A = again 7 1
    ",
    );
}

#[test]
fn misreading_4_purging_forgets_the_floor() {
    expect(&format!(
        "{SESSION}
        L 129 0 6 6 A = no 7
        L 129 0 7 7 P = no 7
        L 129 0 6 9 P = no 7
        B = edit 130
        R 130 0 7 A = no 7
        R 130 0 8 A = read 7 8 501
    "
    ));
}

#[test]
fn misreading_5_commit_saves_some_of_its_records() {
    expect(&format!(
        "{NO_VERSION_ROW}
        V 0 5 = at 0 -
        V 1 5 = at 0 -
        R 65 0 9 A = own 1
        A 65 S = ok
        V 0 5 = at 0 -
    "
    ));
}

#[test]
fn settling_and_purging() {
    // Kept, then settled: what commit S leaves. A record read and written leaves two rows.
    expect(
        "
        F 2 2 4 8 8 = ok
        B = edit 65
        R 65 0 3 A = read 0 3 -
        L 65 0 2 9 A = locked 2 9
        L 65 1 2 9 A = locked 2 9
        W 65 0 4 = ok
        C 65 4 K = commit 4
        P 0 4 = no 15
        S 65 = ok
        P 0 3 = purged 0 0
        P 0 4 = purged 0 2
        P 0 4 = purged 0 0
        V 0 4 = at 4 4
        V 0 3 = no 7
    ",
    );
    // A settled read lock above the new floor stays, one at or below it goes.
    expect(
        "
        F 2 2 4 8 8 = ok
        B = edit 65
        L 65 0 2 2 A = locked 2 2
        W 65 0 1 = ok
        C 65 E S = commit 2
        B = edit 129
        R 129 0 6 A = read 2 6 1
        L 129 0 4 4 A = locked 4 4
        C 129 6 S = commit 6
        B = edit 193
        L 193 0 3 6 P = no 9
        L 193 0 7 7 P = locked 7 7
        W 193 0 9 = ok
        C 193 L S = commit 7
        P 0 6 = purged 0 1
        P 0 7 = purged 1 2
    ",
    );
}

/// A read lock goes over a version, as a joined one can, and the row of another is wholly above it.
#[test]
fn purging_cuts_a_settled_lock() {
    let mut session = Session::new(true);
    session.line(b"F 1 1 1 3 1").expect("ok");
    let store = session.store.as_mut().expect("a store");
    store.records[0]
        .versions
        .push(Version { point: 5, value: 8 });
    for (low, high, mode) in [
        (1, 9, Mode::Read),
        (5, 5, Mode::Write),
        (11, 12, Mode::Read),
    ] {
        let owner = 0;
        store.records[0].locks.push(Lock {
            low,
            high,
            mode,
            owner,
        });
    }
    sound::check(store).expect("sound");
    assert_eq!(session.line(b"P 0 9").expect("sound"), "purged 0 1");
    let locks = &session.store.as_ref().expect("a store").records[0].locks;
    let ends: Vec<(u64, u64)> = locks.iter().map(|l| (l.low, l.high)).collect();
    assert_eq!(ends, [(6, 9), (11, 12)]);
}

#[test]
fn handles_come_round() {
    let mut session = Session::new(false);
    let mut say = |line: &str| session.line(line.as_bytes()).expect("an answer");
    assert_eq!(say("F 1 1 1 1 1"), "ok");
    for generation in 1..=65_536_u64 {
        let handle = generation % 65_536 * 64 + 1;
        assert_eq!(say("B"), format!("edit {handle}"));
        assert_eq!(say(&format!("A {handle} S")), "ok");
    }
    assert_eq!(say("B"), "edit 65");
    assert_eq!(say("W 1 0 0"), "no 2");
}

#[test]
fn common_set_point_by_point() {
    for seed in 1..=60 {
        let mut session = Session::new(true);
        for line in generate::script(seed, 120, false) {
            session.line(&line).expect("sound");
            let Some(store) = &session.store else {
                continue;
            };
            let points: Vec<u64> = (0..=60).chain(LAST - 60..=LAST).collect();
            for slot in 1..=store.counts.edits.min(4) {
                let earliest = store.earliest(slot);
                let latest = store.latest(slot);
                for &point in &points {
                    let inside = earliest <= Some(point) && Some(point) <= latest;
                    let common = store.in_common(slot, point);
                    assert!(!common || earliest.is_some() && inside);
                }
                for end in earliest.iter().chain(&latest) {
                    assert!(store.in_common(slot, *end));
                }
            }
        }
        session.finish().expect("the plain run");
    }
}
