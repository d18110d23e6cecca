//! The table of refusals: each number with its example and more.

use super::*;

#[test]
fn refusal_1_no_store() {
    expect(
        "
        B = no 1
        W 65 0 1 = no 1
        L 65 0 9 4 A = no 1
        R 65 0 0 A = no 1
        C 65 0 S = no 1
        A 65 K = no 1
        S 65 = no 1
        P 0 8 = no 1
        V 0 0 = no 1
        F 0 2 4 8 8 = no 16
        B = no 1
        b = ?
        F 1 1 1 1 1 = ok
        B = edit 65
    ",
    );
}

#[test]
fn refusal_2_no_such_edit() {
    expect("F 2 2 4 8 8 = ok\n R 65 0 6 A = no 2");
    // Slot 0, slot above the count, another generation, and more than 16 bits of generation.
    expect(
        "
        F 2 2 4 8 8 = ok
        B = edit 65
        W 64 0 1 = no 2
        W 67 0 1 = no 2
        W 1 0 1 = no 2
        W 129 0 1 = no 2
        W 4194369 0 1 = no 2
        W 18446744073709551615 0 1 = no 2
        W 65 0 1 = ok
        A 65 S = ok
        S 65 = no 2
    ",
    );
}

#[test]
fn refusal_3_ended() {
    expect(
        "
        F 2 2 4 8 8 = ok
        B = edit 65
        A 65 K = ok
        W 65 0 1 = no 3
        W 65 9 1 = no 3
        A 65 K = no 3
        C 65 E S = no 3
    ",
    );
}

#[test]
fn refusal_4_still_open() {
    expect("F 2 2 4 8 8 = ok\n B = edit 65\n S 65 = no 4");
}

#[test]
fn refusal_5_no_such_record() {
    expect(
        "
        F 2 2 4 8 8 = ok
        B = edit 65
        W 65 2 1 = no 5
        L 65 2 9 4 A = no 5
        R 65 2 0 A = no 5
        P 2 18446744073709551615 = no 5
        V 2 18446744073709551615 = no 5
    ",
    );
}

#[test]
fn refusal_6_bad_point() {
    expect(
        "
        F 2 2 4 8 8 = ok
        B = edit 65
        L 65 0 9 4 A = no 6
        L 65 0 1 70368744177664 A = no 6
        L 65 0 1 70368744177663 A = locked 1 70368744177663
        R 65 0 0 A = no 6
        R 65 0 70368744177664 A = no 6
        C 65 0 S = no 6
        C 65 70368744177664 S = no 6
        P 0 70368744177664 = no 6
        P 0 70368744177663 = purged 0 0
        V 0 70368744177664 = no 6
        W 65 0 18446744073709551615 = ok
        R 65 0 0 A = no 6
        R 65 0 1 A = own 18446744073709551615
    ",
    );
}

#[test]
fn refusal_7_at_floor() {
    expect("F 2 2 4 8 8 = ok\n B = edit 65\n L 65 0 0 3 A = no 7");
    // Reads and views after the session: the floor is 7.
    expect(&format!(
        "{SESSION}
        B = edit 130
        R 130 0 7 P = no 7
        V 0 6 = no 7
        V 0 7 = at 7 501
        L 130 1 1 1 A = locked 1 1
    "
    ));
}

#[test]
fn refusal_8_held() {
    expect(
        "
        F 2 2 4 8 8 = ok
        B = edit 65
        B = edit 66
        R 65 0 6 A = read 0 6 -
        L 66 0 4 4 A = no 8 65
    ",
    );
    // The lowest slot with a lock on the least blocked point, not the lowest of all.
    expect(
        "
        F 2 3 4 8 8 = ok
        B = edit 65
        B = edit 66
        B = edit 67
        R 66 0 4 A = read 0 4 -
        L 65 0 5 5 A = locked 5 5
        L 67 0 4 9 A = no 8 66
        L 67 0 5 9 A = no 8 65
        L 67 0 1 5 P = no 8 66
    ",
    );
}

#[test]
fn refusal_9_frozen() {
    // The last L of the session is in the session. A kept commit is frozen by its version only.
    expect(
        "
        F 2 2 4 8 8 = ok
        B = edit 65
        L 65 0 4 6 A = locked 4 6
        W 65 0 7 = ok
        C 65 5 K = commit 5
        B = edit 66
        L 66 0 5 5 A = no 9
        L 66 0 4 5 A = no 8 65
        R 66 0 5 A = no 8 65
        R 66 0 6 A = no 8 65
        S 65 = ok
        L 66 0 5 5 A = no 9
        R 66 0 5 A = no 9
        L 66 0 4 6 A = no 9
        L 66 0 4 6 P = locked 4 4
    ",
    );
}

#[test]
fn refusal_10_no_access_row() {
    expect(
        "
        F 2 2 4 8 1 = ok
        B = edit 65
        W 65 0 5 = ok
        W 65 1 5 = no 10
        W 65 0 6 = ok
        R 65 1 5 A = no 10
        R 65 0 5 A = own 6
    ",
    );
}

#[test]
fn refusal_11_no_lock_row() {
    expect(
        "
        F 2 2 4 1 8 = ok
        B = edit 65
        L 65 0 1 1 A = locked 1 1
        L 65 0 2 2 A = no 11
        L 65 0 1 1 A = no 11
        R 65 1 5 A = no 11
    ",
    );
    // 10 comes before 11.
    expect(
        "
        F 2 2 4 1 1 = ok
        B = edit 65
        R 65 0 1 A = read 0 1 -
        R 65 1 1 A = no 10
    ",
    );
}

#[test]
fn refusal_12_no_version_row() {
    expect(NO_VERSION_ROW);
}

#[test]
fn refusal_13_no_free_slot() {
    expect("F 2 2 4 8 8 = ok\n B = edit 65\n B = edit 66\n B = no 13");
}

#[test]
fn refusal_14_not_common() {
    expect(
        "
        F 2 2 4 8 8 = ok
        B = edit 65
        R 65 0 6 A = read 0 6 -
        C 65 9 S = no 14
        C 65 6 S = commit 6
    ",
    );
    // `nopoint` comes first, also for a named point.
    expect(
        "
        F 2 2 4 8 8 = ok
        B = edit 65
        W 65 0 6 = ok
        C 65 9 S = nopoint
        S 65 = no 2
    ",
    );
}

#[test]
fn refusal_15_in_use() {
    let before = SESSION.split("C 65 L S").next().expect("the first lines");
    expect(&format!("{before} P 0 8 = no 15"));
}

#[test]
fn refusal_16_format() {
    expect(
        "
        F 2 2 4 8 8 = ok
        B = edit 65
        F 0 2 4 8 8 = no 16
        F 1025 2 4 8 8 = no 16
        F 2 0 4 8 8 = no 16
        F 2 64 4 8 8 = no 16
        F 2 2 4096 8 8 = no 16
        F 2 2 4 4096 8 = no 16
        F 2 2 4 8 4096 = no 16
        F 2 2 4 8 18446744073709551615 = no 16
        F 1024 63 4095 4095 4095 = no 16
        F 2 3 5 8 1583 = no 16
        W 65 0 1 = ok
        F 2 3 1 8 1586 = ok
        W 65 0 1 = no 2
    ",
    );
}
