//! The form of lines, bytes in and out, and what the generator reaches.

use super::*;
use crate::count;

#[test]
fn lines_of_another_form() {
    for line in [
        "",
        " ",
        "B ",
        " B",
        "b",
        "B 1",
        "F 2 2 4 8",
        "F 2 2 4 8 8 8",
        "F  2 2 4 8 8",
        "W 65 0",
        "W 65 0 +1",
        "W 65 0 -1",
        "W 65 0 1_0",
        "W 65 0 0x1",
        "W 65 0 18446744073709551616",
        "W 65 0 1\r",
        "W\t65 0 1",
        "L 65 0 1 1",
        "L 65 0 1 1 S",
        "R 65 0 1 K",
        "C 65 A S",
        "C 65 e S",
        "C 65 E A",
        "C 65 E",
        "A 65 P",
        "A 65",
        "S 65 S",
        "P 0",
        "V 0 0 A",
        "X",
        "W 65  1",
        "W 18446744073709551616 9 1",
        "BB",
        "?",
        "F2 2 4 8 8",
    ] {
        let input = format!("{line}\n");
        assert_eq!(run(input.as_bytes()), "?\n", "{line:?}");
    }
    assert_eq!(run(b"\xff\xfe 1\n"), "?\n");
}

#[test]
fn bytes_in_and_out() {
    assert_eq!(run(b""), "");
    assert_eq!(run(b"B"), "no 1\n");
    assert_eq!(run(b"B\n"), "no 1\n");
    assert_eq!(run(b"B\n\n"), "no 1\n?\n");
    assert_eq!(
        run(b"F 002 2 4 8 8\nB\nW 065 00 7\nR 65 0 1 A\n"),
        "ok\nedit 65\nok\nown 7\n"
    );
    let padded = |length: usize| format!("F {}1 1 1 1 1", "0".repeat(length - 11));
    assert_eq!(run(padded(200).as_bytes()), "ok\n");
    assert_eq!(run(padded(201).as_bytes()), "?\n");
    assert_eq!(run(padded(300_000).as_bytes()), "?\n");
    let many = "B\n".repeat(200_000);
    assert_eq!(run(many.as_bytes()), "no 1\n".repeat(200_000));
}

/// The ends that the common set is searched at miss no point.

#[test]
fn every_reply_is_reached_often() {
    let counted = count::count(200, 300, true).expect("sound and serial");
    let replies = "? ok edit locked read own again commit nopoint purged at";
    let refusals = (1..=16).map(|number| format!("no {number:>2}"));
    for kind in replies.split(' ').map(str::to_string).chain(refusals) {
        let reached = counted.kinds.get(&kind).copied().unwrap_or_default();
        assert!(reached >= 50, "{kind}: {reached}");
    }
    assert_eq!(counted.compared_enough(), Ok(()));
    // Each call with each reply that can concern it.
    for (letter, replies, refusals) in [
        ("F", "ok", "16"),
        ("B", "edit", "1 13"),
        ("W", "ok", "1 2 3 5 10"),
        ("L", "locked", "1 2 3 5 6 7 8 9 11"),
        ("R", "read own again", "1 2 3 5 6 7 8 9 10 11"),
        ("C", "commit nopoint", "1 2 3 6 12 14"),
        ("A", "ok", "1 2 3"),
        ("S", "ok", "1 2 4"),
        ("P", "purged", "1 5 6 15"),
        ("V", "at", "1 5 6 7"),
    ] {
        let mut expected: Vec<String> = vec![];
        expected.extend(replies.split(' ').map(|r| format!("{letter} {r}")));
        expected.extend(refusals.split(' ').map(|n| format!("{letter} no {n:>2}")));
        let of_letter = |kind: &&String| kind.starts_with(letter);
        let mut reached: Vec<String> = counted
            .by_letter
            .keys()
            .filter(of_letter)
            .cloned()
            .collect();
        expected.sort();
        reached.sort();
        assert_eq!(reached, expected);
    }
}
