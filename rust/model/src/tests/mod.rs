//! Each list has script lines on the left of `=` and answers on the right. `refusals` has the sixteen numbers, `calls`
//! the session, the misreadings and the calls together, `charts` what views promise, `desk` planning desks, `scripts`
//! the form of lines and the generator, `tables` the joined lock rows beside those of document 01. `words` has lent
//! words, laid out by hand or from a store (`layout`), and `damages` damaged ones.

mod calls;
mod charts;
mod damages;
mod desk;
mod layout;
mod refusals;
mod scripts;
mod tables;
mod words;

use crate::script::{self, Session};

/// Answers the lines of a list of "line = answer", and compares.
fn answers(list: &str, mut line: impl FnMut(&str) -> String) {
    for (i, pair) in list
        .lines()
        .map(str::trim)
        .filter(|l| !l.is_empty())
        .enumerate()
    {
        let (left, answer) = pair.split_once(" = ").expect("a pair");
        assert_eq!(line(left), answer, "pair {}: {left}", i + 1);
    }
}

/// Runs a list of "line = answer" with the checks on.
fn expect(list: &str) {
    let mut session = Session::new(true);
    answers(list, |line| session.line(line.as_bytes()).expect("sound"));
    session.finish().expect("the plain run");
}

/// Runs bytes through the script program.
fn run(input: &[u8]) -> String {
    let mut output = vec![];
    script::run(&mut &input[..], &mut output, true).expect("a run");
    String::from_utf8(output).expect("text")
}

const SESSION: &str = "
    F 2 2 4 8 8 = ok
    B = edit 65
    B = edit 66
    R 65 0 6 A = read 0 6 -
    L 66 0 4 9 P = locked 7 9
    W 66 0 501 = ok
    C 66 E S = commit 7
    C 65 L S = commit 6
    B = edit 129
    R 129 0 9 A = read 7 9 501
    L 129 0 3 3 A = no 9
    P 0 8 = purged 0 2
    R 65 0 6 A = no 2
";

/// A commit of two records where one version row is left.
const NO_VERSION_ROW: &str = "
    F 2 2 1 8 8 = ok
    B = edit 65
    L 65 0 5 5 A = locked 5 5
    L 65 1 5 5 A = locked 5 5
    W 65 0 1 = ok
    W 65 1 2 = ok
    C 65 5 S = no 12
";
