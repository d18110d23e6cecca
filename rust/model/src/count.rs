//! How often random scripts reach each reply and each join of lock rows, and how often their charts were compared.

use crate::charts::Compared;
use crate::generate;
use crate::joined::Joined;
use crate::script::Session;
use std::collections::BTreeMap;

/// Answers by kind, and by the letter of the call and kind; comparisons of charts and joins, if these were checked.
#[derive(Default)]
pub struct Counted {
    pub kinds: BTreeMap<String, u64>,
    pub by_letter: BTreeMap<String, u64>,
    pub compared: Compared,
    pub joined: Joined,
}

/// How often each comparison of charts has to be made: a check that compared nothing shows nothing.
const ENOUGH: u64 = 1_000;
/// How often each join has to come.
const ENOUGH_JOINS: u64 = 50;

impl Counted {
    pub fn compared_enough(&self) -> Result<(), String> {
        for (kind, count) in self.compared.counts() {
            if count < ENOUGH {
                return Err(format!("compared only {count} times: {kind}"));
            }
        }
        Ok(())
    }

    pub fn joined_enough(&self) -> Result<(), String> {
        for (kind, count) in self.joined.counts() {
            if count < ENOUGH_JOINS {
                return Err(format!("came only {count} times: {kind}"));
            }
        }
        Ok(())
    }
}

/// The kind of an answer: its first word, and the number of a refusal.
pub fn kind(answer: &str) -> String {
    let mut words = answer.split(' ');
    let first = words.next().unwrap_or_default();
    match (first, words.next()) {
        ("no", Some(number)) => format!("no {number:>2}"),
        _ => first.to_string(),
    }
}

/// Runs the scripts of the seeds 1..seeds and counts the answers.
pub fn count(seeds: u64, lines: usize, check: bool) -> Result<Counted, String> {
    let mut counted = Counted::default();
    for seed in 1..=seeds {
        let mut session = Session::new(check);
        for (i, line) in generate::script(seed, lines, false).iter().enumerate() {
            let at = |e| format!("seed {seed} line {}: {e}", i + 1);
            let answer = session.line(line).map_err(at)?;
            let kind = kind(&answer);
            if answer != "?" {
                let letter = char::from(line[0]);
                let by_letter = counted.by_letter.entry(format!("{letter} {kind}"));
                *by_letter.or_default() += 1;
            }
            *counted.kinds.entry(kind).or_default() += 1;
        }
        session.finish().map_err(|e| format!("seed {seed}: {e}"))?;
        counted.compared.add(session.compared);
        counted.joined.add(session.joined);
    }
    Ok(counted)
}
