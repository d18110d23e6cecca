//! The script program: bytes in, one line out for each line in.

use crate::charts::{self, Compared, View};
use crate::joined::Joined;
use crate::record::Table;
use crate::reply::{Answer, At, End, Refusal, Reply, Value, Want};
use crate::serial;
use crate::sound;
use crate::store::{Counts, Store, LAST};
use std::io::{self, Read, Write};

/// The program lays out no more words than this.
const MOST_WORDS: u64 = 8_000;
/// A line has no more bytes than this.
const MOST_BYTES: usize = 200;

#[derive(Clone, Copy, Debug, PartialEq, Eq)]
pub enum Call {
    Format(Counts),
    Begin,
    Write(u64, u64, u64),
    Lock(u64, u64, u64, u64, Want),
    Read(u64, u64, u64, Want),
    Commit(u64, At, End),
    Abort(u64, End),
    Settle(u64),
    Purge(u64, u64),
    View(u64, u64),
}

/// A number in decimal: one digit or more, leading zeros allowed, at most 2^64 - 1.
fn number(word: &[u8]) -> Option<u64> {
    if word.is_empty() {
        return None;
    }
    let mut total: u64 = 0;
    for byte in word {
        if !byte.is_ascii_digit() {
            return None;
        }
        let digit = u64::from(byte - b'0');
        total = total.checked_mul(10)?.checked_add(digit)?;
    }
    Some(total)
}

fn want(word: &[u8]) -> Option<Want> {
    match word {
        b"A" => Some(Want::All),
        b"P" => Some(Want::Part),
        _ => None,
    }
}

fn end(word: &[u8]) -> Option<End> {
    match word {
        b"S" => Some(End::Settle),
        b"K" => Some(End::Keep),
        _ => None,
    }
}

fn commit_at(word: &[u8]) -> Option<At> {
    match word {
        b"E" => Some(At::Earliest),
        b"L" => Some(At::Latest),
        _ => Some(At::Point(number(word)?)),
    }
}

/// The call of a line without its newline; `None` if the line is of another form.
pub fn parse(line: &[u8]) -> Option<Call> {
    if line.len() > MOST_BYTES {
        return None;
    }
    let words: Vec<&[u8]> = line.split(|&b| b == b' ').collect();
    let call = match words[..] {
        [b"F", r, e, v, l, a] => Call::Format(Counts {
            records: number(r)?,
            edits: number(e)?,
            versions: number(v)?,
            locks: number(l)?,
            accesses: number(a)?,
        }),
        [b"B"] => Call::Begin,
        [b"W", h, r, v] => Call::Write(number(h)?, number(r)?, number(v)?),
        [b"L", h, r, low, high, f] => Call::Lock(
            number(h)?,
            number(r)?,
            number(low)?,
            number(high)?,
            want(f)?,
        ),
        [b"R", h, r, m, f] => Call::Read(number(h)?, number(r)?, number(m)?, want(f)?),
        [b"C", h, at, f] => Call::Commit(number(h)?, commit_at(at)?, end(f)?),
        [b"A", h, f] => Call::Abort(number(h)?, end(f)?),
        [b"S", h] => Call::Settle(number(h)?),
        [b"P", r, b] => Call::Purge(number(r)?, number(b)?),
        [b"V", r, p] => Call::View(number(r)?, number(p)?),
        _ => return None,
    };
    Some(call)
}

fn show_value(value: Value) -> String {
    value.map_or("-".to_string(), |v| v.to_string())
}

pub fn show(reply: Reply) -> String {
    match reply {
        Reply::Ok => "ok".to_string(),
        Reply::Edit(handle) => format!("edit {handle}"),
        Reply::Locked(low, high) => format!("locked {low} {high}"),
        Reply::Read(tr, end, value) => format!("read {tr} {end} {}", show_value(value)),
        Reply::Own(value) => format!("own {value}"),
        Reply::Again(tr, value) => format!("again {tr} {}", show_value(value)),
        Reply::Commit(point) => format!("commit {point}"),
        Reply::NoPoint => "nopoint".to_string(),
        Reply::Purged(versions, locks) => format!("purged {versions} {locks}"),
        Reply::At(point, value) => format!("at {point} {}", show_value(value)),
        Reply::No(Refusal::Held(handle)) => format!("no 8 {handle}"),
        Reply::No(refusal) => format!("no {}", refusal.number()),
    }
}

/// A run of the script program; with `check` it also judges every step.
pub struct Session {
    pub store: Option<Store>,
    /// The lock rows of the stores that a Format makes.
    table: Table,
    check: bool,
    /// The calls since the last Format that succeeded. Only kept for the check.
    list: Vec<(Call, Reply)>,
    /// Views made between these calls. Only kept for the check.
    charts: Vec<View>,
    /// How often the check has compared charts.
    pub compared: Compared,
    /// Which joins of lock rows the check has met.
    pub joined: Joined,
}

impl Session {
    pub fn new(check: bool) -> Session {
        Session::with(Table::Joined, check)
    }

    /// A run on stores whose lock rows are of this form.
    pub fn with(table: Table, check: bool) -> Session {
        Session {
            store: None,
            table,
            check,
            list: vec![],
            charts: vec![],
            compared: Compared::default(),
            joined: Joined::default(),
        }
    }

    /// Answers a line. The error says which check failed.
    pub fn line(&mut self, line: &[u8]) -> Result<String, String> {
        match parse(line) {
            None => Ok("?".to_string()),
            Some(call) => Ok(show(self.call(call)?)),
        }
    }

    pub fn call(&mut self, call: Call) -> Result<Reply, String> {
        let before = if self.check { self.store.clone() } else { None };
        let reply = self.obey(call).unwrap_or_else(Reply::No);
        if self.check {
            self.judge(call, reply, before)?;
        }
        Ok(reply)
    }

    fn obey(&mut self, call: Call) -> Answer {
        match (call, &mut self.store) {
            (Call::Format(counts), place) => {
                let fresh = Store::format_as(self.table, counts)?;
                if counts.words() > MOST_WORDS {
                    return Err(Refusal::BadFormat);
                }
                *place = Some(fresh);
                Ok(Reply::Ok)
            }
            (_, None) => Err(Refusal::NotSound),
            (Call::Begin, Some(store)) => store.begin(),
            (Call::Write(handle, record, value), Some(store)) => store.write(handle, record, value),
            (Call::Lock(handle, record, low, high, want), Some(store)) => {
                store.lock(handle, record, low, high, want)
            }
            (Call::Read(handle, record, m, want), Some(store)) => {
                store.read(handle, record, m, want)
            }
            (Call::Commit(handle, at, end), Some(store)) => store.commit(handle, at, end),
            (Call::Abort(handle, end), Some(store)) => store.abort(handle, end),
            (Call::Settle(handle), Some(store)) => store.settle(handle),
            (Call::Purge(record, b), Some(store)) => store.purge(record, b),
            (Call::View(record, point), Some(store)) => store.view(record, point),
        }
    }

    /// Checks one step: the store is sound, and a refusal or an answer that only looks left it
    /// alone. A Format that succeeded ends the history before it.
    fn judge(&mut self, call: Call, reply: Reply, before: Option<Store>) -> Result<(), String> {
        let only_looks = matches!(
            reply,
            Reply::No(_) | Reply::Own(_) | Reply::Again(..) | Reply::At(..)
        );
        if only_looks && self.store != before {
            return Err(format!("{call:?} {reply:?} changed the store"));
        }
        if let Some(store) = &self.store {
            sound::check(store).map_err(|e| format!("{call:?} {reply:?}: {e}"))?;
        }
        if matches!(call, Call::Format(_)) && reply == Reply::Ok {
            self.judge_history(before)?;
            self.list.clear();
            self.charts.clear();
        } else {
            if let (Some(before), Some(after)) = (&before, &self.store) {
                self.joined.step(before, after);
            }
            self.list.push((call, reply));
            if let (Some(store), true) = (&self.store, charts::is_due(&self.list)) {
                self.charts.extend(charts::chart(&self.list, store)?);
            }
        }
        Ok(())
    }

    fn judge_history(&mut self, store: Option<Store>) -> Result<(), String> {
        let Some(store) = store else { return Ok(()) };
        let mut newest = vec![];
        for record in 0..store.counts.records {
            match store.view(record, LAST) {
                Ok(Reply::At(_, value)) => newest.push(value),
                other => return Err(format!("view of {record} at LAST gives {other:?}")),
            }
        }
        serial::check(&self.list, &newest)?;
        self.charts.extend(charts::chart(&self.list, &store)?);
        let compared = charts::check(&self.list, &self.charts)?;
        self.compared.add(compared);
        Ok(())
    }

    /// The end of the input ends the last history.
    pub fn finish(&mut self) -> Result<(), String> {
        if self.check {
            self.judge_history(self.store.clone())?;
        }
        Ok(())
    }
}

/// Cuts blocks of bytes into lines. Of a line too long only its first bytes are kept.
struct Cutter {
    line: Vec<u8>,
    begun: bool,
}

impl Cutter {
    fn feed(
        &mut self,
        block: &[u8],
        mut each: impl FnMut(&[u8]) -> Result<(), String>,
    ) -> Result<(), String> {
        for &byte in block {
            if byte == b'\n' {
                each(&self.line)?;
                self.line.clear();
                self.begun = false;
            } else {
                self.begun = true;
                if self.line.len() <= MOST_BYTES {
                    self.line.push(byte);
                }
            }
        }
        Ok(())
    }
}

/// Runs a script from the input; answers go out once for each block read.
pub fn run(input: &mut dyn Read, output: &mut dyn Write, check: bool) -> Result<(), String> {
    let failed = |e: io::Error| e.to_string();
    let mut session = Session::new(check);
    let mut cutter = Cutter {
        line: vec![],
        begun: false,
    };
    let mut block = vec![0; 1 << 16];
    let mut count = 0;
    loop {
        let length = match input.read(&mut block) {
            Err(e) if e.kind() == io::ErrorKind::Interrupted => continue,
            other => other.map_err(failed)?,
        };
        let mut answers = vec![];
        let mut each = |line: &[u8]| {
            count += 1;
            let answer = session
                .line(line)
                .map_err(|e| format!("line {count}: {e}"))?;
            answers.extend_from_slice(answer.as_bytes());
            answers.push(b'\n');
            Ok(())
        };
        let fed = if length > 0 {
            cutter.feed(&block[..length], &mut each)
        } else if cutter.begun {
            // A last line without newline.
            each(&cutter.line)
        } else {
            Ok(())
        };
        output.write_all(&answers).map_err(failed)?;
        output.flush().map_err(failed)?;
        fed?;
        if length == 0 {
            return session.finish();
        }
    }
}
