//! How often each kind of change and each reply came, and that none was missed.

use damaged::change::{Change, Kind, ALL};
use model::count;
use model::reply::Reply;
use model::script::{show, Call};
use std::collections::BTreeMap;

#[derive(Default)]
pub struct Counted {
    pub stores: u64,
    /// By how many words are changed: not sound, sound.
    by_changes: BTreeMap<usize, [u64; 2]>,
    /// Stores with just one change, by its kind: not sound, sound.
    by_kind: BTreeMap<Kind, [u64; 2]>,
    /// By the letter of the call and its reply; those in a session after `in `.
    replies: BTreeMap<String, u64>,
}

fn letter(call: Call) -> char {
    match call {
        Call::Format(_) => 'F',
        Call::Begin => 'B',
        Call::Write(..) => 'W',
        Call::Lock(..) => 'L',
        Call::Read(..) => 'R',
        Call::Commit(..) => 'C',
        Call::Abort(..) => 'A',
        Call::Settle(_) => 'S',
        Call::Purge(..) => 'P',
        Call::View(..) => 'V',
    }
}

impl Counted {
    pub fn store(&mut self, changed: usize, changes: &[Change], sound: bool) {
        self.stores += 1;
        self.by_changes.entry(changed).or_default()[usize::from(sound)] += 1;
        if let [change] = changes {
            self.by_kind.entry(change.kind).or_default()[usize::from(sound)] += 1;
        }
    }

    pub fn reply(&mut self, call: Call, reply: Reply) {
        self.count("", call, reply);
    }

    pub fn reply_inside(&mut self, call: Call, reply: Reply) {
        self.count("in ", call, reply);
    }

    fn count(&mut self, place: &str, call: Call, reply: Reply) {
        let kind = format!("{place}{} {}", letter(call), count::kind(&show(reply)));
        *self.replies.entry(kind).or_default() += 1;
    }

    pub fn print(&self) {
        println!("{:>9}  stores", self.stores);
        for (changes, [not, sound]) in &self.by_changes {
            println!("{:>9}  with {changes} words changed, {sound} of them sound", not + sound);
        }
        for (kind, [not, sound]) in &self.by_kind {
            println!("{:>9}  with one change, {kind:?}, {sound} of them sound", not + sound);
        }
        for (kind, count) in &self.replies {
            println!("{count:>9}  {kind}");
        }
    }

    /// Every kind of change came, and damaged a store; every call was refused with 1 and was granted, and in a session
    /// was granted.
    pub fn reached(&self) -> Result<(), String> {
        let least = self.stores / 1_000;
        for kind in ALL {
            let [not, sound] = self.by_kind.get(&kind).copied().unwrap_or_default();
            if not + sound < least || kind != Kind::Value && not == 0 {
                return Err(format!("{kind:?} came too seldom"));
            }
        }
        let unsound = "BWLRCASPV".chars().map(|letter| format!("{letter} no  1"));
        let granted = GRANTED.iter().flat_map(|reply| [reply.to_string(), format!("in {reply}")]);
        for wanted in unsound.chain(granted) {
            if self.replies.get(&wanted).copied().unwrap_or_default() < least {
                return Err(format!("the reply {wanted} came too seldom"));
            }
        }
        Ok(())
    }
}

const GRANTED: [&str; 12] = [
    "B edit",
    "W ok",
    "L locked",
    "R read",
    "R own",
    "R again",
    "C commit",
    "C nopoint",
    "A ok",
    "S ok",
    "P purged",
    "V at",
];
