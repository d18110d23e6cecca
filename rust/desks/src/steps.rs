//! Random steps of a history: calls of desks, calls of the store, and sessions that somebody else puts in place.
//! Stores and intervals are small, so that edits meet and every table runs out.

use crate::calls::{session, Call, Words};
use model::generate::{Generator, LARGE};
use model::script;
use model::store::{Counts, State, Store, LAST};

/// How many sessions there are at once.
pub const PLACES: usize = 5;

#[derive(Clone, Copy, Debug)]
pub enum Step {
    Store(script::Call),
    /// A call of the desk whose session is in this place.
    Desk(usize, Call),
    /// The session in this place becomes these words.
    Put(usize, Words),
}

pub struct Steps {
    pub generator: Generator,
    /// How many calls are the store's, in a hundred.
    stores: u64,
}

impl Steps {
    pub fn new(seed: u64) -> Steps {
        let mut generator = Generator::new(seed, false);
        let stores = generator.random.pick(&[5, 20, 40]);
        Steps { generator, stores }
    }

    pub fn counts(&mut self) -> Counts {
        let random = &mut self.generator.random;
        Counts {
            records: random.from(1, 3),
            edits: random.from(1, 4),
            versions: random.pick(&[1, 4, 8, 16]),
            locks: random.pick(&[3, 10, 20, 40]),
            accesses: random.pick(&[1, 3, 6, 12]),
        }
    }

    /// The next step on a store.
    pub fn next(&mut self, store: &Store, sessions: &[Words; PLACES]) -> Step {
        self.generator.show(store);
        self.generator.perhaps_change_mood();
        // Where no desk can go on, somebody else has to end an edit, or to take one over.
        let stuck = !some_slot_is_free(store) && live(store, sessions).is_empty();
        let random = &mut self.generator.random;
        if random.percent(if stuck { 40 } else { 8 }) {
            return self.put(sessions);
        }
        if random.percent(if stuck { 70 } else { self.stores }) {
            return Step::Store(self.generator.call());
        }
        let (place, call) = self.desk(store, sessions);
        Step::Desk(place, call)
    }

    /// A call of a desk: mostly of one whose edit is open.
    pub fn desk(&mut self, store: &Store, sessions: &[Words; PLACES]) -> (usize, Call) {
        let live = live(store, sessions);
        let random = &mut self.generator.random;
        let any = random.from(0, PLACES as u64 - 1) as usize;
        let opens = match (live.is_empty(), some_slot_is_free(store)) {
            (_, false) => 4,
            (false, true) => 20,
            (true, true) => 80,
        };
        if random.percent(opens) {
            // A session that is still live is lost only where all are.
            let place = (0..PLACES).find(|place| !live.contains(place)).unwrap_or(any);
            return (place, self.open());
        }
        let place = if live.is_empty() || random.percent(12) { any } else { random.pick(&live) };
        let (record, value) = (self.generator.record(), self.generator.value());
        let call = match self.generator.random.from(0, 9) {
            0..=3 => Call::Read { record },
            4..=7 => Call::Write { record, value },
            _ => Call::Commit,
        };
        (place, call)
    }

    fn open(&mut self) -> Call {
        let least = u64::from(self.generator.random.percent(80));
        let t = self.generator.point().max(least);
        let random = &mut self.generator.random;
        let to_last = LAST.wrapping_sub(t);
        let width = match random.from(0, 19) {
            0..=4 => 0,
            5..=17 => random.from(0, 8),
            18 => random.pick(&[to_last, to_last.wrapping_add(1)]),
            _ => random.pick(&LARGE),
        };
        Call::Open { t, width, latest: random.percent(50) }
    }

    /// A session copied from another place, with one word changed, or made up.
    fn put(&mut self, sessions: &[Words; PLACES]) -> Step {
        let from = self.generator.random.from(0, PLACES as u64 - 1) as usize;
        let to = self.generator.random.from(0, PLACES as u64 - 1) as usize;
        let mut made_up = [0, 1, 2, 3, 4].map(|word| self.word(word));
        if made_up[1] > made_up[2] && self.generator.random.percent(80) {
            made_up.swap(1, 2);
        }
        let mut words = sessions[from];
        match self.generator.random.from(0, 9) {
            0..=4 => {}
            5..=7 => {
                let word = self.generator.random.from(0, 4) as usize;
                words[word] = made_up[word];
            }
            _ => words = made_up,
        }
        Step::Put(to, words)
    }

    /// Something for a word of a session, by its place there.
    fn word(&mut self, word: usize) -> u64 {
        match word {
            0 => self.generator.open_handle(),
            1 | 2 => self.generator.point(),
            3 => self.generator.random.next(),
            _ => self.generator.random.pick(&[0, 1, 2, u64::MAX]),
        }
    }
}

fn some_slot_is_free(store: &Store) -> bool {
    store.edits.iter().any(|edit| edit.state == State::Free)
}

/// The places of the sessions that have points left and an open edit.
pub fn live(store: &Store, sessions: &[Words; PLACES]) -> Vec<usize> {
    let open = |&slot: &u64| store.edits[slot as usize - 1].state == State::Open;
    let handles: Vec<u64> = (1..=store.counts.edits).filter(open).map(|slot| store.handle(slot)).collect();
    let is_live = |words: &Words| !session(words).has_ended() && handles.contains(&words[0]);
    (0..PLACES).filter(|&place| is_live(&sessions[place])).collect()
}
