//! Planning desks: random histories in which calls of several desks and of the store stand in any order on one store,
//! through the wrapper and in the model. What each call tells, the words of the session and the store after it are the
//! model's, and so they are on words that were changed before a call. At its end the model checks the plain run and the
//! charts of a history, by the store calls that were made.
//!
//!     desks HISTORIES FILE    exits with 1 at the first difference, and keeps it in FILE with the words

#![forbid(unsafe_code)]

mod calls;
mod counts;
mod steps;

use calls::Words;
use damaged::{change, compare, program};
use model::count::Counted;
use model::script::{self, Session};
use model::store::Store;
use model::words::decode;
use std::process::ExitCode;
use steps::{Step, Steps, PLACES};

/// Steps of one history.
const STEPS: usize = 60;
/// How many steps have a call on changed words before them, in a hundred.
const CHANGED: u64 = 10;

/// A store in words and in the model, with the sessions of its desks.
struct History {
    words: Vec<u64>,
    run: Session,
    sessions: [Words; PLACES],
    steps: Steps,
    /// The steps made, and the words before the last call.
    made: Vec<Step>,
    before: Vec<u64>,
}

impl History {
    fn new(seed: u64) -> Result<History, String> {
        let mut steps = Steps::new(seed);
        let counts = steps.counts();
        let mut run = Session::new(true);
        let mut words = vec![0; counts.words() as usize];
        let format = script::Call::Format(counts);
        let (reply, expected) = (damaged::calls::call(&mut words, format), run.call(format)?);
        if reply != expected {
            return Err(format!("{format:?} replied {reply:?}, in the model {expected:?}"));
        }
        Ok(History { words, run, sessions: [[0; 5]; PLACES], steps, made: vec![], before: vec![] })
    }

    fn store(&self) -> Result<&Store, String> {
        self.run.store.as_ref().ok_or_else(|| "no store".to_string())
    }

    /// Makes its steps, and checks the whole of it.
    fn play(&mut self, counted: &mut Counted) -> Result<(), String> {
        for _ in 0..STEPS {
            self.step(counted)?;
        }
        self.run.finish()?;
        counted.compared.add(self.run.compared);
        Ok(())
    }

    fn step(&mut self, counted: &mut Counted) -> Result<(), String> {
        if self.steps.generator.random.percent(CHANGED) {
            self.on_changed_words(counted)?;
        }
        let store = self.store()?.clone();
        let step = self.steps.next(&store, &self.sessions);
        self.made.push(step);
        self.before.clone_from(&self.words);
        match step {
            Step::Put(place, words) => self.sessions[place] = words,
            Step::Store(call) => {
                compare::step(&mut self.words, &mut self.run, call)?;
            }
            Step::Desk(place, call) => {
                let before = self.sessions[place];
                let is_twin = |&other: &usize| other != place && self.sessions[other][0] == before[0];
                if steps::live(&store, &self.sessions).iter().any(is_twin) {
                    count(counted, counts::TWIN.to_string());
                }
                let session = &mut self.sessions[place];
                let done = calls::alike(&mut self.words, &mut self.run, session, call)?;
                count(counted, counts::outcome(call, &before, session, &done));
            }
        }
        Ok(())
    }

    /// One call of a desk on a copy of the words in which 1 to 3 are changed: it gives 1 exactly if the copy is not
    /// sound, and then leaves it and the session alone; else what it gives in the model.
    fn on_changed_words(&mut self, counted: &mut Counted) -> Result<(), String> {
        let (place, call) = self.steps.desk(&self.store()?.clone(), &self.sessions);
        let random = &mut self.steps.generator.random;
        let mut words = self.words.clone();
        let many = random.from(1, 3);
        let changes = change::some(&mut words, many, random);
        self.before.clone_from(&words);
        let mut run = Session::new(false);
        run.store = decode(&words);
        let outcome = counts::changed(call, &self.sessions[place], run.store.is_some());
        let mut session = self.sessions[place];
        calls::alike(&mut words, &mut run, &mut session, call).map_err(|e| format!("changes {changes:?}: {e}"))?;
        count(counted, outcome);
        Ok(())
    }
}

fn count(counted: &mut Counted, outcome: String) {
    *counted.kinds.entry(outcome).or_default() += 1;
}

fn run(histories: u64, file: &str) -> Result<(), String> {
    let mut counted = Counted::default();
    for seed in 1..=histories {
        let mut history = History::new(seed)?;
        history.play(&mut counted).map_err(|message| {
            let more = format!("steps {:?}\nwords before the call {:?}", history.made, history.before);
            program::keep(file, format!("seed {seed}: {message}"), more)
        })?;
    }
    counts::print(&counted);
    counts::reached(&counted, histories)
}

fn main() -> ExitCode {
    program::main("desks", "HISTORIES", run)
}
