//! One job (job.rs) on this store, on LMDB and on SQLite, none of them durable. A program, never a test: it prints a
//! table of times. It fails if some chart of some store shows another value than the job says.
//!
//!     databases FOLDER          the table; the files of the databases are made in FOLDER, which is best in memory
//!     databases FOLDER short    the same from one short run, to show that it runs

mod batches;
mod job;
mod library;
#[cfg(feature = "lmdb")]
mod lmdb;
#[cfg(feature = "sqlite")]
mod sqlite;
mod timing;

use batches::{plan, Batches, Known};
use job::{Job, EDITS, RECORDS, SEED};
use library::ByCalls;
use std::path::Path;
use std::process::ExitCode;
use timing::{timed, Way};
use zohetiwa::Session;

/// The stores of the table: each is a `Store`, and this store by single calls, however made, one of `Calls`. Those of
/// this project begin with the words of a plan that one edit has written.
#[cfg_attr(not(any(feature = "lmdb", feature = "sqlite")), allow(unused_variables, unused_mut))]
fn ways(folder: &Path) -> Vec<Way> {
    let mut ways = vec![
        Way::new("this store, public calls, each with its check", |job| {
            timed(job, &mut ByCalls::new(&mut plan(&job.start)[..], 1))
        }),
        Way::new("this store, a session", |job| {
            let mut words = plan(&job.start);
            timed(job, &mut ByCalls::new(&mut Session::open(&mut words).expect("a sound store"), 1))
        }),
        Way::new("this store, batches, two for each edit", |job| {
            timed(job, &mut Batches::new(&mut plan(&job.start), 1))
        }),
        Way::new(format!("this store, one batch for {EDITS} edits, what they write known before"), |job| {
            timed(job, &mut Known(Batches::new(&mut plan(&job.start), 1)))
        }),
    ];
    #[cfg(feature = "lmdb")]
    ways.extend(lmdb::ways(folder));
    #[cfg(feature = "sqlite")]
    ways.extend(sqlite::ways(folder));
    ways
}

fn table(ways: &[Way], job: &Job, runs: usize) {
    // The ways take turns: what else the machine does slows all alike.
    let mut times = vec![[const { vec![] }; 3]; ways.len()];
    for _ in 0..runs {
        for (way, times) in ways.iter().zip(&mut times) {
            for (time, times) in (way.run)(job).into_iter().zip(times) {
                times.push(time);
            }
        }
    }
    let charts = job.rounds.len();
    println!("{charts} charts of {RECORDS} records, and {EDITS} edits before each (seed {SEED}). All charts showed");
    println!("the same values. ns for each record of a chart and for each edit, least and median of {runs} runs.\n");
    println!("| Store | chart, least | median | chart at once, least | median | edit, least | median |");
    println!("|---|---|---|---|---|---|---|");
    for (way, times) in ways.iter().zip(times) {
        print!("| {} |", way.name);
        for mut times in times {
            times.sort_unstable_by(f64::total_cmp);
            print!(" {:.0} | {:.0} |", times[0], times[runs / 2]);
        }
        println!();
    }
}

fn main() -> ExitCode {
    let words: Vec<String> = std::env::args().skip(1).collect();
    let words: Vec<&str> = words.iter().map(String::as_str).collect();
    let (folder, rounds, runs) = match words[..] {
        [folder] => (folder, 20, 7),
        [folder, "short"] => (folder, 2, 1),
        _ => {
            eprintln!("usage: databases FOLDER [short]");
            return ExitCode::FAILURE;
        }
    };
    table(&ways(Path::new(folder)), &Job::new(rounds), runs);
    ExitCode::SUCCESS
}
