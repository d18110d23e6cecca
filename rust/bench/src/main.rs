//! Times of the store, through the wrapper and so through the public calls. A program, never a test: it prints tables.
//!
//!     bench          the tables
//!     bench short    the same tables from few runs on nearly empty stores, to show that it runs
//!
//! Before them random calls on small stores are compared. It fails if the proved store, however it is called, and the
//! plain vectors differ in one reply.

#![forbid(unsafe_code)]

mod agree;
mod calls;
mod charts;
mod checks;
mod kinds;
mod library;
mod list;
mod lists;
mod plain;
mod rows;
mod stores;
mod timing;
mod views;

use std::process::ExitCode;

/// How much is measured.
#[derive(Clone, Copy)]
pub struct Size {
    /// Runs of each time of one call.
    pub runs: usize,
    /// Rounds of the most filled store.
    pub rounds: u64,
    /// Calls of the long list, and runs of it.
    pub calls: usize,
    pub lists: usize,
    /// Runs of each list of one kind.
    pub kinds: usize,
}

fn main() -> ExitCode {
    let words: Vec<String> = std::env::args().skip(1).collect();
    let words: Vec<&str> = words.iter().map(String::as_str).collect();
    let size = match words[..] {
        [] => Size { runs: 201, rounds: stores::ROUNDS, calls: 100_000, lists: 21, kinds: 101 },
        ["short"] => Size { runs: 3, rounds: 4, calls: 6_000, lists: 1, kinds: 1 },
        _ => {
            eprintln!("usage: bench [short]");
            return ExitCode::FAILURE;
        }
    };
    agree::all();
    checks::table(size);
    println!();
    calls::table(size);
    println!();
    lists::table(size);
    let base = kinds::Base::after(&list::make(lists::SEED, size.calls / 2, true));
    println!();
    kinds::table(size, &base);
    println!();
    charts::table(size, &base);
    println!();
    views::table(size, &base);
    ExitCode::SUCCESS
}
