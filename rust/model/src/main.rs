//! A model of the shared plan store, written from documents 01 and 02 alone.
//!
//!     model run [--check]                  answers the script on standard input
//!     model gen SEED LINES [--plain]       prints a random script
//!     model stats SEEDS LINES [--check]    counts the replies to the scripts of seeds 1..SEEDS
//!
//! With --check it judges each step and each history; `stats` then also counts the comparisons of charts and the joins
//! of lock rows, and fails if they are few.

#![forbid(unsafe_code)]

use model::{count, generate, script};
use std::io::{self, Write};
use std::process::ExitCode;

fn stats(seeds: u64, lines: usize, check: bool) -> Result<(), String> {
    let counted = count::count(seeds, lines, check)?;
    for (kind, count) in counted.kinds.iter().chain(&counted.by_letter) {
        println!("{count:>9}  {kind}");
    }
    if !check {
        return Ok(());
    }
    let compared = counted.compared.counts();
    for (kind, count) in compared.iter().chain(&counted.joined.counts()) {
        println!("{count:>9}  {kind}");
    }
    counted.compared_enough()?;
    counted.joined_enough()
}

fn generate(seed: u64, lines: usize, plain: bool) -> Result<(), String> {
    let mut text = vec![];
    for line in generate::script(seed, lines, plain) {
        text.extend_from_slice(&line);
        text.push(b'\n');
    }
    io::stdout().write_all(&text).map_err(|e| e.to_string())
}

fn command(words: &[&str]) -> Result<(), String> {
    let small = |word: &str| word.parse::<u64>().map_err(|e| format!("{word}: {e}"));
    match words {
        ["run"] => script::run(&mut io::stdin().lock(), &mut io::stdout().lock(), false),
        ["run", "--check"] => script::run(&mut io::stdin().lock(), &mut io::stdout().lock(), true),
        ["gen", seed, lines] => generate(small(seed)?, small(lines)? as usize, false),
        ["gen", seed, lines, "--plain"] => generate(small(seed)?, small(lines)? as usize, true),
        ["stats", seeds, lines] => stats(small(seeds)?, small(lines)? as usize, false),
        ["stats", seeds, lines, "--check"] => stats(small(seeds)?, small(lines)? as usize, true),
        _ => Err(
            "usage: model run [--check] | gen SEED LINES [--plain] | stats SEEDS LINES [--check]"
                .to_string(),
        ),
    }
}

fn main() -> ExitCode {
    let words: Vec<String> = std::env::args().skip(1).collect();
    let words: Vec<&str> = words.iter().map(String::as_str).collect();
    match command(&words) {
        Ok(()) => ExitCode::SUCCESS,
        Err(message) => {
            eprintln!("model: {message}");
            ExitCode::FAILURE
        }
    }
}
