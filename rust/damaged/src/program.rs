//! A program that is given a number and a file, in which it keeps the first difference.

use std::process::ExitCode;

/// Runs it with its arguments, a number of what it names and the file; status 1 where it fails.
pub fn main(name: &str, what: &str, run: impl FnOnce(u64, &str) -> Result<(), String>) -> ExitCode {
    let arguments: Vec<String> = std::env::args().skip(1).collect();
    let result = match &arguments[..] {
        [number, file] => number.parse().map_err(|e| format!("{number}: {e}")).and_then(|n| run(n, file)),
        _ => Err(format!("usage: {name} {what} FILE")),
    };
    match result {
        Ok(()) => ExitCode::SUCCESS,
        Err(message) => {
            eprintln!("{name}: {message}");
            ExitCode::FAILURE
        }
    }
}

/// Keeps a difference in the file, with what leads to it; gives the message for standard error.
pub fn keep(file: &str, message: String, more: String) -> String {
    let text = format!("{message}\n{more}\n");
    match std::fs::write(file, &text) {
        Ok(()) => format!("{message}; the words are kept in {file}"),
        Err(e) => format!("{text}{file}: {e}"),
    }
}
