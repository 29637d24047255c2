//! Lists a recording: standard input to standard output.

#![deny(warnings)]

use std::io;
use std::process::ExitCode;

fn main() -> ExitCode {
    match second::recording::list(io::stdin().lock(), io::stdout().lock()) {
        Ok(()) => ExitCode::SUCCESS,
        Err(_) => ExitCode::FAILURE,
    }
}
