//! The answers of the model to a script: standard input to standard output.

use std::io;
use std::process::ExitCode;

use bench::arguments::{self, Usage};
use bench::replay;

const USAGE: Usage = Usage::words(
    "usage: replay-model < SCRIPT
Answers a script of calls by the second hub; docs/REPLAY.md has the format.
",
);

fn main() -> ExitCode {
    arguments::run(&USAGE, |arguments| {
        arguments.no_words()?;
        replay::run(io::stdin().lock(), io::stdout().lock())?;
        Ok(ExitCode::SUCCESS)
    })
}
