//! The listing by the plain reader: standard input to standard output.

use std::io;
use std::process::ExitCode;

use bench::arguments::{self, Usage};
use bench::plain;

const USAGE: Usage = Usage::words(
    "usage: listing < CAPTURE
Lists the outcomes of a capture by the plain reader; the last line is `left N`.
",
);

fn main() -> ExitCode {
    arguments::run(&USAGE, |arguments| {
        arguments.no_words()?;
        plain::list(io::stdin().lock(), io::stdout().lock())?;
        Ok(ExitCode::SUCCESS)
    })
}
