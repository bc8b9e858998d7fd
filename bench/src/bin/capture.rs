//! Writes one capture of the comparison to standard output.

use std::error::Error;
use std::io::{self, Write};
use std::process::ExitCode;

use bench::arguments::{self, wrong, Arguments, Usage};
use bench::generate::Name;

const USAGE: Usage = Usage {
    numbers: &["--seed"],
    ..Usage::words(
        "usage: capture [large] KIND INDEX [--seed S]
Writes one generated capture to standard output.
KIND is a name in the first column of what compare prints; S is 1 if not given.
",
    )
};

fn main() -> ExitCode {
    arguments::run(&USAGE, write)
}

fn write(arguments: &Arguments) -> Result<ExitCode, Box<dyn Error>> {
    let name = Name::parse(&arguments.words).ok_or_else(|| wrong("no such capture"))?;
    let capture = name.capture(arguments.number("--seed", 1));
    io::stdout().write_all(&capture)?;
    Ok(ExitCode::SUCCESS)
}
