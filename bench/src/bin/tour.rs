//! Writes the script of `examples/all.script`, or its contents.

use std::error::Error;
use std::process::ExitCode;

use bench::arguments::{self, wrong, Arguments, Usage};
use bench::tour;

const USAGE: Usage = Usage::words(
    "usage: tour [contents]
Writes examples/all.script, or the table of its parts.
",
);

fn main() -> ExitCode {
    arguments::run(&USAGE, write)
}

fn write(arguments: &Arguments) -> Result<ExitCode, Box<dyn Error>> {
    match &arguments.words[..] {
        [] => print!("{}", tour::script()),
        [word] if word == "contents" => print!("{}", tour::contents()),
        _ => return Err(wrong("only contents may be asked for")),
    }
    Ok(ExitCode::SUCCESS)
}
