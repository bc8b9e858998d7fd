//! Compares the directory that a program writes with the bench's own.

use std::error::Error;
use std::path::Path;
use std::process::ExitCode;

use bench::arguments::{self, no_more, Arguments, Usage};
use bench::difference::{self, Fault};
use bench::directory;
use bench::stand::{Feed, Stand};

const USAGE: Usage = Usage::words(
    "usage: compare-directory PROGRAM
Compares the directory that PROGRAM writes with the bench's own.
",
);

fn main() -> ExitCode {
    arguments::run(&USAGE, compare)
}

fn compare(arguments: &Arguments) -> Result<ExitCode, Box<dyn Error>> {
    let (program, more) = arguments.program()?;
    no_more(more)?;
    let expected = directory::listing().into_bytes();
    let mut stand = Stand::new(Path::new(program), "directory")?;
    let answer = stand.run(&[], Feed::File, difference::enough(&expected));
    match difference::fault(&expected, answer) {
        None => {
            println!("{} entries, no difference", directory::ENTRIES.len());
            return Ok(ExitCode::SUCCESS);
        }
        Some(Fault::Output(got)) => {
            difference::show_line(&expected, &got);
        }
        Some(Fault::End(status)) => println!("the right entries, but it ended with {status}"),
        Some(Fault::Run(error)) => println!("it could not be run: {error}"),
    }
    Ok(ExitCode::FAILURE)
}
