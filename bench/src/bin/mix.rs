//! Turns raw captures of several lines into a replay script. `src/mix.rs`
//! states the input.

use std::error::Error;
use std::fs;
use std::io::{self, BufWriter, Read};
use std::process::ExitCode;

use bench::arguments::{self, Arguments, Usage};
use bench::mix::socat::{self, Block, Direction};
use bench::mix::Mixer;

const USAGE: Usage = Usage {
    alone: &["--hub-left"],
    ..Usage::words(
        "usage: mix [--hub-left] [PART ...] > SCRIPT
Turns captures into a replay script. A PART is one of:
  FILE       a mix: lines of `LINE BYTES`, calls, remarks
  LINE=FILE  a capture of that line as socat -x writes it
Captures that stand side by side are merged by time. FILE may be - for standard
input, which is read as a mix if there is no PART. The bytes that go from
socat's left address to its right one are taken, with --hub-left the others.
",
    )
};

/// A part of the script to write.
enum Part<'a> {
    Mix(&'a str),
    Captures(Vec<(u8, Vec<Block>)>),
}

fn main() -> ExitCode {
    arguments::run(&USAGE, write)
}

fn write(arguments: &Arguments) -> Result<ExitCode, Box<dyn Error>> {
    let direction = if arguments.has("--hub-left") {
        Direction::Left
    } else {
        Direction::Right
    };
    let mut parts = Vec::new();
    for word in &arguments.words {
        match (capture_of(word), parts.last_mut()) {
            (None, _) => parts.push(Part::Mix(word)),
            (Some((line, file)), last) => {
                let blocks = socat::blocks(&read(file)?, direction);
                let blocks = blocks.map_err(|error| format!("{file}: {error}"))?;
                match last {
                    Some(Part::Captures(captures)) => captures.push((line, blocks)),
                    _ => parts.push(Part::Captures(vec![(line, blocks)])),
                }
            }
        }
    }
    if parts.is_empty() {
        parts.push(Part::Mix("-"));
    }
    let mut mixer = Mixer::new(BufWriter::new(io::stdout().lock()));
    for part in parts {
        match part {
            Part::Mix(file) => {
                let added = mixer.add_mix(&read(file)?[..]);
                added.map_err(|error| format!("{file}: {error}"))?;
            }
            Part::Captures(captures) => mixer.add_captures(captures)?,
        }
    }
    mixer.end()?;
    Ok(ExitCode::SUCCESS)
}

/// The line and the file of a word `LINE=FILE`.
fn capture_of(word: &str) -> Option<(u8, &str)> {
    let (line, file) = word.split_once('=')?;
    Some((line.parse().ok()?, file))
}

/// A file whole, standard input for `-`.
fn read(file: &str) -> Result<Vec<u8>, Box<dyn Error>> {
    if file != "-" {
        return Ok(fs::read(file).map_err(|error| format!("{file}: {error}"))?);
    }
    let mut text = Vec::new();
    io::stdin().lock().read_to_end(&mut text)?;
    Ok(text)
}
