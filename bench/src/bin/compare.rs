//! Runs a listing program on generated captures and compares what it writes,
//! byte for byte, with the reader of the paper.

use std::error::Error;
use std::fs;
use std::io;
use std::path::Path;
use std::process::ExitCode;

use bench::arguments::{self, no_more, wrong, Arguments, Usage};
use bench::difference::{self, Fault};
use bench::generate::{Kind, Name};
use bench::paper;
use bench::stand::{Feed, Stand};
use bench::tally::Tally;
use bench::workers::{self, WORKERS};

const USAGE: Usage = Usage {
    numbers: &["--captures", "--seed"],
    texts: &["--file"],
    ..Usage::words(
        "usage: compare PROGRAM [[large] KIND INDEX] [--captures N] [--seed S]
       compare PROGRAM --file CAPTURE
Runs a listing program on N generated captures (20000 if not given), on the
generated capture KIND INDEX alone, or on the file CAPTURE, and compares what it
writes with the second reader's listing.
",
    )
};
/// Captures that are compared unless another number is asked for.
const CAPTURES: u64 = 20_000;
/// The fewest drawn captures of a kind.
const DRAWN_LEAST: usize = 20;
/// Large captures of each kind.
const LARGE_EACH: usize = 2;
/// One small capture in so many comes in parts.
const PARTS_ONCE_IN: usize = 8;
/// Captures and pieces up to this size are shown whole.
const SHOWN_MOST: usize = 300;
/// Wire bytes shown on both sides of a piece.
const CONTEXT: usize = 12;

/// A capture on which the program is wrong.
struct Difference {
    name: Name,
    capture: Vec<u8>,
    fault: Fault,
}

/// What was reached, and the first difference with its place in the order.
struct Found {
    tally: Tally,
    difference: Option<(usize, Difference)>,
}

fn main() -> ExitCode {
    arguments::run(&USAGE, compare_as_asked)
}

fn compare_as_asked(arguments: &Arguments) -> Result<ExitCode, Box<dyn Error>> {
    let (program, name) = arguments.program()?;
    if let Some(file) = arguments.text("--file") {
        no_more(name)?;
        return compare_file(program, file);
    }
    let seed = arguments.number("--seed", 1);
    let captures = arguments.number("--captures", CAPTURES) as usize;
    let names = if name.is_empty() {
        names(captures)
    } else {
        vec![Name::parse(name).ok_or_else(|| wrong("no such capture"))?]
    };
    let found = compare(Path::new(program), seed, &names)?;
    if let Some((number, difference)) = found.difference {
        println!("a difference after {number} captures");
        show(&difference, program, seed);
        return Ok(ExitCode::FAILURE);
    }
    if name.is_empty() && !reached_all(&found.tally) {
        return Ok(ExitCode::FAILURE);
    }
    println!(
        "{} captures, seed {seed}, no difference",
        found.tally.captures()
    );
    Ok(ExitCode::SUCCESS)
}

/// Runs the program on a capture of the caller's own.
fn compare_file(program: &str, file: &str) -> Result<ExitCode, Box<dyn Error>> {
    let capture = fs::read(file).map_err(|error| format!("{file}: {error}"))?;
    let listing = paper::read(&capture);
    let expected = paper::render(&listing);
    let most = difference::enough(expected.as_bytes());
    let mut stand = Stand::new(Path::new(program), "file")?;
    for feed in [Feed::File, Feed::Parts] {
        let answer = stand.run(&capture, feed, most);
        if let Some(fault) = difference::fault(expected.as_bytes(), answer) {
            println!("a difference");
            println!("  capture   {file}: {} bytes {}", capture.len(), way(feed));
            println!("  again     compare {program} --file {file}");
            show_fault(&capture, &fault);
            return Ok(ExitCode::FAILURE);
        }
    }
    println!(
        "{file}: {} bytes, {} outcomes, left {}, no difference",
        capture.len(),
        listing.outcomes.len(),
        listing.left
    );
    Ok(ExitCode::SUCCESS)
}

/// Shows what was reached, and whether that is every row.
fn reached_all(tally: &Tally) -> bool {
    print!("{tally}");
    let missing = tally.missing();
    if !missing.is_empty() {
        println!("never reached: {}", missing.join(", "));
    }
    missing.is_empty()
}

/// All captures: the systematic ones of every kind, drawn ones to make up
/// the number asked for, and the large ones.
fn names(captures: usize) -> Vec<Name> {
    let systematic: usize = Kind::ALL.iter().map(|kind| kind.systematic()).sum();
    let drawn_kinds = Kind::ALL.iter().filter(|kind| kind.is_drawn()).count();
    let drawn = captures.saturating_sub(systematic).div_ceil(drawn_kinds);
    let mut names = Vec::new();
    for kind in Kind::ALL {
        let drawn = if kind.is_drawn() {
            drawn.max(DRAWN_LEAST)
        } else {
            0
        };
        names.extend(numbered(kind, kind.systematic() + drawn, false));
    }
    for kind in Kind::ALL {
        names.extend(numbered(kind, LARGE_EACH, true));
    }
    names
}

fn numbered(kind: Kind, count: usize, large: bool) -> impl Iterator<Item = Name> {
    (0..count).map(move |index| Name { kind, index, large })
}

/// How a capture comes to the program.
fn feed(name: Name) -> Feed {
    let once_in = if name.large {
        LARGE_EACH
    } else {
        PARTS_ONCE_IN
    };
    if name.index % once_in == once_in - 1 {
        Feed::Parts
    } else {
        Feed::File
    }
}

/// Lets the workers take the captures in order.
fn compare(program: &Path, seed: u64, names: &[Name]) -> io::Result<Found> {
    let mut states = Vec::new();
    for worker in 0..WORKERS {
        let stand = Stand::new(program, &worker.to_string())?;
        states.push((stand, Tally::default()));
    }
    let (states, difference) = workers::take(names.len(), states, |(stand, tally), number| {
        run(stand, names[number], seed, tally)
    });
    let mut tally = Tally::default();
    for (_, more) in &states {
        tally.add(more);
    }
    Ok(Found { tally, difference })
}

/// Runs the program on one capture and counts it, or tells the difference.
fn run(stand: &mut Stand, name: Name, seed: u64, tally: &mut Tally) -> Option<Difference> {
    let capture = name.capture(seed);
    let listing = paper::read(&capture);
    let expected = paper::render(&listing);
    let answer = stand.run(
        &capture,
        feed(name),
        difference::enough(expected.as_bytes()),
    );
    if let Some(fault) = difference::fault(expected.as_bytes(), answer) {
        return Some(Difference {
            name,
            capture,
            fault,
        });
    }
    tally.count(name.kind, &capture, &listing);
    None
}

fn show(difference: &Difference, program: &str, seed: u64) {
    let Difference {
        name,
        capture,
        fault,
    } = difference;
    println!(
        "  capture   {name}, seed {seed}: {} bytes {}",
        capture.len(),
        way(feed(*name))
    );
    println!("  again     compare {program} {name} --seed {seed}");
    println!("  bytes     capture {name} --seed {seed}");
    show_fault(capture, fault);
}

fn way(feed: Feed) -> &'static str {
    match feed {
        Feed::File => "from a file",
        Feed::Parts => "through a pipe in parts",
    }
}

fn show_fault(capture: &[u8], fault: &Fault) {
    match fault {
        Fault::Output(text) => show_output(capture, text),
        Fault::End(status) => println!("  output as expected, but it ended with {status}"),
        Fault::Run(error) => println!("  it could not be run: {error}"),
    }
    if capture.len() <= SHOWN_MOST {
        println!("  whole     {}", hex(capture));
    }
}

/// Shows the first line that differs and the wire bytes that it tells of.
fn show_output(capture: &[u8], text: &[u8]) {
    let expected = paper::render(&paper::read(capture));
    let line = difference::show_line(expected.as_bytes(), text);
    match paper::closed_pieces(capture).get(line) {
        Some(piece) => show_piece(capture, piece.start, piece.end),
        None => show_piece(capture, paper::open_start(capture), capture.len()),
    }
}

/// Shows a piece with some of what is around it.
fn show_piece(capture: &[u8], start: usize, end: usize) {
    let from = start.saturating_sub(CONTEXT);
    let to = capture.len().min(end + 1 + CONTEXT);
    println!("  place     {} wire bytes from {start}", end - start);
    println!("  before    {}", hex(&capture[from..start]));
    println!("  piece     {}", hex(&capture[start..end]));
    println!("  behind    {}", hex(&capture[end..to]));
}

/// The bytes in hexadecimal. The middle of long ones is left out.
fn hex(bytes: &[u8]) -> String {
    if bytes.len() > SHOWN_MOST {
        let (first, rest) = bytes.split_at(SHOWN_MOST / 2);
        let (middle, last) = rest.split_at(rest.len() - SHOWN_MOST / 2);
        return format!("{} ({} more) {}", hex(first), middle.len(), hex(last));
    }
    let digits: Vec<_> = bytes.iter().map(|byte| format!("{byte:02X}")).collect();
    digits.join(" ")
}
