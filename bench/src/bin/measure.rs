//! Measures a listing program against the listing by the plain reader.

use std::env;
use std::error::Error;
use std::io::{self, Read};
use std::path::Path;
use std::process::{Child, Command, ExitCode, Stdio};
use std::time::{Duration, Instant};

use bench::arguments::{self, no_more, Arguments, Usage};
use bench::input::Input;
use bench::outcome::END;
use bench::random::Random;
use bench::sender;
use bench::watch::{self, Times};

const USAGE: Usage = Usage {
    numbers: &["--megabytes", "--runs"],
    ..Usage::words(
        "usage: measure PROGRAM [--megabytes N] [--runs N]
Times a listing program against listing on captures of N MB (50 if not given)
and shows its peak memory.
",
    )
};
/// The size of a capture unless another is asked for.
const MEGABYTES: u64 = 50;
/// Runs of each side on each capture unless another number is asked for.
const RUNS: u64 = 7;
const MEGABYTE: usize = 1_000_000;
const SEED: u64 = 1;

/// The captures to measure on.
#[derive(Clone, Copy)]
enum Load {
    Short,
    Long,
    OneByte,
}

/// The two sides.
struct Sides<'a> {
    program: &'a Path,
    plain: &'a Path,
}

/// What a side wrote: the number of lines and a sum over the bytes.
#[derive(PartialEq)]
struct Digest {
    lines: u64,
    sum: u64,
}

fn main() -> ExitCode {
    arguments::run(&USAGE, measure_all)
}

fn measure_all(arguments: &Arguments) -> Result<ExitCode, Box<dyn Error>> {
    let (program, more) = arguments.program()?;
    no_more(more)?;
    let size = arguments.number("--megabytes", MEGABYTES) as usize * MEGABYTE;
    let runs = arguments.number("--runs", RUNS).max(1) as usize;
    let sides = Sides {
        program: Path::new(program),
        plain: &env::current_exe()?.with_file_name("listing"),
    };
    introduce(size, runs);
    for load in [Load::Short, Load::Long, Load::OneByte] {
        measure(load, size, runs, &sides)?;
    }
    show_memory(sides.program, size)?;
    Ok(ExitCode::SUCCESS)
}

fn introduce(size: usize, runs: usize) {
    println!("Both sides read the same file in the same run, in turn.");
    println!("A capture has {} MB.", size / MEGABYTE);
    println!("The times are taken with the output going to /dev/null.");
    println!("Best of {runs} runs each. The spread is the worst above the best.");
    println!("Time is user and system time of the first thread together,");
    println!("or wall time where the system does not show it.");
    println!("The ratio is the Rust time by PROGRAM's time: above 1, PROGRAM is faster.");
    println!("The Rust side clears its buffers once at the start, not between packets.");
    println!();
}

fn measure(load: Load, size: usize, runs: usize, sides: &Sides) -> Result<(), Box<dyn Error>> {
    let mut input = written(load, size)?;
    println!("{}", describe(load));
    let wrote = digest(sides.program, &mut input)?;
    if wrote != digest(sides.plain, &mut input)? {
        return Err("the two sides wrote different listings".into());
    }
    println!("  both wrote the same {} lines", wrote.lines);
    let mut program = Vec::new();
    let mut plain = Vec::new();
    for _ in 0..runs {
        program.push(timed(sides.program, &mut input)?);
        plain.push(timed(sides.plain, &mut input)?);
    }
    show_times("PROGRAM", &program, size);
    show_times("Rust", &plain, size);
    show_ratio(&program, &plain);
    Ok(())
}

fn describe(load: Load) -> &'static str {
    match load {
        Load::Short => "(a) frames of 5 to 40 bytes, each with its own two ENDs",
        Load::Long => "(b) frames of 200 to 255 bytes, each with its own two ENDs",
        Load::OneByte => "(c) packets of one byte, neighbours sharing an END",
    }
}

/// A file with a capture of at least this size.
fn written(load: Load, size: usize) -> io::Result<Input> {
    let random = &mut Random::new(&[SEED, load as u64]);
    let mut wire = vec![END];
    while wire.len() < size {
        match load {
            Load::Short => add_frame(random.between(5, 40), &mut wire, random),
            Load::Long => add_frame(random.between(200, 255), &mut wire, random),
            Load::OneByte => wire.extend([random.below(128) as u8, END]),
        }
    }
    let mut input = Input::new("capture")?;
    input.fill(&wire)?;
    Ok(input)
}

/// Adds a good frame of so many bytes, drawn evenly.
fn add_frame(length: usize, wire: &mut Vec<u8>, random: &mut Random) {
    let command = random.draw() as u16;
    let data: Vec<u8> = (5..length).map(|_| random.byte()).collect();
    wire.push(END);
    wire.extend(sender::escape(&sender::frame(command, &data)));
    wire.push(END);
}

fn started(program: &Path, input: &mut Input, output: Stdio) -> io::Result<Child> {
    Command::new(program)
        .stdin(input.from_start()?)
        .stdout(output)
        .spawn()
}

/// Reads all that a side writes.
fn digest(program: &Path, input: &mut Input) -> io::Result<Digest> {
    let mut child = started(program, input, Stdio::piped())?;
    let mut output = child.stdout.take().expect("standard output is a pipe");
    let mut digest = Digest { lines: 0, sum: 0 };
    let mut buffer = vec![0; 64 * 1024];
    loop {
        let count = output.read(&mut buffer)?;
        if count == 0 {
            break;
        }
        add_to_digest(&mut digest, &buffer[..count]);
    }
    child.wait()?;
    Ok(digest)
}

fn add_to_digest(digest: &mut Digest, part: &[u8]) {
    for &byte in part {
        digest.lines += u64::from(byte == b'\n');
        digest.sum = (digest.sum ^ u64::from(byte)).wrapping_mul(0x0100_0000_01B3);
    }
}

fn timed(program: &Path, input: &mut Input) -> io::Result<Times> {
    let start = Instant::now();
    let child = started(program, input, Stdio::null())?;
    watch::times(child, start)
}

/// The times to compare by, least first.
fn sorted(times: &[Times]) -> Vec<Duration> {
    let mut sorted: Vec<_> = times.iter().map(Times::best_known).collect();
    sorted.sort();
    sorted
}

fn show_times(side: &str, times: &[Times], size: usize) {
    let sorted = sorted(times);
    let best = sorted[0].as_secs_f64();
    let worst = sorted[sorted.len() - 1].as_secs_f64();
    let walls = times.iter().map(|times| times.wall.as_secs_f64());
    println!(
        "  {side:<9} best {:>7.1} ms, spread {:>5.1} %, {:>6.1} MB/s, best wall {:>7.1} ms",
        best * 1e3,
        (worst / best - 1.0) * 100.0,
        size as f64 / MEGABYTE as f64 / best,
        walls.fold(f64::INFINITY, f64::min) * 1e3,
    );
}

/// Shows the ratio of the best times, and the middle one of the ratios of
/// runs that came one after the other.
fn show_ratio(program: &[Times], plain: &[Times]) {
    let ratio = |plain: Duration, program: Duration| plain.as_secs_f64() / program.as_secs_f64();
    let best = ratio(sorted(plain)[0], sorted(program)[0]);
    let mut pairs: Vec<_> = plain
        .iter()
        .zip(program)
        .map(|(plain, program)| ratio(plain.best_known(), program.best_known()))
        .collect();
    pairs.sort_by(f64::total_cmp);
    println!(
        "  ratio     {best:.2} (middle of the pairs {:.2})",
        pairs[pairs.len() / 2]
    );
    println!();
}

/// Shows the peak memory at a tenth of the length and at the whole.
fn show_memory(program: &Path, size: usize) -> io::Result<()> {
    println!("peak memory of PROGRAM on (a)");
    for size in [size / 10, size] {
        let mut input = written(Load::Short, size)?;
        let child = started(program, &mut input, Stdio::null())?;
        let length = size as f64 / MEGABYTE as f64;
        match watch::peak_memory(child)? {
            Some(peak) => println!("  {length:>5.1} MB of input: {peak} kB"),
            None => println!("  {length:>5.1} MB of input: not shown by the system"),
        }
    }
    Ok(())
}
