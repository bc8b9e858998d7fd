//! Measures a replay program against the model on feeds of served commands.

use std::env;
use std::error::Error;
use std::io::{self, Read};
use std::path::Path;
use std::process::{Child, Command, ExitCode, Stdio};
use std::time::{Duration, Instant};

use bench::arguments::{self, no_more, Arguments, Usage};
use bench::input::Input;
use bench::scripts::load;
use bench::watch::{self, Times};

const USAGE: Usage = Usage {
    numbers: &["--feeds", "--runs"],
    ..Usage::words(
        "usage: measure-replay PROGRAM [--feeds N] [--runs N]
Times a replay program against replay-model on scripts of N feeds (5000 if not
given), ten and a hundred times as many.
",
    )
};
/// Feeds of the shortest script unless another number is asked for.
const FEEDS: u64 = 5_000;
/// Runs of each side on each script unless another number is asked for.
const RUNS: u64 = 5;
const TIMES: [usize; 3] = [1, 10, 100];

/// The two sides.
struct Sides<'a> {
    program: &'a Path,
    model: &'a Path,
}

fn main() -> ExitCode {
    arguments::run(&USAGE, measure_all)
}

fn measure_all(arguments: &Arguments) -> Result<ExitCode, Box<dyn Error>> {
    let (program, more) = arguments.program()?;
    no_more(more)?;
    let feeds = arguments.number("--feeds", FEEDS).max(1) as usize;
    let runs = arguments.number("--runs", RUNS).max(1) as usize;
    let sides = Sides {
        program: Path::new(program),
        model: &env::current_exe()?.with_file_name("replay-model"),
    };
    introduce(runs);
    for times in TIMES {
        measure(times * feeds, runs, &sides)?;
    }
    Ok(ExitCode::SUCCESS)
}

fn introduce(runs: usize) {
    println!("Each feed is one whole frame of a served command on one of four lines.");
    println!("Both sides answer the same script in the same run, in turn.");
    println!("The times are taken with the output going to /dev/null.");
    println!("Best of {runs} runs each. The spread is the worst above the best.");
    println!("Time is user and system time of the first thread together,");
    println!("or wall time where the system does not show it.");
    println!("The ratio is the model's time by PROGRAM's time: above 1, PROGRAM is faster.");
    println!("Reading the script and writing the answers are in the times of both.");
    println!();
}

fn measure(feeds: usize, runs: usize, sides: &Sides) -> Result<(), Box<dyn Error>> {
    let script = load::script(feeds);
    let mut input = Input::new("script")?;
    input.fill(&script)?;
    println!(
        "{feeds} feeds, {:.1} MB of script",
        script.len() as f64 / 1e6
    );
    if answers(sides.program, &mut input)? != answers(sides.model, &mut input)? {
        return Err("the two sides gave different answers".into());
    }
    let mut program = Vec::new();
    let mut model = Vec::new();
    for _ in 0..runs {
        program.push(timed(sides.program, &mut input)?);
        model.push(timed(sides.model, &mut input)?);
    }
    for (side, path, times) in [
        ("PROGRAM", sides.program, &program),
        ("model", sides.model, &model),
    ] {
        let peak = watch::peak_memory(started(path, &mut input, Stdio::null())?)?;
        show_side(side, times, feeds, peak);
    }
    println!(
        "  ratio     {:.2}",
        best(&model).as_secs_f64() / best(&program).as_secs_f64()
    );
    println!();
    Ok(())
}

fn started(program: &Path, input: &mut Input, output: Stdio) -> io::Result<Child> {
    Command::new(program)
        .stdin(input.from_start()?)
        .stdout(output)
        .spawn()
}

/// A sum over all that a side writes, and how much it is.
fn answers(program: &Path, input: &mut Input) -> io::Result<(u64, u64)> {
    let mut child = started(program, input, Stdio::piped())?;
    let mut output = child.stdout.take().expect("standard output is a pipe");
    let mut buffer = vec![0; 64 * 1024];
    let (mut sum, mut length) = (0u64, 0);
    loop {
        let count = output.read(&mut buffer)?;
        if count == 0 {
            break;
        }
        length += count as u64;
        for &byte in &buffer[..count] {
            sum = (sum ^ u64::from(byte)).wrapping_mul(0x0100_0000_01B3);
        }
    }
    child.wait()?;
    Ok((sum, length))
}

fn timed(program: &Path, input: &mut Input) -> io::Result<Times> {
    let start = Instant::now();
    let child = started(program, input, Stdio::null())?;
    watch::times(child, start)
}

fn best(times: &[Times]) -> Duration {
    let best = times.iter().map(Times::best_known).min();
    best.expect("there is at least one run")
}

fn show_side(side: &str, times: &[Times], feeds: usize, peak: Option<u64>) {
    let worst = times
        .iter()
        .map(Times::best_known)
        .max()
        .unwrap_or_default();
    let best = best(times).as_secs_f64();
    let peak = peak.map_or("not shown".to_string(), |peak| format!("{peak} kB"));
    println!(
        "  {side:<9} best {:>7.1} ms, spread {:>5.1} %, {:>9.0} feeds/s, {:>6.0} ns a feed, peak memory {peak}",
        best * 1e3,
        (worst.as_secs_f64() / best - 1.0) * 100.0,
        feeds as f64 / best,
        best * 1e9 / feeds as f64,
    );
}
