//! Measures the hub's calls in process: the static library `rounds` against
//! the second hub, on the same bytes in the same run.

mod count;
mod rows;
mod sides;

use std::error::Error;
use std::process::ExitCode;
use std::time::{Duration, Instant};

use bench::arguments::{self, wrong, Arguments, Usage};
use rows::Row;
use sides::Side;

const USAGE: Usage = Usage {
    numbers: &["--rounds", "--runs"],
    ..Usage::words(
        "usage: measure-calls [--rounds N] [--runs N]
       measure-calls count [--rounds N]
       measure-calls ROW SIDE [--rounds N]
Times the hub's calls in process against the second hub's, or counts their
instructions, or makes the rounds of one row on one side. SIDE is `hub` or
`model`; a ROW is named by its first word.
",
    )
};
/// Rounds of a run, and runs of each side, unless others are asked for.
const ROUNDS: u64 = 1_000;
const RUNS: u64 = 300;
/// Rounds of the shorter of two counted runs.
const COUNTED: u64 = 500;

fn main() -> ExitCode {
    arguments::run(&USAGE, run)
}

fn run(arguments: &Arguments) -> Result<ExitCode, Box<dyn Error>> {
    let runs = arguments.number("--runs", RUNS).max(1);
    let rounds = |otherwise| arguments.number("--rounds", otherwise).max(1);
    let words: Vec<&str> = arguments.words.iter().map(String::as_str).collect();
    match words[..] {
        [] => measure(rounds(ROUNDS), runs)?,
        ["count"] => count::show(rounds(COUNTED))?,
        [row, side] => {
            let row = rows::named(row).ok_or_else(|| wrong("no such row"))?;
            let side = Side::named(side).ok_or_else(|| wrong("no such side"))?;
            side.make(&row, rounds(ROUNDS));
        }
        _ => return Err(wrong("wrong words")),
    }
    Ok(ExitCode::SUCCESS)
}

/// Shows a line for each row. Both sides must leave the same reply, room and
/// table, after one round and after all.
fn measure(rounds: u64, runs: u64) -> Result<(), String> {
    println!("Best of {runs} runs of {rounds} rounds each, both sides in turn.");
    println!("The ratio is the model's time by the hub's: above 1, the hub is faster.");
    println!();
    println!("| Row | Goal | Ratio | Hub, a round | Model, a round | Spread |");
    println!("|---|---|---|---|---|---|");
    for row in rows::all() {
        for rounds in [1, rounds] {
            let left = Side::Hub.make(&row, rounds);
            if !left.room.starts_with(&row.reply) {
                return Err(format!("{}: another reply", row.name));
            }
            if left != Side::Model.make(&row, rounds) {
                return Err(format!("{}: the two sides differ", row.name));
            }
        }
        show(&row, rounds, runs);
    }
    Ok(())
}

fn show(row: &Row, rounds: u64, runs: u64) {
    let mut hub = Vec::new();
    let mut model = Vec::new();
    for _ in 0..runs {
        hub.push(timed(Side::Hub, row, rounds));
        model.push(timed(Side::Model, row, rounds));
    }
    let goal = row.goal.map_or("-".into(), |goal| format!("{goal:.1}"));
    let (hub, hub_spread) = best(&hub, rounds);
    let (model, model_spread) = best(&model, rounds);
    println!(
        "| {} | {goal} | {:.2} | {hub:.0} ns | {model:.0} ns | {hub_spread:.0} %, {model_spread:.0} % |",
        row.name,
        model / hub,
    );
}

fn timed(side: Side, row: &Row, rounds: u64) -> Duration {
    let start = Instant::now();
    side.make(row, rounds);
    start.elapsed()
}

/// The least time of a round in nanoseconds, and how far the middle one is
/// above it, in percent.
fn best(times: &[Duration], rounds: u64) -> (f64, f64) {
    let mut times: Vec<f64> = times.iter().map(Duration::as_secs_f64).collect();
    times.sort_by(f64::total_cmp);
    let spread = times[times.len() / 2] / times[0] - 1.0;
    (times[0] * 1e9 / rounds as f64, spread * 100.0)
}
