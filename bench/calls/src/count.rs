//! Instructions of a round, counted by callgrind: those of twice as many
//! rounds without those of the rounds, by the rounds.

use std::env;
use std::error::Error;
use std::process::Command;

use crate::rows::{self, Row};

pub fn show(rounds: u64) -> Result<(), Box<dyn Error>> {
    println!("| Row | Hub, instructions a round | Model |");
    println!("|---|---|---|");
    for row in rows::all() {
        let hub = of_round(&row, "hub", rounds)?;
        let model = of_round(&row, "model", rounds)?;
        println!("| {} | {hub} | {model} |", row.name);
    }
    Ok(())
}

fn of_round(row: &Row, side: &str, rounds: u64) -> Result<u64, Box<dyn Error>> {
    let more = counted(row, side, 2 * rounds)?;
    Ok((more - counted(row, side, rounds)?) / rounds)
}

/// The instructions of a whole run. Copies take more or less by where the
/// stack lies, so the environment is empty.
fn counted(row: &Row, side: &str, rounds: u64) -> Result<u64, Box<dyn Error>> {
    let told = Command::new("valgrind")
        .args(["--tool=callgrind", "--callgrind-out-file=/dev/null"])
        .arg(env::current_exe()?)
        .args([&row.name, side, "--rounds", &rounds.to_string()])
        .env_clear()
        .output()
        .map_err(|error| format!("valgrind: {error}"))?;
    let text = String::from_utf8_lossy(&told.stderr);
    let count = text.lines().find_map(|line| line.split_once("Collected :"));
    let (_, count) = count.ok_or("valgrind told no count")?;
    Ok(count.trim().parse()?)
}
