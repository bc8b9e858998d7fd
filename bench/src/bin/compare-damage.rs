//! Tries demand 3 on a replay program: it answers a list of feeds with one
//! damaged frame, and the same list without that frame's feeds. The two runs
//! must agree in everything else. Nothing is compared with the model.

use std::collections::BTreeMap;
use std::env;
use std::error::Error;
use std::fs;
use std::io;
use std::path::Path;
use std::process::ExitCode;

use bench::arguments::{self, no_more, wrong, Arguments, Usage};
use bench::difference;
use bench::replay::call::hex;
use bench::scripts::damage::{self, Pair};
use bench::stand::{Feed, Stand};
use bench::workers::{self, WORKERS};

const USAGE: Usage = Usage {
    numbers: &["--scripts", "--seed"],
    ..Usage::words(
        "usage: compare-damage PROGRAM [INDEX] [--scripts N] [--seed S]
Tries on a replay program that a damaged frame leaves no trace, on N pairs of
scripts (3000 if not given), or on the pair INDEX alone.
",
    )
};
/// Pairs that are run unless another number is asked for.
const SCRIPTS: u64 = 3_000;
/// More bytes than the answers to a script have.
const OUTPUT_MOST: usize = 10_000_000;

type Counts = BTreeMap<String, u64>;

/// A pair on which the program does not do as demanded.
struct Difference {
    index: usize,
    pair: Pair,
    fault: Fault,
}

enum Fault {
    /// The frame's feeds are not answered by one error reply alone, at places
    /// of the frame.
    Frame(Vec<String>),
    /// Another answer or the end state differs.
    Others {
        with: Vec<u8>,
        without: Vec<u8>,
    },
    Run(String),
}

fn main() -> ExitCode {
    arguments::run(&USAGE, compare_as_asked)
}

fn compare_as_asked(arguments: &Arguments) -> Result<ExitCode, Box<dyn Error>> {
    let (program, index) = arguments.program()?;
    let seed = arguments.number("--seed", 1);
    let indices: Vec<usize> = match index {
        [] => (0..arguments.number("--scripts", SCRIPTS) as usize).collect(),
        [index, more @ ..] => {
            no_more(more)?;
            vec![index.parse().map_err(|_| wrong("INDEX is a number"))?]
        }
    };
    let (counts, found) = compare(Path::new(program), seed, &indices)?;
    if let Some((number, difference)) = found {
        println!("a difference after {number} pairs");
        show(&difference, program, seed)?;
        return Ok(ExitCode::FAILURE);
    }
    for (row, count) in &counts {
        println!("{count:>9}  {row}");
    }
    let missing: Vec<_> = damage::rows()
        .into_iter()
        .filter(|row| counts[row] == 0)
        .collect();
    if index.is_empty() && !missing.is_empty() {
        println!("never reached: {}", missing.join(", "));
        return Ok(ExitCode::FAILURE);
    }
    println!(
        "{} pairs of scripts, seed {seed}, no difference",
        indices.len()
    );
    Ok(ExitCode::SUCCESS)
}

fn compare(
    program: &Path,
    seed: u64,
    indices: &[usize],
) -> io::Result<(Counts, Option<(usize, Difference)>)> {
    let zero: Counts = damage::rows().into_iter().map(|row| (row, 0)).collect();
    let mut states = Vec::new();
    for worker in 0..WORKERS {
        let stand = Stand::new(program, &worker.to_string())?;
        states.push((stand, zero.clone()));
    }
    let (states, found) = workers::take(indices.len(), states, |(stand, counts), number| {
        run(stand, indices[number], seed, counts)
    });
    let mut all = zero;
    for (_, counts) in states {
        for (row, count) in counts {
            *all.entry(row).or_default() += count;
        }
    }
    Ok((all, found))
}

/// Runs the program on both scripts of a pair.
fn run(stand: &mut Stand, index: usize, seed: u64, counts: &mut Counts) -> Option<Difference> {
    let pair = damage::pair(seed, index);
    let with = answers(stand, &pair.with);
    let without = answers(stand, &pair.without);
    let judged = match (with, without) {
        (Ok(with), Ok(without)) => judge(&pair, &with, &without),
        (Err(error), _) | (_, Err(error)) => Err(Fault::Run(error)),
    };
    match judged {
        Ok(packet) => {
            for row in pair.rows.iter().chain([&packet]) {
                *counts.entry(row.clone()).or_default() += 1;
            }
            None
        }
        Err(fault) => Some(Difference { index, pair, fault }),
    }
}

fn answers(stand: &mut Stand, script: &[u8]) -> Result<Vec<u8>, String> {
    let answer = stand.run(script, Feed::File, OUTPUT_MOST);
    let answer = answer.map_err(|error| format!("it could not be run: {error}"))?;
    if answer.status.success() {
        Ok(answer.text)
    } else {
        Err(format!("it ended with {}", answer.status))
    }
}

/// Tells the refusal of the damaged frame if all is as demanded.
fn judge(pair: &Pair, with: &[u8], without: &[u8]) -> Result<String, Fault> {
    let lines = with.split_inclusive(|&byte| byte == b'\n').enumerate();
    let (frame, others): (Vec<_>, Vec<_>) =
        lines.partition(|(number, _)| pair.frame_feeds.contains(number));
    let text = |(_, line): &(usize, &[u8])| String::from_utf8_lossy(line).trim_end().to_string();
    let frame: Vec<String> = frame.iter().map(text).collect();
    let packet = refused_once(pair, &frame).ok_or(Fault::Frame(frame))?;
    let others = others
        .into_iter()
        .map(|(_, line)| line)
        .collect::<Vec<_>>()
        .concat();
    if others != without {
        return Err(Fault::Others {
            with: others,
            without: without.to_vec(),
        });
    }
    Ok(packet)
}

/// The frame's feeds, refused ones aside, tell nothing but in the last one
/// a packet refusal at places of the frame, with the error reply.
fn refused_once(pair: &Pair, answers: &[String]) -> Option<String> {
    let (last, before) = answers.split_last()?;
    let silent = |answer: &String| {
        let refused = ["refused 7", "refused 9"].contains(&answer.as_str());
        refused || answer.ends_with(" none reply -")
    };
    let packet = pair.refused(last)?;
    before.iter().all(silent).then_some(packet)
}

fn show(difference: &Difference, program: &str, seed: u64) -> io::Result<()> {
    let Difference { index, pair, fault } = difference;
    for (name, script) in [("with", &pair.with), ("without", &pair.without)] {
        let path = env::temp_dir().join(format!("damage-{index}-{seed}-{name}.script"));
        fs::write(&path, script)?;
        println!("  {name:<9} {}", path.display());
    }
    println!("  again     compare-damage {program} {index} --seed {seed}");
    let feeds: Vec<_> = pair
        .frame_feeds
        .iter()
        .map(|line| (line + 1).to_string())
        .collect();
    println!("  frame     its feeds are lines {}", feeds.join(", "));
    match fault {
        Fault::Frame(answers) => {
            println!("  these must be silent but for one error reply at places of the");
            println!("  damaged frame {}; they are answered", hex(&pair.piece));
            for answer in answers {
                println!("    {answer}");
            }
        }
        Fault::Others { with, without } => {
            println!("  the other answers; expected is the run without the frame");
            difference::show_line(without, with);
        }
        Fault::Run(error) => println!("  {error}"),
    }
    Ok(())
}
