//! Runs a replay program on generated scripts and compares its answers, byte
//! for byte, with the model's.

use std::env;
use std::error::Error;
use std::fs;
use std::io;
use std::path::Path;
use std::process::ExitCode;

use bench::arguments::{self, wrong, Arguments, Usage};
use bench::difference::{self, quoted, Fault};
use bench::reach::Reach;
use bench::replay::lines;
use bench::replay::Replay;
use bench::scripts::{Kind, Name};
use bench::stand::{Feed, Stand};
use bench::workers::{self, WORKERS};

const USAGE: Usage = Usage {
    numbers: &["--scripts", "--seed"],
    ..Usage::words(
        "usage: compare-replay PROGRAM [KIND INDEX] [--scripts N] [--seed S]
Runs a replay program on N generated scripts (2400 if not given), or on the
script KIND INDEX alone, and compares its answers with the second hub's.
KIND is one of directory, unknown, requests, sessions, wire, calls, bad, names,
rooms, mixed, cuts, broken, passwords.
",
    )
};
/// Scripts that are run unless another number is asked for.
const SCRIPTS: u64 = 2_400;
/// One script in so many comes in parts.
const PARTS_ONCE_IN: usize = 16;

/// A script on which the program is wrong.
struct Difference {
    name: Name,
    script: Vec<u8>,
    expected: Vec<u8>,
    fault: Fault,
}

fn main() -> ExitCode {
    arguments::run(&USAGE, compare_as_asked)
}

fn compare_as_asked(arguments: &Arguments) -> Result<ExitCode, Box<dyn Error>> {
    let (program, name) = arguments.program()?;
    let seed = arguments.number("--seed", 1);
    let names = if name.is_empty() {
        names(arguments.number("--scripts", SCRIPTS) as usize)
    } else {
        vec![Name::parse(name).ok_or_else(|| wrong("no such script"))?]
    };
    let (reach, found) = compare(Path::new(program), seed, &names)?;
    if let Some((number, difference)) = found {
        println!("a difference after {number} scripts");
        show(&difference, program, seed)?;
        return Ok(ExitCode::FAILURE);
    }
    print!("{reach}");
    let missing = reach.missing();
    if name.is_empty() && !missing.is_empty() {
        println!("never reached: {}", missing.join(", "));
        return Ok(ExitCode::FAILURE);
    }
    println!("{} scripts, seed {seed}, no difference", reach.scripts);
    Ok(ExitCode::SUCCESS)
}

/// The systematic scripts, and drawn ones of the other kinds to make up the
/// number asked for. The kinds take turns.
fn names(scripts: usize) -> Vec<Name> {
    let systematic: usize = Kind::ALL.iter().map(|kind| kind.systematic()).sum();
    let drawn_kinds = Kind::ALL.iter().filter(|kind| kind.systematic() == 0);
    let drawn = scripts
        .saturating_sub(systematic)
        .div_ceil(drawn_kinds.count());
    let mut names = Vec::new();
    for kind in Kind::ALL {
        let count = match kind.systematic() {
            0 => drawn,
            count => count,
        };
        names.extend((0..count).map(|index| Name { kind, index }));
    }
    names.sort_by_key(|name| name.index);
    names
}

fn compare(
    program: &Path,
    seed: u64,
    names: &[Name],
) -> io::Result<(Reach, Option<(usize, Difference)>)> {
    let mut states = Vec::new();
    for worker in 0..WORKERS {
        let stand = Stand::new(program, &worker.to_string())?;
        states.push((stand, Reach::default()));
    }
    let (states, found) = workers::take(names.len(), states, |(stand, reach), number| {
        run(stand, names[number], seed, reach)
    });
    let mut reach = Reach::default();
    for (_, more) in &states {
        reach.add(more);
    }
    Ok((reach, found))
}

/// How a script comes to the program.
fn feed(name: Name) -> Feed {
    if name.index % PARTS_ONCE_IN == PARTS_ONCE_IN - 1 {
        Feed::Parts
    } else {
        Feed::File
    }
}

fn run(stand: &mut Stand, name: Name, seed: u64, reach: &mut Reach) -> Option<Difference> {
    let script = name.script(seed);
    let expected = reach.answer(&script);
    let answer = stand.run(&script, feed(name), difference::enough(&expected));
    difference::fault(&expected, answer).map(|fault| Difference {
        name,
        script,
        expected,
        fault,
    })
}

fn show(difference: &Difference, program: &str, seed: u64) -> io::Result<()> {
    let Difference {
        name,
        script,
        expected,
        fault,
    } = difference;
    let file = format!("{}-{}-{seed}.script", name.kind.name(), name.index);
    let path = env::temp_dir().join(file);
    fs::write(&path, script)?;
    println!("  script    {name}, seed {seed}: {}", path.display());
    println!("  again     compare-replay {program} {name} --seed {seed}");
    match fault {
        Fault::Output(got) => show_call(script, expected, got)?,
        Fault::End(status) => println!("  answers as expected, but it ended with {status}"),
        Fault::Run(error) => println!("  it could not be run: {error}"),
    }
    Ok(())
}

/// Shows the call whose answer differs first, and both answers.
fn show_call(script: &[u8], expected: &[u8], got: &[u8]) -> io::Result<()> {
    let same = expected
        .iter()
        .zip(got)
        .take_while(|(one, other)| one == other)
        .count();
    let mut replay = Replay::new();
    let (mut last, mut answers, mut number) = (Vec::new(), Vec::new(), 0);
    for line in lines::all(script) {
        if answers.len() > same {
            break;
        }
        replay.line(&line, &mut answers);
        number += 1;
        last = line;
    }
    println!(
        "  call      line {number} of the script: {}",
        quoted(Some(&last))
    );
    difference::show_line(expected, got);
    Ok(())
}
