//! Drives a replay program through a pipe: each answer must come before the
//! next line is written.

use std::error::Error;
use std::fs;
use std::path::Path;
use std::process::ExitCode;

use bench::arguments::{self, no_more, Arguments, Usage};
use bench::difference::show_line;
use bench::drive::{self, Cut, Fault};
use bench::scripts::{Kind, Name};
use bench::tour;

const USAGE: Usage = Usage {
    numbers: &["--scripts", "--seed"],
    texts: &["--file"],
    ..Usage::words(
        "usage: drive PROGRAM [--scripts N] [--seed S]
       drive PROGRAM --file SCRIPT
Drives a replay program through a pipe: a line is written only when the answer
to the one before has come. Then the same scripts are sent in parts cut
anywhere. The scripts are that of tour and N generated ones of each kind (2 if
not given), or the file SCRIPT. The answers are compared with the second hub's.
",
    )
};
/// Scripts of each kind unless another number is asked for.
const SCRIPTS: u64 = 2;

fn main() -> ExitCode {
    arguments::run(&USAGE, drive_all)
}

fn drive_all(arguments: &Arguments) -> Result<ExitCode, Box<dyn Error>> {
    let (program, more) = arguments.program()?;
    no_more(more)?;
    let scripts = match arguments.text("--file") {
        Some(file) => {
            let script = fs::read(file).map_err(|error| format!("{file}: {error}"))?;
            vec![(file.to_string(), script)]
        }
        None => scripts(
            arguments.number("--scripts", SCRIPTS) as usize,
            arguments.number("--seed", 1),
        ),
    };
    let mut waits = 0;
    for (name, script) in &scripts {
        for cut in [Cut::Lines, Cut::Anywhere] {
            match drive::drive(Path::new(program), script, cut) {
                Ok(more) => waits += more,
                Err(fault) => {
                    println!("{name}, sent {}", way(cut));
                    show(script, fault);
                    return Ok(ExitCode::FAILURE);
                }
            }
        }
    }
    println!(
        "{} scripts through a pipe, each in two ways; {waits} times answers were waited for, and came",
        scripts.len()
    );
    Ok(ExitCode::SUCCESS)
}

/// The scripts with their names.
fn scripts(each: usize, seed: u64) -> Vec<(String, Vec<u8>)> {
    let mut scripts = vec![("tour".to_string(), tour::script().into_bytes())];
    for kind in Kind::ALL {
        for index in 0..each {
            let name = Name { kind, index };
            scripts.push((format!("{name} --seed {seed}"), name.script(seed)));
        }
    }
    scripts
}

fn way(cut: Cut) -> &'static str {
    match cut {
        Cut::Lines => "line by line",
        Cut::Anywhere => "in parts cut anywhere",
    }
}

fn show(script: &[u8], fault: Fault) {
    let line = |sent: usize| {
        let whole = script[..sent].iter().filter(|&&byte| byte == b'\n');
        format!("{} lines", whole.count())
    };
    match fault {
        Fault::Silent {
            sent,
            expected,
            got,
        } => {
            println!("  after {} it keeps back what it has to say", line(sent));
            show_line(&expected, &got);
        }
        Fault::Other {
            sent,
            expected,
            got,
        } => {
            println!("  after {} it answers otherwise", line(sent));
            show_line(&expected, &got[..got.len().min(expected.len() + 1000)]);
        }
        Fault::End(status) => println!("  answers as expected, but it ended with {status}"),
        Fault::Run(error) => println!("  it could not be run: {error}"),
    }
}
