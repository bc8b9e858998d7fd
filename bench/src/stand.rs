//! A stand on which a program is run on captures, one after the other.

use std::io::{self, Read, Write};
use std::path::{Path, PathBuf};
use std::process::{Child, ChildStdin, Command, ExitStatus, Stdio};
use std::sync::mpsc;
use std::thread;
use std::time::Duration;

use crate::input::Input;
use crate::random::Random;
use crate::watch;

/// A program that takes longer is ended.
const LONGEST_RUN: Duration = Duration::from_secs(60);
/// Captures up to this size come in so many parts or somewhat more.
const FEW_PARTS_MOST: usize = 100_000;
const FEW_PARTS: usize = 24;
/// The greatest part of a larger capture.
const PART_MOST: usize = 10_000;
/// Looks at a program before the next part is sent in any case.
const LOOKS: usize = 40;
/// Time between two looks.
const PAUSE: Duration = Duration::from_micros(50);

/// How the capture comes to the program.
#[derive(Clone, Copy, Debug, PartialEq, Eq)]
pub enum Feed {
    /// Standard input is a file.
    File,
    /// Standard input is a pipe, written in small parts cut anywhere.
    Parts,
}

/// What the program wrote and how it ended.
pub struct Answer {
    pub text: Vec<u8>,
    pub status: ExitStatus,
}

/// A program, and a file to hand captures over.
pub struct Stand {
    program: PathBuf,
    input: Input,
}

impl Stand {
    /// The name keeps the files of several stands apart.
    pub fn new(program: &Path, name: &str) -> io::Result<Self> {
        Ok(Stand {
            program: program.to_owned(),
            input: Input::new(name)?,
        })
    }

    /// Runs the program on a capture, and reads no more than so many bytes.
    pub fn run(&mut self, capture: &[u8], feed: Feed, most: usize) -> io::Result<Answer> {
        let input = match feed {
            Feed::File => self.filled(capture)?,
            Feed::Parts => Stdio::piped(),
        };
        let mut child = Command::new(&self.program)
            .stdin(input)
            .stdout(Stdio::piped())
            .spawn()?;
        let process = child.id();
        let pipe = child.stdin.take();
        thread::scope(|scope| {
            if let Some(pipe) = pipe {
                scope.spawn(move || send_in_parts(pipe, process, capture));
            }
            answer(child, most as u64)
        })
    }

    fn filled(&mut self, capture: &[u8]) -> io::Result<Stdio> {
        self.input.fill(capture)?;
        self.input.from_start()
    }
}

/// Reads what the program writes. A program that does not end is ended.
fn answer(mut child: Child, most: u64) -> io::Result<Answer> {
    let output = child.stdout.take().expect("standard output is a pipe");
    let (tell, told) = mpsc::channel();
    thread::spawn(move || {
        let mut text = Vec::new();
        let read = output.take(most).read_to_end(&mut text);
        let _ = tell.send(read.map(|_| text));
    });
    match told.recv_timeout(LONGEST_RUN) {
        Ok(text) => Ok(Answer {
            text: text?,
            status: child.wait()?,
        }),
        Err(_) => {
            child.kill()?;
            child.wait()?;
            Err(io::Error::other("it did not end"))
        }
    }
}

/// Sends a capture in parts. A program that stops reading is no fault here:
/// what it writes will tell.
fn send_in_parts(mut pipe: ChildStdin, process: u32, capture: &[u8]) {
    let random = &mut Random::new(&[capture.len() as u64]);
    let few = capture.len() <= FEW_PARTS_MOST;
    let longest = if few {
        1 + capture.len() / FEW_PARTS
    } else {
        PART_MOST
    };
    let mut rest = capture;
    while !rest.is_empty() {
        let (part, behind) = rest.split_at(random.between(1, longest).min(rest.len()));
        if few {
            let_read(process);
        }
        if pipe.write_all(part).is_err() {
            return;
        }
        rest = behind;
    }
}

/// Gives the program time to take what was sent, so that it sees the next
/// part by itself.
fn let_read(process: u32) {
    for _ in 0..LOOKS {
        if watch::is_waiting(process) {
            return;
        }
        thread::sleep(PAUSE);
    }
}
