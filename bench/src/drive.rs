//! A replay program driven through a pipe: each part of a script is sent only
//! when all that the program has to say so far has come back.

use std::io::{self, Read, Write};
use std::path::Path;
use std::process::{Child, ChildStdout, Command, ExitStatus, Stdio};
use std::sync::mpsc::{self, Receiver};
use std::thread;
use std::time::{Duration, Instant};

use crate::random::Random;
use crate::replay::lines;
use crate::replay::Replay;

/// A program that says nothing for so long is not waited for any more.
const LONGEST_WAIT: Duration = Duration::from_secs(10);

/// How a script is cut into parts.
#[derive(Clone, Copy, Debug, PartialEq, Eq)]
pub enum Cut {
    /// A line each.
    Lines,
    /// Anywhere: several lines, and often a part of the next.
    Anywhere,
}

/// What went wrong.
pub enum Fault {
    /// What it has to say has not come.
    Silent {
        /// Bytes of the script sent so far.
        sent: usize,
        expected: Vec<u8>,
        got: Vec<u8>,
    },
    /// It came, but is not what is expected.
    Other {
        sent: usize,
        expected: Vec<u8>,
        got: Vec<u8>,
    },
    End(ExitStatus),
    Run(io::Error),
}

/// Drives the program through a script and tells how often its answers were
/// waited for.
pub fn drive(program: &Path, script: &[u8], cut: Cut) -> Result<usize, Fault> {
    let mut child = Command::new(program)
        .stdin(Stdio::piped())
        .stdout(Stdio::piped())
        .spawn()
        .map_err(Fault::Run)?;
    let result = converse(&mut child, script, cut);
    if result.is_err() {
        // It may have ended by itself.
        let _ = child.kill();
    }
    let status = child.wait().map_err(Fault::Run)?;
    match result {
        Ok(_) if !status.success() => Err(Fault::End(status)),
        result => result,
    }
}

fn converse(child: &mut Child, script: &[u8], cut: Cut) -> Result<usize, Fault> {
    let mut input = child.stdin.take().expect("standard input is a pipe");
    let output = child.stdout.take().expect("standard output is a pipe");
    let mut heard = Heard::of(output);
    let due = Due::of(script);
    let mut sent = 0;
    let mut waits = 0;
    for part in parts(script, cut) {
        if let Err(error) = input.write_all(part) {
            // It stopped reading: what it wrote tells more.
            heard.wait_for(&due.answers, sent)?;
            return Err(Fault::Run(error));
        }
        sent += part.len();
        let expected = due.after(sent);
        waits += usize::from(expected.len() > heard.text.len());
        heard.wait_for(expected, sent)?;
    }
    drop(input);
    heard.wait_for_end(&due.answers, sent)?;
    Ok(waits)
}

/// The parts in which a script is sent.
fn parts(script: &[u8], cut: Cut) -> Vec<&[u8]> {
    if cut == Cut::Lines {
        return script.split_inclusive(|&byte| byte == b'\n').collect();
    }
    let random = &mut Random::new(&[script.len() as u64]);
    let mut parts = Vec::new();
    let mut rest = script;
    while !rest.is_empty() {
        let longest = random.pick(&[2, 30, 300, 3000]);
        let length = random.between(1, longest).min(rest.len());
        let (part, behind) = rest.split_at(length);
        parts.push(part);
        rest = behind;
    }
    parts
}

/// What the program has to say, and when.
struct Due {
    answers: Vec<u8>,
    /// For each whole line, its end in the script, and the end of its answer.
    ends: Vec<(usize, usize)>,
}

impl Due {
    fn of(script: &[u8]) -> Self {
        let mut replay = Replay::new();
        let mut answers = Vec::new();
        let whole = script.iter().zip(1..).filter(|(&byte, _)| byte == b'\n');
        let mut whole = whole.map(|(_, end)| end);
        let mut ends = Vec::new();
        for line in lines::all(script) {
            replay.line(&line, &mut answers);
            ends.extend(whole.next().map(|end| (end, answers.len())));
        }
        Due { answers, ends }
    }

    /// All that is due when so many bytes were sent.
    fn after(&self, sent: usize) -> &[u8] {
        let whole = self.ends.partition_point(|(end, _)| *end <= sent);
        let length = whole.checked_sub(1).map_or(0, |last| self.ends[last].1);
        &self.answers[..length]
    }
}

/// What the program said so far, read by a thread of its own.
struct Heard {
    parts: Receiver<Vec<u8>>,
    text: Vec<u8>,
}

impl Heard {
    fn of(mut output: ChildStdout) -> Self {
        let (tell, parts) = mpsc::channel();
        thread::spawn(move || {
            let mut buffer = vec![0; 64 * 1024];
            loop {
                match output.read(&mut buffer) {
                    Ok(count) if count > 0 => {
                        if tell.send(buffer[..count].to_vec()).is_err() {
                            return;
                        }
                    }
                    _ => return,
                }
            }
        });
        Heard {
            parts,
            text: Vec::new(),
        }
    }

    /// Waits until all of this was said.
    fn wait_for(&mut self, expected: &[u8], sent: usize) -> Result<(), Fault> {
        let start = Instant::now();
        while self.text.len() < expected.len() {
            let left = LONGEST_WAIT.saturating_sub(start.elapsed());
            match self.parts.recv_timeout(left) {
                Ok(part) => self.text.extend(part),
                Err(_) => break,
            }
        }
        let same = self.text.iter().zip(expected).all(|(got, due)| got == due);
        if same && self.text.len() >= expected.len() {
            return Ok(());
        }
        let (expected, got) = (expected.to_vec(), self.text.clone());
        Err(if same {
            Fault::Silent {
                sent,
                expected,
                got,
            }
        } else {
            Fault::Other {
                sent,
                expected,
                got,
            }
        })
    }

    /// Waits until the program has ended, having said all of this and no
    /// more.
    fn wait_for_end(&mut self, expected: &[u8], sent: usize) -> Result<(), Fault> {
        self.wait_for(expected, sent)?;
        while let Ok(part) = self.parts.recv_timeout(LONGEST_WAIT) {
            self.text.extend(part);
        }
        if self.text == expected {
            return Ok(());
        }
        Err(Fault::Other {
            sent,
            expected: expected.to_vec(),
            got: self.text.clone(),
        })
    }
}

#[cfg(test)]
mod tests {
    use super::*;

    #[test]
    fn an_answer_is_due_at_the_end_of_its_line() {
        let due = Due::of(b"# no\nclose 0\n\nclose 9\nclose");
        let said = |sent| String::from_utf8(due.after(sent).to_vec()).unwrap();
        assert_eq!(said(0), "");
        assert_eq!(said(12), "");
        assert_eq!(said(13), "done\n");
        assert_eq!(said(21), "done\n");
        assert_eq!(said(22), "done\nrefused 8\n");
        assert_eq!(said(27), "done\nrefused 8\n");
        assert_eq!(due.answers, b"done\nrefused 8\nbad line 5 word 2\n");
    }

    #[test]
    fn no_byte_is_lost_by_a_cut() {
        let script = crate::tour::script();
        for cut in [Cut::Lines, Cut::Anywhere] {
            assert_eq!(parts(script.as_bytes(), cut).concat(), script.as_bytes());
        }
    }
}
