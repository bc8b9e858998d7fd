//! How the output of a program differs from what is expected.

use std::io;
use std::process::ExitStatus;

use crate::stand::Answer;

/// The most bytes of a line that are shown.
const SHOWN_MOST: usize = 400;

pub enum Fault {
    /// Its output is not the expected one.
    Output(Vec<u8>),
    /// Its output is right, but it did not end well.
    End(ExitStatus),
    /// It could not be run to its end.
    Run(io::Error),
}

/// More bytes than a right output has.
pub fn enough(expected: &[u8]) -> usize {
    expected.len() + 1000
}

pub fn fault(expected: &[u8], answer: io::Result<Answer>) -> Option<Fault> {
    match answer {
        Err(error) => Some(Fault::Run(error)),
        Ok(answer) if answer.text != expected => Some(Fault::Output(answer.text)),
        Ok(answer) if !answer.status.success() => Some(Fault::End(answer.status)),
        Ok(_) => None,
    }
}

/// Shows the first line that differs, and tells its number, the first being 0.
pub fn show_line(expected: &[u8], got: &[u8]) -> usize {
    let mut wanted = expected.split_inclusive(|&byte| byte == b'\n');
    let mut got = got.split_inclusive(|&byte| byte == b'\n');
    let mut line = 0;
    let (wanted, got) = loop {
        match (wanted.next(), got.next()) {
            (None, None) => break (None, None),
            (wanted, got) if wanted != got => break (wanted, got),
            _ => line += 1,
        }
    };
    println!("  line {}", line + 1);
    println!("  expected  {}", quoted(wanted));
    println!("  got       {}", quoted(got));
    line
}

/// A line between quotes. The rest of a long one is left out.
pub fn quoted(line: Option<&[u8]>) -> String {
    match line {
        Some(line) if line.len() > SHOWN_MOST => {
            let start = String::from_utf8_lossy(&line[..SHOWN_MOST]);
            format!("{start:?} and {} bytes more", line.len() - SHOWN_MOST)
        }
        Some(line) => format!("{:?}", String::from_utf8_lossy(line)),
        None => "nothing more".to_string(),
    }
}
