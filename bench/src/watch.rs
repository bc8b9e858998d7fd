//! Time and memory of a started program, as the system shows them under
//! `/proc`. Everything is read before the program is waited for.

use std::fs;
use std::io;
use std::process::Child;
use std::thread;
use std::time::{Duration, Instant};

/// Time between two looks at a running program.
const LOOK: Duration = Duration::from_millis(1);

/// The times of one run.
#[derive(Clone, Copy)]
pub struct Times {
    /// User and system time, where the system shows it.
    pub processor: Option<Duration>,
    pub wall: Duration,
}

impl Times {
    /// The time to compare by.
    pub fn best_known(&self) -> Duration {
        self.processor.unwrap_or(self.wall)
    }
}

/// Waits until the program has ended and tells its times.
pub fn times(mut child: Child, start: Instant) -> io::Result<Times> {
    while !has_ended(child.id()) {
        thread::sleep(LOOK);
    }
    let wall = start.elapsed();
    let processor = processor_time(child.id());
    succeed(&mut child)?;
    Ok(Times { processor, wall })
}

/// Waits until the program has ended and tells its peak memory in kilobytes.
pub fn peak_memory(mut child: Child) -> io::Result<Option<u64>> {
    let mut peak = None;
    while !has_ended(child.id()) {
        peak = peak.max(peak_so_far(child.id()));
        thread::sleep(LOOK);
    }
    succeed(&mut child)?;
    Ok(peak)
}

fn succeed(child: &mut Child) -> io::Result<()> {
    let status = child.wait()?;
    if status.success() {
        Ok(())
    } else {
        Err(io::Error::other(format!("the program ended with {status}")))
    }
}

/// Whether the program waits, as it does in a read of an empty pipe.
pub fn is_waiting(process: u32) -> bool {
    state(process) == Some('S')
}

/// Whether the program has ended. It is not yet waited for, so its entry is
/// still there and shows the state Z.
fn has_ended(process: u32) -> bool {
    matches!(state(process), Some('Z') | None)
}

/// The state letter. It stands behind the name, which is in brackets.
fn state(process: u32) -> Option<char> {
    let stat = fs::read_to_string(format!("/proc/{process}/stat")).ok()?;
    let (_, behind) = stat.rsplit_once(") ")?;
    behind.chars().next()
}

/// Nanoseconds on a processor, counted for the first thread.
fn processor_time(process: u32) -> Option<Duration> {
    let text = fs::read_to_string(format!("/proc/{process}/schedstat")).ok()?;
    let nanoseconds = text.split_whitespace().next()?.parse().ok()?;
    (nanoseconds > 0).then(|| Duration::from_nanos(nanoseconds))
}

fn peak_so_far(process: u32) -> Option<u64> {
    let status = fs::read_to_string(format!("/proc/{process}/status")).ok()?;
    let line = status.lines().find(|line| line.starts_with("VmHWM:"))?;
    line.split_whitespace().nth(1)?.parse().ok()
}
