//! A file that hands captures to a program as its standard input.

use std::env;
use std::fs::{self, File, OpenOptions};
use std::io::{self, Seek, Write};
use std::process::{self, Stdio};

/// It has no name any more, so it is gone when the bench ends.
pub struct Input {
    file: File,
}

impl Input {
    /// An empty file. The name keeps the files of one process apart.
    pub fn new(name: &str) -> io::Result<Self> {
        let path = env::temp_dir().join(format!("bench-{}-{name}", process::id()));
        let file = OpenOptions::new()
            .read(true)
            .write(true)
            .create_new(true)
            .open(&path)?;
        fs::remove_file(&path)?;
        Ok(Input { file })
    }

    /// Puts a capture in the place of the one before.
    pub fn fill(&mut self, capture: &[u8]) -> io::Result<()> {
        self.file.set_len(0)?;
        self.file.rewind()?;
        self.file.write_all(capture)
    }

    /// The capture from its start. Only one program may read at a time.
    pub fn from_start(&mut self) -> io::Result<Stdio> {
        self.file.rewind()?;
        Ok(self.file.try_clone()?.into())
    }
}
