//! A file, read ahead.

use std::fs::File;
use std::io::{self, Read};

/// The longest row, and how far a window is read ahead where it has less.
const ENOUGH: usize = 66_564;
const AHEAD: usize = 262_144;

/// The bytes of a file from a place on that were read and are not yet used.
pub struct Window {
    file: File,
    bytes: Vec<u8>,
    used: usize,
    at: u64,
    whole: bool,
}

impl Window {
    /// The window at the start of the file.
    pub fn new(file: File) -> Window {
        Window { file, bytes: Vec::new(), used: 0, at: 0, whole: false }
    }

    pub fn unread(&self) -> &[u8] {
        &self.bytes[self.used..]
    }

    /// The place of the first unused byte.
    pub fn at(&self) -> u64 {
        self.at
    }

    pub fn pass(&mut self, count: usize) {
        self.used += count;
        self.at += count as u64;
    }

    pub fn fill(&mut self) -> io::Result<()> {
        if self.whole || self.unread().len() >= ENOUGH {
            return Ok(());
        }
        self.bytes.drain(..self.used);
        self.used = 0;
        let wanted = (AHEAD - self.bytes.len()) as u64;
        self.whole = (&mut self.file).take(wanted).read_to_end(&mut self.bytes)? == 0;
        Ok(())
    }
}
