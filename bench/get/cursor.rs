//! Files, read in pieces of 4,096 bytes: pages at their places, and bytes from a place on.

use crate::nodes::PAGE;
use crate::peer::Ending;
use crate::store_fault;
use std::fs::File;
use std::os::unix::fs::FileExt;
use std::rc::Rc;

/// Reads up to a page from a place of a file on; less where the file ends.
fn read_at(file: &File, mut at: u64, bytes: &mut [u8]) -> Result<usize, Ending> {
    let mut count = 0;
    while count < bytes.len() {
        match file.read_at(&mut bytes[count..], at).map_err(store_fault)? {
            0 => break,
            more => {
                count += more;
                at += more as u64;
            }
        }
    }
    Ok(count)
}

/// So many pages are kept, the last used ones.
const KEPT: usize = 64;

/// A file of which the last used pages are kept, the last one first.
pub struct Pages {
    file: File,
    length: u64,
    kept: Vec<(u64, Vec<u8>)>,
}

impl Pages {
    pub fn open(name: &str) -> Result<Pages, Ending> {
        let file = File::open(name).map_err(store_fault)?;
        let length = file.metadata().map_err(store_fault)?.len();
        Ok(Pages { file, length, kept: Vec::new() })
    }

    pub fn length(&self) -> u64 {
        self.length
    }

    /// The page of a place, and where in it the place is.
    pub fn page(&mut self, at: u64) -> Result<(&[u8], usize), Ending> {
        let start = at / PAGE * PAGE;
        match self.kept.iter().position(|page| page.0 == start) {
            Some(place) => self.kept[..=place].rotate_right(1),
            None => {
                let count = self.length.saturating_sub(start).min(PAGE) as usize;
                let mut bytes = vec![0; count];
                let count = read_at(&self.file, start, &mut bytes)?;
                bytes.truncate(count);
                self.kept.truncate(KEPT - 1);
                self.kept.insert(0, (start, bytes));
            }
        }
        Ok((&self.kept[0].1, (at - start) as usize))
    }

    /// Up to so many bytes from a place on; less where the file ends.
    pub fn bytes(&mut self, at: u64, count: usize) -> Result<Vec<u8>, Ending> {
        let mut all = Vec::new();
        while all.len() < count {
            let (page, from) = self.page(at + all.len() as u64)?;
            let end = page.len().min(from + count - all.len());
            if end <= from {
                break;
            }
            all.extend_from_slice(&page[from..end]);
        }
        Ok(all)
    }
}

/// The bytes of a file from a place on.
pub struct Cursor {
    file: Rc<File>,
    bytes: Vec<u8>,
    used: usize,
    at: u64,
    whole: bool,
}

impl Cursor {
    pub fn new(file: Rc<File>, at: u64) -> Cursor {
        Cursor { file, bytes: Vec::new(), used: 0, at, whole: false }
    }

    /// The place of the first unused byte.
    pub fn at(&self) -> u64 {
        self.at
    }

    pub fn unread(&self) -> &[u8] {
        &self.bytes[self.used..]
    }

    pub fn pass(&mut self, count: usize) {
        self.used += count;
        self.at += count as u64;
    }

    /// Whether there are so many unused bytes, read as they are needed.
    pub fn has(&mut self, count: usize) -> Result<bool, Ending> {
        while self.unread().len() < count && !self.whole {
            self.fill()?;
        }
        Ok(self.unread().len() >= count)
    }

    fn fill(&mut self) -> Result<(), Ending> {
        self.bytes.drain(..self.used);
        self.used = 0;
        let held = self.bytes.len();
        self.bytes.resize(held + PAGE as usize, 0);
        let count = read_at(&self.file, self.at + held as u64, &mut self.bytes[held..])?;
        self.bytes.truncate(held + count);
        self.whole = count < PAGE as usize;
        Ok(())
    }

    /// The number in two bytes that stand so far ahead.
    pub fn count_at(&mut self, ahead: usize) -> Result<Option<usize>, Ending> {
        Ok(self.has(ahead + 2)?.then(|| usize::from(u16::from_be_bytes([self.unread()[ahead], self.unread()[ahead + 1]]))))
    }
}
