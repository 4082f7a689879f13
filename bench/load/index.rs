//! The two indexes of a table, each trie held whole until it is packed.

use crate::packer::{Laid, Tree};
use crate::{PARTITIONS, ROWS};
use std::fs::{File, OpenOptions};
use std::io::{self, Write};
use std::mem;

fn common(a: &[u8], b: &[u8]) -> usize {
    a.iter().zip(b).take_while(|(x, y)| x == y).count()
}

/// A number from 0 up in the fewest bytes, at least one.
fn unsigned(number: u64) -> Vec<u8> {
    let bytes = number.to_be_bytes();
    let zeros = bytes.iter().take_while(|byte| **byte == 0).count().min(7);
    bytes[zeros..].to_vec()
}

/// A number in the fewest bytes whose first bit is its sign.
fn signed(number: i64) -> Vec<u8> {
    let bytes = number.to_be_bytes();
    let idle = |pair: &[u8]| pair[0] == if pair[1] < 0x80 { 0 } else { 0xFF };
    let count = bytes.windows(2).take_while(|pair| idle(pair)).count();
    bytes[count..].to_vec()
}

fn put_counted(out: &mut Vec<u8>, bytes: &[u8]) {
    out.extend_from_slice(&(bytes.len() as u16).to_be_bytes());
    out.extend_from_slice(bytes);
}

/// Rows.db: for each partition of two or more blocks their separators.
pub struct RowIndex {
    file: File,
    end: u64,
    tree: Tree,
    blocks: u32,
}

impl RowIndex {
    pub fn new() -> io::Result<RowIndex> {
        let file = OpenOptions::new().append(true).create(true).open(ROWS)?;
        Ok(RowIndex { file, end: 0, tree: Tree::default(), blocks: 1 })
    }

    /// Adds a block, which is not the first, with the row before it and its first row.
    pub fn add(&mut self, before: &[u8], first: &[u8], offset: u64) {
        self.tree.add(&first[..common(before, first) + 1], unsigned(offset));
        self.blocks += 1;
    }

    /// Ends a partition, and answers where its entry stands, where it has two or more blocks.
    pub fn finish_partition(&mut self, string: &[u8], at: u64) -> io::Result<Option<u64>> {
        if self.blocks == 1 {
            return Ok(None);
        }
        let mut laid = Laid::new(self.end);
        let root = mem::take(&mut self.tree).lay(&mut laid);
        let entry = laid.end();
        put_counted(&mut laid.bytes, string);
        laid.bytes.extend_from_slice(&at.to_be_bytes());
        laid.bytes.extend_from_slice(&root.to_be_bytes());
        laid.bytes.extend_from_slice(&mem::replace(&mut self.blocks, 1).to_be_bytes());
        self.end = laid.end();
        self.file.write_all(&laid.bytes)?;
        Ok(Some(entry))
    }
}

/// Partitions.db: the shortest prefixes of the partitions, of which the newest waits for the next one.
#[derive(Default)]
pub struct PartitionIndex<'a> {
    tree: Tree,
    count: u64,
    first: &'a [u8],
    newest: Option<(&'a [u8], i64)>,
    /// How many bytes the newest shares with the one before it.
    shared: usize,
}

impl<'a> PartitionIndex<'a> {
    pub fn add(&mut self, string: &'a [u8], number: i64) {
        let shared = self.newest.map_or(0, |(newest, _)| common(newest, string));
        self.settle(shared);
        if self.count == 0 {
            self.first = string;
        }
        self.count += 1;
        self.newest = Some((string, number));
        self.shared = shared;
    }

    /// Adds the newest, which shares so many bytes with the next one.
    fn settle(&mut self, shared: usize) {
        if let Some((string, number)) = self.newest {
            self.tree.add(&string[..self.shared.max(shared) + 1], signed(number));
        }
    }

    pub fn finish(&mut self) -> io::Result<()> {
        self.settle(0);
        let mut laid = Laid::new(0);
        let root = if self.count > 0 { self.tree.lay(&mut laid) } else { 0 };
        let end = laid.end();
        put_counted(&mut laid.bytes, self.first);
        put_counted(&mut laid.bytes, self.newest.map_or(&[], |(string, _)| string));
        for number in [end, self.count, root] {
            laid.bytes.extend_from_slice(&number.to_be_bytes());
        }
        OpenOptions::new().append(true).create(true).open(PARTITIONS)?.write_all(&laid.bytes)
    }
}
