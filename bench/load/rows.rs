//! The rows of a table, written to Data.db in order with their indexes.

use crate::index::{PartitionIndex, RowIndex};
use crate::peer::script::Key;
use crate::peer::{Rows, Schema};
use crate::{BLOCK, DATA};
use std::fs::{File, OpenOptions};
use std::io::{self, Write};

/// A block of rows ends with the first row that ends so many bytes or more behind its start.
const BLOCK_OF_ROWS: u64 = 16_384;

/// How many rows were written, and how many partitions.
#[derive(Default)]
pub struct Counts {
    pub rows: u64,
    pub partitions: u64,
}

fn put_counted(out: &mut Vec<u8>, bytes: &[u8]) {
    out.extend_from_slice(&(bytes.len() as u16).to_be_bytes());
    out.extend_from_slice(bytes);
}

/// Appends the head of the partition of a key, the first in it, and where the partition has no static value but might have one the byte that says so.
fn put_head(out: &mut Vec<u8>, schema: &Schema, first: &Key) {
    put_counted(out, first.partition());
    if schema.static_value.is_some() && first.clustering().is_some() {
        out.push(0);
    }
}

/// Appends a row or a static value.
fn put_entry(out: &mut Vec<u8>, key: &Key, value: &[u8]) {
    out.push(1);
    if let Some(string) = key.clustering() {
        put_counted(out, string);
    }
    put_counted(out, value);
}

/// Where the partition that is open and its last block begin, and the last row, where there is one and it ended the block.
struct Open<'a> {
    string: &'a [u8],
    at: u64,
    block: u64,
    last: &'a [u8],
    full: bool,
}

/// The three files as they are written.
struct Writer<'a> {
    schema: &'a Schema,
    file: File,
    pending: Vec<u8>,
    written: u64,
    counts: Counts,
    open: Option<Open<'a>>,
    rows: RowIndex,
    partitions: PartitionIndex<'a>,
}

impl<'a> Writer<'a> {
    fn at(&self) -> u64 {
        self.written + self.pending.len() as u64
    }

    /// Ends the partition that is open, where one is.
    fn close(&mut self) -> io::Result<()> {
        if let Some(open) = self.open.take() {
            self.pending.push(0);
            let entry = self.rows.finish_partition(open.string, open.at)?;
            self.partitions.add(open.string, entry.map_or(!(open.at as i64), |at| at as i64));
        }
        Ok(())
    }

    /// A row or a static value.
    fn entry(&mut self, key: &'a Key, value: &[u8]) -> io::Result<()> {
        if self.open.as_ref().is_none_or(|open| open.string != key.partition()) {
            self.close()?;
            let at = self.at();
            put_head(&mut self.pending, self.schema, key);
            self.counts.partitions += 1;
            self.open = Some(Open { string: key.partition(), at, block: at, last: &[], full: false });
        }
        let at = self.at();
        put_entry(&mut self.pending, key, value);
        if let Some(string) = key.clustering() {
            self.row(string, at);
        }
        if self.pending.len() >= BLOCK {
            self.write()?;
        }
        Ok(())
    }

    /// Takes notice of a row that was appended and begins at a place.
    fn row(&mut self, string: &'a [u8], at: u64) {
        let end = self.at();
        self.counts.rows += 1;
        let Some(open) = &mut self.open else { return };
        if open.full {
            self.rows.add(open.last, string, at - open.at);
            open.block = at;
        }
        open.full = end - open.block >= BLOCK_OF_ROWS;
        open.last = string;
    }

    fn write(&mut self) -> io::Result<()> {
        self.file.write_all(&self.pending)?;
        self.written += self.pending.len() as u64;
        self.pending.clear();
        Ok(())
    }
}

pub fn write_rows(schema: &Schema, rows: &Rows) -> io::Result<Counts> {
    let file = OpenOptions::new().append(true).create(true).open(DATA)?;
    let mut writer = Writer {
        schema,
        file,
        pending: Vec::new(),
        written: 0,
        counts: Counts::default(),
        open: None,
        rows: RowIndex::new()?,
        partitions: PartitionIndex::default(),
    };
    for (key, value) in rows {
        writer.entry(key, value)?;
    }
    writer.close()?;
    writer.write()?;
    writer.partitions.finish()?;
    Ok(writer.counts)
}
