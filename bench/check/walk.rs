//! A walk over Data.db, partition by partition and block by block, which looks at the order of keys.

use crate::cursor::Cursor;
use crate::peer::schema::ValueType;
use crate::peer::{Ending, LONGEST_KEY, Schema, is_key};
use crate::{Part, damaged, store_fault, unsound};
use std::fs::File;
use std::mem;
use std::rc::Rc;

/// A block ends with the first row that ends so many bytes or more past its start.
const BLOCK: u64 = 16_384;

pub struct Walk<'a> {
    schema: &'a Schema,
    cursor: Cursor,
    /// The string of the partition, and where its head stands.
    pub key: Vec<u8>,
    pub head: u64,
    /// The string of the row that was passed last, and that of the row before it.
    pub row: Vec<u8>,
    pub before: Vec<u8>,
    block: u64,
    pub blocks: u32,
    pub rows: u64,
    has_static: bool,
}

fn is_value(kind: ValueType, value: &[u8]) -> bool {
    match kind {
        ValueType::Text => std::str::from_utf8(value).is_ok(),
        ValueType::Blob => true,
    }
}

impl<'a> Walk<'a> {
    pub fn open(schema: &'a Schema, at: u64) -> Result<Walk<'a>, Ending> {
        let cursor = Cursor::new(Rc::new(File::open(Part::Data.file()).map_err(store_fault)?), at);
        let none = Vec::new;
        Ok(Walk { schema, cursor, key: none(), head: at, row: none(), before: none(), block: at, blocks: 0, rows: 0, has_static: false })
    }

    fn bad(&self) -> Ending {
        damaged(Part::Data, self.cursor.at())
    }

    /// The end of the bytes that stand behind a length so far ahead.
    fn counted(&mut self, ahead: usize) -> Result<usize, Ending> {
        let count = self.cursor.count_at(ahead)?.ok_or_else(|| self.bad())?;
        let end = ahead + 2 + count;
        if self.cursor.has(end)? { Ok(end) } else { Err(self.bad()) }
    }

    /// Goes over the head of the next partition and its static part, where there is one.
    pub fn enter(&mut self) -> Result<bool, Ending> {
        if !self.cursor.has(1)? {
            return Ok(false);
        }
        let end = self.counted(0)?;
        let string = &self.cursor.unread()[2..end];
        if string.len() > LONGEST_KEY || !is_key(&self.schema.partition, string) {
            return Err(self.bad());
        }
        if self.key.as_slice() >= string {
            return Err(unsound(Part::Data, self.cursor.at()));
        }
        self.key.clear();
        self.key.extend_from_slice(string);
        (self.head, self.block) = (self.cursor.at(), self.cursor.at());
        (self.blocks, self.rows, self.has_static) = (1, 0, false);
        self.row.clear();
        self.cursor.pass(end);
        if let Some(kind) = self.schema.static_value {
            self.pass_static(kind)?;
        }
        Ok(true)
    }

    fn pass_static(&mut self, kind: ValueType) -> Result<(), Ending> {
        self.has_static = self.cursor.has(1)? && self.cursor.unread()[0] == 1;
        let end = if self.has_static { self.counted(1)? } else { 1 };
        if self.has_static && !is_value(kind, &self.cursor.unread()[3..end]) {
            return Err(self.bad());
        }
        self.cursor.pass(end);
        Ok(())
    }

    /// Goes over the next row, where the partition has one more, and answers whether it begins a block.
    fn pass_row(&mut self) -> Result<Option<bool>, Ending> {
        if !self.cursor.has(1)? || self.cursor.unread()[0] > 1 {
            return Err(self.bad());
        }
        if self.cursor.unread()[0] == 0 {
            self.cursor.pass(1);
            return Ok(None);
        }
        let end = self.counted(1)?;
        let all = self.counted(end)?;
        let (string, value) = (&self.cursor.unread()[3..end], &self.cursor.unread()[end + 2..all]);
        if string.len() > LONGEST_KEY || !is_key(&self.schema.clustering, string) || !is_value(self.schema.value, value) {
            return Err(self.bad());
        }
        if self.row.as_slice() >= string {
            return Err(unsound(Part::Data, self.cursor.at()));
        }
        mem::swap(&mut self.before, &mut self.row);
        self.row.clear();
        self.row.extend_from_slice(string);
        let at = self.cursor.at();
        let begins = self.rows > 0 && at - self.block >= BLOCK;
        if begins {
            self.block = at;
            self.blocks += 1;
        }
        self.rows += 1;
        self.cursor.pass(all);
        Ok(Some(begins))
    }

    /// Goes on to the first row of the next block, and tells its offset; none at the partition's end.
    pub fn next_block(&mut self) -> Result<Option<u64>, Ending> {
        loop {
            match self.pass_row()? {
                Some(true) => return Ok(Some(self.block - self.head)),
                Some(false) => {}
                None => return Ok(None),
            }
        }
    }

    /// Goes over a whole partition, where there is one.
    pub fn advance(&mut self) -> Result<bool, Ending> {
        if !self.enter()? {
            return Ok(false);
        }
        while self.next_block()?.is_some() {}
        if self.rows == 0 && !self.has_static {
            return Err(unsound(Part::Data, self.head));
        }
        Ok(true)
    }
}
