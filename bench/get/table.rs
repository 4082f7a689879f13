//! A table, of which values and ranges are read.

use crate::bound::Bound;
use crate::cursor::Cursor;
use crate::index::{Footer, Index};
use crate::peer::schema::ValueType;
use crate::peer::{Ending, LONGEST_KEY, Schema};
use crate::{damaged, store_fault};
use std::cmp::Ordering;
use std::fs::File;
use std::rc::Rc;

pub struct Table<'a> {
    schema: &'a Schema,
    partitions: Index,
    footer: Footer,
    data: Rc<File>,
    /// Rows.db, once an entry of it was asked for.
    rows: Option<Index>,
}

/// Where a partition stands: its string as far as it is known without its head, its head's position, and the root of its blocks' trie, where it has one.
struct Place {
    string: Option<Vec<u8>>,
    at: u64,
    root: Option<u64>,
}

/// A row, or a static value without a row's string.
pub struct Entry<'w> {
    pub row: Option<&'w [u8]>,
    pub value: &'w [u8],
}

impl<'a> Table<'a> {
    pub fn open(schema: &'a Schema) -> Result<Table<'a>, Ending> {
        let mut partitions = Index::open("1-Partitions.db", "Partitions")?;
        let footer = partitions.footer()?;
        let data = Rc::new(File::open("1-Data.db").map_err(store_fault)?);
        Ok(Table { schema, partitions, footer, data, rows: None })
    }

    fn rows(&mut self) -> Result<&mut Index, Ending> {
        if self.rows.is_none() {
            self.rows = Some(Index::open("1-Rows.db", "Rows")?);
        }
        self.rows.as_mut().ok_or_else(Ending::usage)
    }

    fn place(&mut self, number: i64) -> Result<Place, Ending> {
        if number < 0 {
            return Ok(Place { string: None, at: !number as u64, root: None });
        }
        let entry = self.rows()?.entry(number as u64)?;
        Ok(Place { string: Some(entry.string), at: entry.data_at, root: Some(entry.root) })
    }

    /// The offset of the block in which rows from a string on begin; 0 for the first.
    fn block(&mut self, place: &Place, string: &[u8]) -> Result<u64, Ending> {
        match place.root {
            Some(root) => Ok(self.rows()?.floor(root, string)?.unwrap_or(0)),
            None => Ok(0),
        }
    }

    fn walk_from(&self, partition: &[u8], at: u64, offset: u64) -> Walk<'a> {
        Walk::new(self.schema, self.data.clone(), partition, at, offset)
    }

    /// The value of a row, or the static value of a partition.
    pub fn value(&mut self, partition: &[u8], row: Option<&[u8]>) -> Result<Option<Vec<u8>>, Ending> {
        if self.footer.partitions == 0 {
            return Ok(None);
        }
        let Some(number) = self.partitions.find(self.footer.root, partition)? else { return Ok(None) };
        let place = self.place(number)?;
        if place.string.as_ref().is_some_and(|string| string != partition) {
            return Ok(None);
        }
        let offset = row.map_or(Ok(0), |row| self.block(&place, row))?;
        let mut walk = self.walk_from(partition, place.at, offset);
        walk.find(partition, row)
    }

    /// A walk that begins at or before the first row or static value of a range, and not before its block; `None` where no partition is there.
    pub fn walk(&mut self, from: Option<&Bound>) -> Result<Option<Walk<'a>>, Ending> {
        let Some(from) = from else { return Ok(Some(self.walk_from(&[], 0, 0))) };
        if self.footer.partitions == 0 {
            return Ok(None);
        }
        let reached = self.partitions.reach(self.footer.root, &from.partition)?;
        if let Some(number) = reached.payload {
            let mut place = self.place(number)?;
            if place.string.is_none() {
                place.string = Some(self.walk_from(&[], place.at, 0).head()?);
            }
            match place.string.as_deref().cmp(&Some(&from.partition)) {
                Ordering::Less => {}
                Ordering::Greater => return Ok(Some(self.walk_from(&[], place.at, 0))),
                Ordering::Equal => {
                    let offset = from.first.as_ref().map_or(Ok(0), |first| self.block(&place, first))?;
                    return Ok(Some(self.walk_from(&from.partition, place.at, offset)));
                }
            }
        }
        let Some(behind) = reached.behind else { return Ok(None) };
        let number = self.partitions.least(behind)?;
        let place = self.place(number)?;
        Ok(Some(self.walk_from(&[], place.at, 0)))
    }
}

/// What is expected next in Data.db.
#[derive(Clone, Copy)]
enum Next {
    Head,
    Static(ValueType),
    Row,
}

/// The rows and static values of Data.db from a place on, one after the other.
pub struct Walk<'a> {
    schema: &'a Schema,
    cursor: Cursor,
    next: Next,
    partition: Vec<u8>,
    /// Where in the unread bytes the row's string stands, where there is one, and the value; and how long the whole is.
    row: Option<(usize, usize)>,
    value: (usize, usize),
    length: usize,
}

fn is_value(kind: ValueType, value: &[u8]) -> bool {
    match kind {
        ValueType::Text => std::str::from_utf8(value).is_ok(),
        ValueType::Blob => true,
    }
}

impl<'a> Walk<'a> {
    /// A walk from the head of a partition on, or from a block of it behind the first.
    fn new(schema: &'a Schema, file: Rc<File>, partition: &[u8], at: u64, offset: u64) -> Walk<'a> {
        let next = if offset > 0 { Next::Row } else { Next::Head };
        let cursor = Cursor::new(file, at + offset);
        Walk { schema, cursor, next, partition: partition.to_vec(), row: None, value: (0, 0), length: 0 }
    }

    pub fn at(&self) -> u64 {
        self.cursor.at()
    }

    fn damaged(&self) -> Ending {
        damaged("Data", self.at())
    }

    /// The string of the head that stands here.
    fn head(&mut self) -> Result<Vec<u8>, Ending> {
        let length = self.cursor.count_at(0)?.filter(|length| *length <= LONGEST_KEY).ok_or_else(|| self.damaged())?;
        if !self.cursor.has(2 + length)? {
            return Err(self.damaged());
        }
        let string = self.cursor.unread()[2..2 + length].to_vec();
        self.cursor.pass(2 + length);
        Ok(string)
    }

    /// Goes to a value whose length stands so far ahead.
    fn reach_value(&mut self, kind: ValueType, ahead: usize) -> Result<(), Ending> {
        let length = self.cursor.count_at(ahead)?.ok_or_else(|| self.damaged())?;
        self.value = (ahead + 2, ahead + 2 + length);
        self.length = ahead + 2 + length;
        if !self.cursor.has(self.length)? || !is_value(kind, &self.cursor.unread()[self.value.0..self.value.1]) {
            return Err(self.damaged());
        }
        Ok(())
    }

    /// Goes to the next row or static value, where there is one.
    pub fn advance(&mut self) -> Result<bool, Ending> {
        self.cursor.pass(std::mem::take(&mut self.length));
        loop {
            if !self.cursor.has(1)? {
                return if matches!(self.next, Next::Head) { Ok(false) } else { Err(self.damaged()) };
            }
            let sign = self.cursor.unread()[0];
            match (self.next, sign) {
                (Next::Head, _) => {
                    self.partition = self.head()?;
                    self.next = self.schema.static_value.map_or(Next::Row, Next::Static);
                }
                (Next::Static(_), 0) => {
                    self.cursor.pass(1);
                    self.next = Next::Row;
                }
                (Next::Row, 0) => {
                    self.cursor.pass(1);
                    self.next = Next::Head;
                }
                (Next::Static(kind), 1) => {
                    self.row = None;
                    self.next = Next::Row;
                    self.reach_value(kind, 1)?;
                    return Ok(true);
                }
                (Next::Row, 1) => {
                    let length = self.cursor.count_at(1)?.filter(|length| *length <= LONGEST_KEY).ok_or_else(|| self.damaged())?;
                    self.row = Some((3, 3 + length));
                    self.reach_value(self.schema.value, 3 + length)?;
                    return Ok(true);
                }
                _ => return Err(self.damaged()),
            }
        }
    }

    /// The row or static value to which the walk went, with the string of its partition.
    pub fn entry(&self) -> (&[u8], Entry<'_>) {
        let bytes = self.cursor.unread();
        let row = self.row.map(|(from, to)| &bytes[from..to]);
        (&self.partition, Entry { row, value: &bytes[self.value.0..self.value.1] })
    }

    /// The value of a key, where it is met before one above.
    fn find(&mut self, partition: &[u8], row: Option<&[u8]>) -> Result<Option<Vec<u8>>, Ending> {
        while self.advance()? {
            let (here, entry) = self.entry();
            if here != partition {
                return Ok(None);
            }
            match entry.row.cmp(&row) {
                Ordering::Less => {}
                Ordering::Equal => return Ok(Some(entry.value.to_vec())),
                Ordering::Greater => return Ok(None),
            }
        }
        Ok(None)
    }
}
