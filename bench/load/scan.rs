//! The rows of Data.db, printed as they are read.

use crate::peer::schema::ValueType;
use crate::peer::{Ending, LONGEST_KEY, Schema, put_key, put_value_literal};
use crate::schema_file::schema_in;
use crate::window::Window;
use crate::{BLOCK, DATA, SCHEMA, store_fault};
use std::fs::File;
use std::io::{self, Write};

/// What is expected next in the file.
enum Next {
    Head,
    Static(ValueType),
    Row,
}

/// What was found at a place, with its length in the file.
enum Found {
    Row(usize),
    Border(usize, Next),
    End,
}

/// Nothing of what is expected begins there.
struct Damaged;

/// A scan: the text that isn't printed yet, and that of the components of the partition that is open.
struct Scan<'a> {
    schema: &'a Schema,
    text: &'a mut Vec<u8>,
    partition: Vec<u8>,
}

fn counted(bytes: &[u8]) -> Option<(&[u8], &[u8])> {
    let (count, rest) = bytes.split_first_chunk::<2>()?;
    rest.split_at_checked(usize::from(u16::from_be_bytes(*count)))
}

fn is_value(kind: ValueType, value: &[u8]) -> bool {
    match kind {
        ValueType::Text => std::str::from_utf8(value).is_ok(),
        ValueType::Blob => true,
    }
}

impl Scan<'_> {
    /// The head of a partition, or the end of the file.
    fn head(&mut self, bytes: &[u8]) -> Option<Found> {
        if bytes.is_empty() {
            return Some(Found::End);
        }
        let (string, _) = counted(bytes).filter(|(string, _)| string.len() <= LONGEST_KEY)?;
        self.partition.clear();
        put_key(&self.schema.partition, string, &mut self.partition)?;
        Some(Found::Border(2 + string.len(), self.schema.static_value.map_or(Next::Row, Next::Static)))
    }

    /// The static part of a partition.
    fn static_part(&mut self, kind: ValueType, bytes: &[u8]) -> Option<Found> {
        match bytes.split_first()? {
            (0, _) => Some(Found::Border(1, Next::Row)),
            (1, rest) => {
                let (value, _) = counted(rest).filter(|(value, _)| is_value(kind, value))?;
                self.text.extend_from_slice(&self.partition);
                self.text.extend_from_slice(b" static");
                put_value_literal(kind, value, self.text);
                Some(Found::Border(3 + value.len(), Next::Row))
            }
            _ => None,
        }
    }

    /// A row, or the end of a partition.
    fn row(&mut self, bytes: &[u8]) -> Option<Found> {
        match bytes.split_first()? {
            (0, _) => Some(Found::Border(1, Next::Head)),
            (1, rest) => {
                let (string, rest) = counted(rest).filter(|(string, _)| string.len() <= LONGEST_KEY)?;
                let (value, _) = counted(rest).filter(|(value, _)| is_value(self.schema.value, value))?;
                self.text.extend_from_slice(&self.partition);
                self.text.push(b' ');
                put_key(&self.schema.clustering, string, self.text)?;
                put_value_literal(self.schema.value, value, self.text);
                Some(Found::Row(5 + string.len() + value.len()))
            }
            _ => None,
        }
    }

    /// What is expected, at the front of the bytes. Damage leaves the text as it was.
    fn found(&mut self, next: &Next, bytes: &[u8]) -> Result<Found, Damaged> {
        let before = self.text.len();
        let found = match next {
            Next::Head => self.head(bytes),
            Next::Static(kind) => self.static_part(*kind, bytes),
            Next::Row => self.row(bytes),
        };
        found.ok_or_else(|| {
            self.text.truncate(before);
            Damaged
        })
    }

    /// Prints the rows of the window's file in large pieces, and leaves the rest of the text. Ok is how many rows there are.
    fn run(&mut self, window: &mut Window) -> Result<u64, Ending> {
        let mut rows = 0;
        let mut next = Next::Head;
        loop {
            window.fill().map_err(store_fault)?;
            match self.found(&next, window.unread()).map_err(|Damaged| damaged(window.at(), &next))? {
                Found::End => return Ok(rows),
                Found::Row(length) => {
                    rows += 1;
                    window.pass(length);
                }
                Found::Border(length, behind) => {
                    next = behind;
                    window.pass(length);
                }
            }
            self.print_block()?;
        }
    }

    fn print_block(&mut self) -> Result<(), Ending> {
        if self.text.len() >= BLOCK {
            io::stdout().write_all(self.text).map_err(|_| Ending(5, String::new()))?;
            self.text.clear();
        }
        Ok(())
    }
}

fn damaged(at: u64, next: &Next) -> Ending {
    let what = match next {
        Next::Head => "head",
        Next::Static(_) | Next::Row => "row",
    };
    Ending(7, format!("error: damaged Data at {at}: bad {what}\n"))
}

/// Does `scan`, and leaves the last of the text before the last line in `text`.
pub fn scan(text: &mut Vec<u8>) -> Result<String, Ending> {
    let bytes = std::fs::read(SCHEMA).unwrap_or_default();
    let schema = schema_in(&bytes).ok_or_else(|| Ending(8, "error: unfinished\n".to_string()))?;
    let file = File::open(DATA).map_err(store_fault)?;
    let mut scan = Scan { schema: &schema, text, partition: Vec::new() };
    let rows = scan.run(&mut Window::new(file))?;
    Ok(format!("rows {rows}\n"))
}
