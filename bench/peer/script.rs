//! Scripts: lines of puts, and the rows that they make.

use super::encoding::{SEPARATOR, TERMINATOR, encode};
use super::literal::{read_blob, read_each, read_text};
use super::reader::Reader;
use super::schema::{Schema, Type, ValueType};
use super::{Ending, LONGEST_KEY};
use std::collections::BTreeMap;
use std::io::{self, Read};

const PAGE: usize = 4096;
const MOST_BYTES: usize = 67_108_864;
const MOST_LINES: usize = 1_000_000;
const LONGEST_VALUE: usize = 65_535;

/// The key string of a row, or of a static value, whose row part is empty.
#[derive(PartialEq, Eq, PartialOrd, Ord)]
pub struct Key {
    string: Vec<u8>,
    partition: usize,
}

impl Key {
    /// The string of the partition.
    pub fn partition(&self) -> &[u8] {
        &self.string[..self.partition]
    }

    /// The string of the row within its partition, or none for the static value.
    pub fn clustering(&self) -> Option<&[u8]> {
        let clustering = &self.string[self.partition..];
        (!clustering.is_empty()).then_some(clustering)
    }
}

/// A row or a static value that a line puts.
pub struct Put {
    key: Key,
    value: Vec<u8>,
}

/// The last values by their keys.
pub type Rows = BTreeMap<Key, Vec<u8>>;

pub fn read_all(source: &mut impl Read) -> io::Result<Vec<u8>> {
    let mut all = Vec::new();
    let mut page = [0u8; PAGE];
    loop {
        let count = source.read(&mut page)?;
        if count == 0 {
            return Ok(all);
        }
        all.extend_from_slice(&page[..count]);
    }
}

/// Appends the string of a list of components to `string`.
pub fn read_string(kinds: &[Type], reader: &mut Reader, string: &mut Vec<u8>) -> Option<()> {
    let start = string.len();
    read_each(kinds, reader, |kind, value| {
        string.push(SEPARATOR);
        encode(kind, &value, string);
    })?;
    string.push(TERMINATOR);
    (string.len() - start <= LONGEST_KEY).then_some(())
}

fn read_value(kind: ValueType, reader: &mut Reader) -> Option<Vec<u8>> {
    reader.sign(b'=')?;
    let value = match kind {
        ValueType::Text => read_text(reader)?.into_owned(),
        ValueType::Blob => read_blob(reader)?,
    };
    (value.len() <= LONGEST_VALUE).then_some(value)
}

/// The put of a line. Its key string is made in `string`.
fn read_put(schema: &Schema, line: &[u8], string: &mut Vec<u8>) -> Option<Put> {
    let mut reader = Reader::new(line);
    string.clear();
    reader.word(b"put")?;
    read_string(&schema.partition, &mut reader, string)?;
    let partition = string.len();
    let kind = match schema.static_value {
        Some(kind) if reader.peek() == Some(b's') => {
            reader.word(b"static")?;
            kind
        }
        _ => {
            read_string(&schema.clustering, &mut reader, string)?;
            schema.value
        }
    };
    let value = read_value(kind, &mut reader)?;
    reader.is_at_end().then(|| Put { key: Key { string: string.clone(), partition }, value })
}

/// Whether a line has nothing to say: a comment, or nothing but spaces.
fn is_idle(line: &[u8]) -> bool {
    line.starts_with(b"--") || line.iter().all(|byte| *byte == b' ')
}

/// The puts of a script in their order.
pub fn read_script(schema: &Schema, bytes: &[u8]) -> Result<Vec<Put>, Ending> {
    let body = bytes.strip_suffix(b"\n").unwrap_or(bytes);
    let lines = || body.split(|byte| *byte == b'\n');
    if bytes.len() > MOST_BYTES || lines().count() > MOST_LINES {
        return Err(Ending::too_large());
    }
    let mut puts = Vec::new();
    let mut string = Vec::new();
    for (at, line) in lines().enumerate() {
        let bad = || Ending::bad_line(at + 1);
        std::str::from_utf8(line).map_err(|_| bad())?;
        if !is_idle(line) {
            puts.push(read_put(schema, line, &mut string).ok_or_else(bad)?);
        }
    }
    Ok(puts)
}

pub fn rows_put(puts: Vec<Put>) -> Rows {
    let mut rows = BTreeMap::new();
    for put in puts {
        rows.insert(put.key, put.value);
    }
    rows
}
