//! Keys and bounds of scans, read from texts.

use crate::peer::Schema;
use crate::peer::reader::Reader;
use crate::peer::script::read_string;
use std::cmp::Ordering;

/// The string of a key's partition and that of its row, or none for the static value.
pub fn read_key(schema: &Schema, text: &[u8]) -> Option<(Vec<u8>, Option<Vec<u8>>)> {
    let mut reader = Reader::new(text);
    let mut partition = Vec::new();
    read_string(&schema.partition, &mut reader, &mut partition)?;
    let row = if schema.static_value.is_some() && reader.peek() == Some(b's') {
        reader.word(b"static")?;
        None
    } else {
        let mut row = Vec::new();
        read_string(&schema.clustering, &mut reader, &mut row)?;
        Some(row)
    };
    reader.is_at_end().then_some((partition, row))
}

/// A bound: a partition, and perhaps the first components of a row's string, without the terminator.
pub struct Bound {
    pub partition: Vec<u8>,
    pub first: Option<Vec<u8>>,
}

impl Bound {
    pub fn read(schema: &Schema, text: &[u8]) -> Option<Bound> {
        (0..=schema.clustering.len()).find_map(|count| Bound::read_count(schema, count, text))
    }

    /// A bound that names so many components within the partition.
    fn read_count(schema: &Schema, count: usize, text: &[u8]) -> Option<Bound> {
        let mut reader = Reader::new(text);
        let mut partition = Vec::new();
        read_string(&schema.partition, &mut reader, &mut partition)?;
        let mut first = None;
        if count > 0 {
            let mut string = Vec::new();
            read_string(&schema.clustering[..count], &mut reader, &mut string)?;
            string.pop();
            first = Some(string);
        }
        reader.is_at_end().then_some(Bound { partition, first })
    }

    /// Where a row or a static value stands, as far as the bound names its components.
    pub fn compared(&self, partition: &[u8], row: Option<&[u8]>) -> Ordering {
        partition.cmp(&self.partition).then_with(|| match (row, &self.first) {
            (_, None) => Ordering::Equal,
            (None, Some(_)) => Ordering::Less,
            (Some(row), Some(first)) => row[..row.len().min(first.len())].cmp(first),
        })
    }
}
