//! `check` in plain Rust for tables of every schema: Data.db from its start to its end, the footer, the paths of the partition index, the entries and the paths of
//! the row indexes, and last the count, each beside a walk over Data.db. The peer of bench/check/run.py, which doesn't say what is wrong, but where.

#[allow(dead_code)]
#[path = "../get/cursor.rs"]
mod cursor;
#[allow(dead_code)]
#[path = "../peer/node_view.rs"]
mod node_view;
#[allow(dead_code)]
#[path = "../peer/nodes.rs"]
mod nodes;
mod paths;
// The scripts that the other peers read are no part of this one.
#[allow(dead_code, unused_imports)]
#[path = "../peer/mod.rs"]
mod peer;
#[path = "../peer/schema_file.rs"]
mod schema_file;
mod walk;

use paths::{Index, Paths};
use peer::{Ending, Schema};
use schema_file::schema_in;
use std::io::{self, Write};
use std::process::ExitCode;
use walk::Walk;

#[derive(Clone, Copy)]
pub enum Part {
    Data,
    Partitions,
    Rows,
}

impl Part {
    pub fn file(self) -> &'static str {
        match self {
            Part::Data => "1-Data.db",
            Part::Partitions => "1-Partitions.db",
            Part::Rows => "1-Rows.db",
        }
    }
}

pub fn store_fault(_: io::Error) -> Ending {
    Ending(6, "error: store fault\n".to_string())
}

/// What a file should have at a place doesn't stand there.
pub fn damaged(part: Part, at: u64) -> Ending {
    Ending(7, format!("error: damaged {} at {at}\n", part.file()))
}

/// A file has another thing at a place than Data.db gives.
pub fn unsound(part: Part, at: u64) -> Ending {
    Ending(11, format!("error: unsound {} at {at}\n", part.file()))
}

fn open_schema() -> Result<Schema, Ending> {
    let bytes = std::fs::read("1-Schema.txt").unwrap_or_default();
    schema_in(&bytes).ok_or_else(|| Ending(8, "error: unfinished\n".to_string()))
}

fn common(a: &[u8], b: &[u8]) -> usize {
    a.iter().zip(b).take_while(|(x, y)| x == y).count()
}

fn number(bytes: &[u8]) -> u64 {
    bytes.iter().fold(0, |number, byte| number << 8 | u64::from(*byte))
}

/// The number in so many bytes, signed by their first bit.
fn signed(bytes: &[u8]) -> i64 {
    let first = if bytes.first().is_some_and(|byte| *byte >= 0x80) { -1 } else { 0 };
    bytes.iter().fold(first, |number, byte| number << 8 | i64::from(*byte))
}

/// What Data.db has: its first and its last partition, and how many partitions and rows.
#[derive(Default)]
struct Found {
    first: Vec<u8>,
    last: Vec<u8>,
    partitions: u64,
    rows: u64,
}

fn check_data(schema: &Schema) -> Result<Found, Ending> {
    let mut walk = Walk::open(schema, 0)?;
    let mut found = Found::default();
    while walk.advance()? {
        if found.partitions == 0 {
            found.first = walk.key.clone();
        }
        found.partitions += 1;
        found.rows += walk.rows;
    }
    found.last = walk.key;
    Ok(found)
}

/// The root and the count of the footer, whose strings are those of the first and the last partition.
fn check_footer(index: &mut Index, found: &Found) -> Result<(u64, u64), Ending> {
    let at = index.length.checked_sub(24).ok_or_else(|| damaged(Part::Partitions, 0))?;
    let numbers = index.bytes(at, 24)?;
    let strings = number(&numbers[..8]);
    let mut wanted = Vec::new();
    for string in [&found.first, &found.last] {
        wanted.extend_from_slice(&(string.len() as u16).to_be_bytes());
        wanted.extend_from_slice(string);
    }
    if strings > at || index.bytes(strings, (at - strings) as usize)? != wanted {
        return Err(unsound(Part::Partitions, at));
    }
    Ok((number(&numbers[16..]), number(&numbers[8..16])))
}

fn check_partitions(schema: &Schema, index: &mut Index, root: u64) -> Result<(), Ending> {
    let mut walk = Walk::open(schema, 0)?;
    let mut paths = Paths::new(root);
    let mut shared = 0;
    let mut more = walk.advance()?;
    while more {
        let (key, head, blocks) = (walk.key.clone(), walk.head, walk.blocks);
        more = walk.advance()?;
        let ahead = if more { common(&key, &walk.key) } else { 0 };
        if !paths.advance(index)? {
            return Err(unsound(Part::Partitions, root));
        }
        let found = signed(&paths.payload);
        let leads = if blocks > 1 { found >= 0 } else { found == !(head as i64) };
        if paths.path != key[..shared.max(ahead) + 1] || !leads {
            return Err(unsound(Part::Partitions, paths.node));
        }
        shared = ahead;
    }
    if paths.advance(index)? { Err(unsound(Part::Partitions, paths.node)) } else { Ok(()) }
}

/// The row index at a root, beside the blocks of the partition whose head stands there.
fn check_blocks(schema: &Schema, rows: &mut Index, head: u64, root: u64) -> Result<(), Ending> {
    let mut walk = Walk::open(schema, head)?;
    let mut paths = Paths::new(root);
    walk.enter()?;
    while let Some(offset) = walk.next_block()? {
        if !paths.advance(rows)? {
            return Err(unsound(Part::Rows, root));
        }
        let wanted = &walk.row[..common(&walk.before, &walk.row) + 1];
        if paths.path != wanted || number(&paths.payload) != offset {
            return Err(unsound(Part::Rows, paths.node));
        }
    }
    if paths.advance(rows)? { Err(unsound(Part::Rows, paths.node)) } else { Ok(()) }
}

fn check_entries(schema: &Schema, index: &mut Index, root: u64) -> Result<(), Ending> {
    let mut rows = Index::open(Part::Rows)?;
    let mut walk = Walk::open(schema, 0)?;
    let mut paths = Paths::new(root);
    while walk.advance()? {
        if !paths.advance(index)? {
            return Err(unsound(Part::Partitions, root));
        }
        if walk.blocks == 1 {
            continue;
        }
        let at = number(&paths.payload);
        let mut wanted = (walk.key.len() as u16).to_be_bytes().to_vec();
        wanted.extend_from_slice(&walk.key);
        wanted.extend_from_slice(&walk.head.to_be_bytes());
        let entry = rows.bytes(at, wanted.len() + 12)?;
        if entry.len() < wanted.len() + 12 {
            return Err(damaged(Part::Rows, at));
        }
        let (start, end) = entry.split_at(wanted.len());
        if start != wanted || number(&end[8..]) != u64::from(walk.blocks) {
            return Err(unsound(Part::Rows, at));
        }
        check_blocks(schema, &mut rows, walk.head, number(&end[..8]))?;
    }
    Ok(())
}

fn check() -> Result<String, Ending> {
    let schema = open_schema()?;
    let found = check_data(&schema)?;
    let mut index = Index::open(Part::Partitions)?;
    let (root, count) = check_footer(&mut index, &found)?;
    if found.partitions > 0 {
        check_partitions(&schema, &mut index, root)?;
        check_entries(&schema, &mut index, root)?;
    }
    if count != found.partitions {
        return Err(unsound(Part::Partitions, index.length - 24));
    }
    Ok(format!("sound partitions {} rows {}\n", found.partitions, found.rows))
}

fn main() -> ExitCode {
    let words: Vec<String> = std::env::args().skip(1).collect();
    let ended = if words == ["check"] { check() } else { Err(Ending::usage()) };
    let (status, line) = match ended {
        Ok(line) => (0, line),
        Err(Ending(status, line)) => (status, line),
    };
    match io::stdout().write_all(line.as_bytes()) {
        Ok(()) => ExitCode::from(status),
        Err(_) => ExitCode::from(5),
    }
}
