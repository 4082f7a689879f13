//! `get` and `scan` between bounds in plain Rust for tables of every schema: the trie of the partitions and that of a partition's blocks are walked in pages of
//! 4,096 bytes, and Data.db is read from there on. The peer of bench/get/run.py.

mod bound;
mod cursor;
mod index;
#[path = "../peer/node_view.rs"]
mod node_view;
#[path = "../peer/nodes.rs"]
mod nodes;
// The scripts that the other peers read are no part of this one.
#[allow(dead_code, unused_imports)]
#[path = "../peer/mod.rs"]
mod peer;
#[path = "../peer/schema_file.rs"]
mod schema_file;
mod table;

use bound::{Bound, read_key};
use peer::schema::ValueType;
use peer::{Ending, Schema, put_key, put_value_literal};
use schema_file::schema_in;
use std::cmp::Ordering;
use std::io::{self, Write};
use std::process::ExitCode;
use table::{Entry, Table};

/// Text is printed in pieces of at least this size.
const PIECE: usize = 65_536;

fn store_fault(_: io::Error) -> Ending {
    Ending(6, "error: store fault\n".to_string())
}

/// What a file should have at a place doesn't stand there. The proved program says what.
fn damaged(name: &str, at: u64) -> Ending {
    Ending(7, format!("error: damaged {name} at {at}\n"))
}

fn open_schema() -> Result<Schema, Ending> {
    let bytes = std::fs::read("1-Schema.txt").unwrap_or_default();
    schema_in(&bytes).ok_or_else(|| Ending(8, "error: unfinished\n".to_string()))
}

/// The line of a value, which has no key before it.
fn value_line(kind: ValueType, value: &[u8]) -> String {
    let mut line = Vec::new();
    put_value_literal(kind, value, &mut line);
    String::from_utf8_lossy(&line[3..]).into_owned()
}

fn get(text: &str) -> Result<String, Ending> {
    let schema = open_schema()?;
    let (partition, row) = read_key(&schema, text.as_bytes()).ok_or_else(Ending::usage)?;
    let kind = if row.is_some() { Some(schema.value) } else { schema.static_value };
    let value = Table::open(&schema)?.value(&partition, row.as_deref())?;
    Ok(value.zip(kind).map_or("none\n".to_string(), |(value, kind)| value_line(kind, &value)))
}

/// The values of the keys of a file of lines, one behind the other: how many there are, and how many bytes they have.
fn get_each(keys: &str) -> Result<String, Ending> {
    let schema = open_schema()?;
    let mut table = Table::open(&schema)?;
    let (mut found, mut bytes) = (0, 0);
    for line in std::fs::read_to_string(keys).map_err(store_fault)?.lines() {
        let (partition, row) = read_key(&schema, line.as_bytes()).ok_or_else(Ending::usage)?;
        if let Some(value) = table.value(&partition, row.as_deref())? {
            found += 1;
            bytes += value.len();
        }
    }
    Ok(format!("found {found} bytes {bytes}\n"))
}

fn print(text: &mut Vec<u8>) -> Result<(), Ending> {
    io::stdout().write_all(text).map_err(|_| Ending(5, String::new()))?;
    text.clear();
    Ok(())
}

/// Appends the line of a row or a static value; `None` where its key is none.
fn put_entry(schema: &Schema, partition: &[u8], entry: &Entry, out: &mut Vec<u8>) -> Option<()> {
    put_key(&schema.partition, partition, out)?;
    match entry.row {
        Some(row) => {
            out.push(b' ');
            put_key(&schema.clustering, row, out)?;
            put_value_literal(schema.value, entry.value, out);
        }
        None => {
            out.extend_from_slice(b" static");
            put_value_literal(schema.static_value?, entry.value, out);
        }
    }
    Some(())
}

fn scan(from: Option<&str>, to: Option<&str>, text: &mut Vec<u8>) -> Result<String, Ending> {
    let schema = open_schema()?;
    let read = |bound: Option<&str>| bound.map(|text| Bound::read(&schema, text.as_bytes()).ok_or_else(Ending::usage)).transpose();
    let (from, to) = (read(from)?, read(to)?);
    let Some(mut walk) = Table::open(&schema)?.walk(from.as_ref())? else {
        return Ok("rows 0\n".to_string());
    };
    let mut rows = 0u64;
    while walk.advance()? {
        let (partition, entry) = walk.entry();
        if from.as_ref().is_some_and(|from| from.compared(partition, entry.row) == Ordering::Less) {
            continue;
        }
        if to.as_ref().is_some_and(|to| to.compared(partition, entry.row) == Ordering::Greater) {
            break;
        }
        put_entry(&schema, partition, &entry, text).ok_or_else(|| damaged("Data", walk.at()))?;
        rows += u64::from(entry.row.is_some());
        if text.len() >= PIECE {
            print(text)?;
        }
    }
    Ok(format!("rows {rows}\n"))
}

fn main() -> ExitCode {
    let words: Vec<String> = std::env::args().skip(1).collect();
    let mut text = Vec::new();
    let ended = match words.iter().map(String::as_str).collect::<Vec<_>>()[..] {
        ["get", key] => get(key),
        ["gets"] => get_each("keys.txt"),
        ["scan"] => scan(None, None, &mut text),
        ["scan", "--from", from] => scan(Some(from), None, &mut text),
        ["scan", "--to", to] => scan(None, Some(to), &mut text),
        ["scan", "--from", from, "--to", to] => scan(Some(from), Some(to), &mut text),
        _ => Err(Ending::usage()),
    };
    let (status, line) = match ended {
        Ok(line) => (0, line),
        Err(Ending(status, line)) => (status, line),
    };
    text.extend_from_slice(line.as_bytes());
    match io::stdout().write_all(&text) {
        Ok(()) => ExitCode::from(status),
        Err(_) => ExitCode::from(5),
    }
}
