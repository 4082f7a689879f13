//! `load` and `scan` in plain Rust for tables of every schema, with the same files and texts as the proved program: rows through one buffer into Data.db, the two
//! indexes beside it, and a window read ahead from which rows are printed in large pieces. The rows are held in one sorted map, and each trie whole until it is
//! packed. The peer of bench/load/run.py.

mod index;
#[path = "../peer/nodes.rs"]
mod nodes;
#[path = "../peer/packer.rs"]
mod packer;
#[path = "../peer/mod.rs"]
mod peer;
mod rows;
#[path = "../peer/schema_file.rs"]
mod schema_file;
mod scan;
mod window;

use peer::{Ending, LONGEST_SCHEMA, Schema, read_all, read_script, rows_put};
use rows::{Counts, write_rows};
use scan::scan;
use schema_file::schema_text;
use std::fs::OpenOptions;
use std::io::{self, Write};
use std::path::Path;
use std::process::ExitCode;

const FILES: [&str; 4] = ["1-Data.db", "1-Partitions.db", "1-Rows.db", "1-Schema.txt"];
const DATA: &str = FILES[0];
const PARTITIONS: &str = FILES[1];
const ROWS: &str = FILES[2];
const SCHEMA: &str = FILES[3];
/// Bytes are written and printed in pieces of at least this size.
const BLOCK: usize = 65_536;

fn store_fault(_: io::Error) -> Ending {
    Ending(6, "error: store fault\n".to_string())
}

fn write_schema(schema: &Schema) -> io::Result<()> {
    OpenOptions::new().append(true).create(true).open(SCHEMA)?.write_all(schema_text(schema).as_bytes())
}

fn load(schema: &str) -> Result<String, Ending> {
    let schema = Schema::read(schema.as_bytes(), LONGEST_SCHEMA).ok_or_else(Ending::usage)?;
    if FILES.iter().any(|name| Path::new(name).exists()) {
        return Err(Ending(9, "error: exists\n".to_string()));
    }
    let bytes = read_all(&mut io::stdin()).map_err(|_| Ending::source_fault())?;
    let puts = read_script(&schema, &bytes)?;
    drop(bytes);
    let count = puts.len();
    let rows = rows_put(puts);
    let Counts { rows, partitions } = write_rows(&schema, &rows).map_err(store_fault)?;
    write_schema(&schema).map_err(store_fault)?;
    Ok(format!("ok puts {count} rows {rows} partitions {partitions}\n"))
}

fn main() -> ExitCode {
    let words: Vec<String> = std::env::args().skip(1).collect();
    let mut text = Vec::new();
    let ended = match words.iter().map(String::as_str).collect::<Vec<_>>()[..] {
        ["load", "--schema", schema] => load(schema),
        ["scan"] => scan(&mut text),
        _ => Err(Ending::usage()),
    };
    let (status, line) = match ended {
        Ok(line) => (0, line),
        Err(Ending(status, line)) => (status, line),
    };
    text.extend_from_slice(line.as_bytes());
    match io::stdout().write_all(&text) {
        Ok(()) => ExitCode::from(status),
        Err(_) => ExitCode::from(5),
    }
}
