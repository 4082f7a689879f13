//! `list` in plain Rust, of the same design as the proved program: the whole input, the puts with their key strings, an ordered map by key strings, one
//! text, one write. The peer of bench/list/run.py.

#[path = "../peer/mod.rs"]
mod peer;

use peer::{Ending, LONGEST_SCHEMA, Rows, Schema, put_key, put_value_literal, read_all, read_script, rows_put};
use std::io::{self, Write};
use std::process::ExitCode;

fn print_rows(schema: &Schema, rows: &Rows) -> Option<Vec<u8>> {
    let mut out = Vec::new();
    let mut count = 0;
    for (key, value) in rows {
        put_key(&schema.partition, key.partition(), &mut out)?;
        let kind = match (key.clustering(), schema.static_value) {
            (None, Some(kind)) => {
                out.extend_from_slice(b" static");
                kind
            }
            (clustering, _) => {
                out.push(b' ');
                put_key(&schema.clustering, clustering?, &mut out)?;
                count += 1;
                schema.value
            }
        };
        put_value_literal(kind, value, &mut out);
    }
    out.extend_from_slice(format!("rows {count}\n").as_bytes());
    Some(out)
}

fn list(schema: &str) -> Result<Vec<u8>, Ending> {
    let schema = Schema::read(schema.as_bytes(), LONGEST_SCHEMA).ok_or_else(Ending::usage)?;
    let bytes = read_all(&mut io::stdin()).map_err(|_| Ending::source_fault())?;
    let puts = read_script(&schema, &bytes)?;
    drop(bytes);
    Ok(print_rows(&schema, &rows_put(puts)).expect("the rows are of the schema"))
}

fn main() -> ExitCode {
    let words: Vec<String> = std::env::args().skip(1).collect();
    let ended = match words.iter().map(String::as_str).collect::<Vec<_>>()[..] {
        ["list", "--schema", schema] => list(schema),
        _ => Err(Ending::usage()),
    };
    let (status, text) = match ended {
        Ok(text) => (0, text),
        Err(Ending(status, line)) => (status, line.into_bytes()),
    };
    match io::stdout().write_all(&text) {
        Ok(()) => ExitCode::from(status),
        Err(_) => ExitCode::from(5),
    }
}
