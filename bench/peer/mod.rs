//! What the plain peers of `list`, `load` and `scan` share: schemas, literals, key strings, scripts and the text of rows, for keys of every type. The design
//! is that of the proved program: the whole input, the puts with their key strings, and an ordered map by key strings.

mod encoding;
mod literal;
pub mod reader;
mod row_text;
pub mod schema;
pub mod script;
mod value;

pub use row_text::{is_key, put_key, put_value_literal};
pub use schema::Schema;
pub use script::{Rows, read_all, read_script, rows_put};

/// The greatest length of the text of a schema in the words of a command, in bytes.
pub const LONGEST_SCHEMA: usize = 2000;

/// The greatest length of a key string, in bytes.
pub const LONGEST_KEY: usize = 1024;

/// The status and the last line of a command that doesn't end well.
pub struct Ending(pub u8, pub String);

impl Ending {
    pub fn usage() -> Ending {
        Ending(1, "error: usage\n".to_string())
    }

    pub fn source_fault() -> Ending {
        Ending(4, "error: source fault\n".to_string())
    }

    pub fn too_large() -> Ending {
        Ending(10, "error: too large\n".to_string())
    }

    /// The line with this number, counted from 1, isn't accepted. The proved program says why and where.
    pub fn bad_line(number: usize) -> Ending {
        Ending(2, format!("error: line {number}: refused\n"))
    }
}
