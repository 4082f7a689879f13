//! The text of Schema.txt.

use crate::peer::Schema;

/// The greatest length of the schema's text in Schema.txt, in bytes.
const LONGEST_CANONICAL: usize = 4000;

/// The text of Schema.txt. A table with a static type is of version 2.
pub fn schema_text(schema: &Schema) -> String {
    let version = if schema.static_value.is_some() { 2 } else { 1 };
    format!("bti-table {version}\n{schema}\nend\n")
}

/// The schema of a whole Schema.txt.
pub fn schema_in(bytes: &[u8]) -> Option<Schema> {
    let text = std::str::from_utf8(bytes).ok()?;
    let schema = Schema::read(text.lines().nth(1)?.as_bytes(), LONGEST_CANONICAL)?;
    (schema_text(&schema) == text).then_some(schema)
}
