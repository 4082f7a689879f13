//! The text of rows.

use super::encoding::{Encoded, SEPARATOR, TERMINATOR};
use super::literal::{put_blob, put_literal, put_text};
use super::schema::{Type, ValueType};

/// Appends the list of the components whose string this is; `None`, with a part of it appended, where it is a string of none.
pub fn put_key(kinds: &[Type], string: &[u8], out: &mut Vec<u8>) -> Option<()> {
    let mut encoded = Encoded::new(string);
    out.push(b'(');
    for (at, kind) in kinds.iter().enumerate() {
        if at > 0 {
            out.extend_from_slice(b", ");
        }
        encoded.sign(SEPARATOR)?;
        put_literal(kind, &encoded.value(kind)?, out);
    }
    out.push(b')');
    encoded.sign(TERMINATOR)?;
    encoded.is_at_end().then_some(())
}

/// Whether this is the string of components of these types.
pub fn is_key(kinds: &[Type], string: &[u8]) -> bool {
    let mut encoded = Encoded::new(string);
    let each = kinds.iter().all(|kind| encoded.sign(SEPARATOR).and_then(|()| encoded.value(kind)).is_some());
    each && encoded.sign(TERMINATOR).is_some() && encoded.is_at_end()
}

/// Appends ` = `, the literal of a value, and the end of the line.
pub fn put_value_literal(kind: ValueType, value: &[u8], out: &mut Vec<u8>) {
    out.extend_from_slice(b" = ");
    match kind {
        ValueType::Text => put_text(value, out),
        ValueType::Blob => put_blob(value, out),
    }
    out.push(b'\n');
}
