//! Literals of values, read and written.

use super::reader::Reader;
use super::schema::Type;
use super::value::Value;
use std::borrow::Cow;

/// The literal of a value of the type.
pub fn read_literal<'a>(kind: &Type, reader: &mut Reader<'a>) -> Option<Value<'a>> {
    match kind {
        Type::TinyInt => read_number(reader).filter(|n| i8::try_from(*n).is_ok()).map(Value::Number),
        Type::SmallInt => read_number(reader).filter(|n| i16::try_from(*n).is_ok()).map(Value::Number),
        Type::Int => read_number(reader).filter(|n| i32::try_from(*n).is_ok()).map(Value::Number),
        Type::BigInt => read_number(reader).map(Value::Number),
        Type::Text => read_text(reader).map(Value::Bytes),
        Type::Blob => read_blob(reader).map(|bytes| Value::Bytes(Cow::Owned(bytes))),
        Type::Boolean => read_truth(reader).map(Value::Truth),
        Type::Tuple(kinds) => read_tuple(kinds, reader),
        Type::Reversed(inner) => read_literal(inner, reader),
    }
}

fn read_truth(reader: &mut Reader) -> Option<bool> {
    match reader.letters() {
        b"true" => Some(true),
        b"false" => Some(false),
        _ => None,
    }
}

fn read_tuple<'a>(kinds: &[Type], reader: &mut Reader<'a>) -> Option<Value<'a>> {
    let mut values = Vec::with_capacity(kinds.len());
    read_each(kinds, reader, |_, value| values.push(value))?;
    Some(Value::Tuple(values))
}

/// Components in parentheses, each of which is handed on as it is read.
pub fn read_each<'a, 'k>(
    kinds: &'k [Type],
    reader: &mut Reader<'a>,
    mut take: impl FnMut(&'k Type, Value<'a>),
) -> Option<()> {
    reader.sign(b'(')?;
    for (at, kind) in kinds.iter().enumerate() {
        if at > 0 {
            reader.sign(b',')?;
        }
        take(kind, read_literal(kind, reader)?);
    }
    reader.sign(b')')
}

/// A number of 64 bits, without leading zeros and without `-0`.
fn read_number(reader: &mut Reader) -> Option<i64> {
    let (negative, digits) = match reader.rest() {
        [b'-', digits @ ..] => (true, digits),
        digits => (false, digits),
    };
    let count = digits.iter().take_while(|byte| byte.is_ascii_digit()).count();
    let digits = &digits[..count];
    if digits.is_empty() || (digits[0] == b'0' && (negative || count > 1)) {
        return None;
    }
    let size = magnitude(digits)?;
    reader.pass(usize::from(negative) + count);
    if negative { 0i64.checked_sub_unsigned(size) } else { i64::try_from(size).ok() }
}

fn magnitude(digits: &[u8]) -> Option<u64> {
    digits.iter().try_fold(0u64, |size, digit| size.checked_mul(10)?.checked_add(u64::from(digit - b'0')))
}

/// A text in quotes, in which each quote is doubled.
pub fn read_text<'a>(reader: &mut Reader<'a>) -> Option<Cow<'a, [u8]>> {
    let text = reader.rest().strip_prefix(b"'")?;
    let mut end = quote_in(text, 0)?;
    if text.get(end + 1) != Some(&b'\'') {
        reader.pass(end + 2);
        return Some(Cow::Borrowed(&text[..end]));
    }
    let mut bytes = Vec::new();
    let mut from = 0;
    while text.get(end + 1) == Some(&b'\'') {
        bytes.extend_from_slice(&text[from..=end]);
        from = end + 2;
        end = quote_in(text, from)?;
    }
    bytes.extend_from_slice(&text[from..end]);
    reader.pass(end + 2);
    Some(Cow::Owned(bytes))
}

/// The place of the first quote from a place on.
fn quote_in(text: &[u8], from: usize) -> Option<usize> {
    text[from..].iter().position(|byte| *byte == b'\'').map(|count| from + count)
}

/// `0x` and two hexadecimal digits for each byte.
pub fn read_blob(reader: &mut Reader) -> Option<Vec<u8>> {
    let digits = reader.rest().strip_prefix(b"0x")?;
    let count = digits.iter().take_while(|byte| byte.is_ascii_hexdigit()).count();
    if count % 2 == 1 {
        return None;
    }
    let bytes = digits[..count].chunks_exact(2).map(|pair| nibble(pair[0]) * 16 + nibble(pair[1])).collect();
    reader.pass(2 + count);
    Some(bytes)
}

fn nibble(digit: u8) -> u8 {
    match digit {
        b'0'..=b'9' => digit - b'0',
        b'a'..=b'f' => digit - b'a' + 10,
        _ => digit - b'A' + 10,
    }
}

/// Appends the literal of a value of the type.
pub fn put_literal(kind: &Type, value: &Value, out: &mut Vec<u8>) {
    match (kind, value) {
        (Type::Reversed(inner), _) => put_literal(inner, value, out),
        (Type::Tuple(kinds), Value::Tuple(values)) => put_tuple(kinds, values, out),
        (Type::Blob, Value::Bytes(bytes)) => put_blob(bytes, out),
        (_, Value::Bytes(bytes)) => put_text(bytes, out),
        (_, Value::Number(number)) => put_number(*number, out),
        (_, Value::Truth(truth)) => out.extend_from_slice(if *truth { b"true" } else { b"false" }),
        (_, Value::Tuple(_)) => unreachable!("a tuple is of a tuple's type"),
    }
}

fn put_tuple(kinds: &[Type], values: &[Value], out: &mut Vec<u8>) {
    out.push(b'(');
    for (at, (kind, value)) in kinds.iter().zip(values).enumerate() {
        if at > 0 {
            out.extend_from_slice(b", ");
        }
        put_literal(kind, value, out);
    }
    out.push(b')');
}

fn put_number(number: i64, out: &mut Vec<u8>) {
    out.extend_from_slice(number.to_string().as_bytes());
}

/// Appends a text in quotes, each quote in it twice.
pub fn put_text(text: &[u8], out: &mut Vec<u8>) {
    out.push(b'\'');
    if text.contains(&b'\'') {
        put_doubled(text, out);
    } else {
        out.extend_from_slice(text);
    }
    out.push(b'\'');
}

fn put_doubled(text: &[u8], out: &mut Vec<u8>) {
    for byte in text {
        if *byte == b'\'' {
            out.push(b'\'');
        }
        out.push(*byte);
    }
}

/// Appends a blob in lower hexadecimal digits.
pub fn put_blob(bytes: &[u8], out: &mut Vec<u8>) {
    const DIGITS: &[u8; 16] = b"0123456789abcdef";
    out.extend_from_slice(b"0x");
    out.extend(bytes.iter().flat_map(|byte| [DIGITS[usize::from(byte / 16)], DIGITS[usize::from(byte % 16)]]));
}
