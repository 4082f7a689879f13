//! Byte-comparable encodings: the unsigned order of the bytes is the order of the values.

use super::schema::Type;
use super::value::Value;
use std::borrow::Cow;

/// The byte before each component, and the one behind the last.
pub const SEPARATOR: u8 = 0x40;
pub const TERMINATOR: u8 = 0x38;

/// Appends the encoding of a value of the type.
pub fn encode(kind: &Type, value: &Value, out: &mut Vec<u8>) {
    match (kind, value) {
        (Type::TinyInt, Value::Number(n)) => out.push(*n as u8 ^ 0x80),
        (Type::SmallInt, Value::Number(n)) => out.extend_from_slice(&(*n as u16 ^ 0x8000).to_be_bytes()),
        (Type::Int, Value::Number(n)) => out.extend_from_slice(&(*n as u32 ^ 0x8000_0000).to_be_bytes()),
        (Type::BigInt, Value::Number(n)) => encode_big(*n, out),
        (Type::Text | Type::Blob, Value::Bytes(bytes)) => encode_bytes(bytes, out),
        (Type::Boolean, Value::Truth(truth)) => out.push(u8::from(*truth)),
        (Type::Tuple(kinds), Value::Tuple(values)) => encode_tuple(kinds, values, out),
        (Type::Reversed(inner), _) => {
            let start = out.len();
            encode(inner, value, out);
            complement(&mut out[start..]);
        }
        _ => unreachable!("a value is of its type"),
    }
}

fn complement(bytes: &mut [u8]) {
    for byte in bytes {
        *byte = !*byte;
    }
}

fn encode_tuple(kinds: &[Type], values: &[Value], out: &mut Vec<u8>) {
    for (kind, value) in kinds.iter().zip(values) {
        out.push(SEPARATOR);
        encode(kind, value, out);
    }
    out.push(TERMINATOR);
}

/// A run of zeros inside is `00`, `FE` for each further one and `FF`; one at the end is `00` and `FE` for each.
fn encode_bytes(bytes: &[u8], out: &mut Vec<u8>) {
    let mut behind_zero = false;
    for piece in bytes.split_inclusive(|byte| *byte == 0) {
        match (behind_zero, piece) {
            (true, [0]) => out.push(0xFE),
            (true, _) => {
                out.push(0xFF);
                out.extend_from_slice(piece);
            }
            (false, _) => out.extend_from_slice(piece),
        }
        behind_zero = piece.ends_with(&[0]);
    }
    out.push(if behind_zero { 0xFE } else { 0 });
}

/// As many ones as bytes follow the first one tell the length; a number below zero is the complement of -1 less it.
fn encode_big(n: i64, out: &mut Vec<u8>) {
    let (bytes, count) = big_bytes(if n < 0 { !n } else { n } as u64);
    let start = out.len();
    out.extend_from_slice(&bytes[..count]);
    if n < 0 {
        complement(&mut out[start..]);
    }
}

/// The bytes of a number below 2^63 and how many there are: the fewest that hold seven of its bits each, less one for all.
fn big_bytes(n: u64) -> ([u8; 9], usize) {
    let bits = 64 - n.leading_zeros() as usize;
    let count = (bits / 7 + 1).min(9);
    let mut bytes = [0; 9];
    if count == 9 {
        bytes[0] = 0xFF;
        bytes[1..].copy_from_slice(&(n | 1 << 63).to_be_bytes());
    } else {
        let marked = n | ((1 << count) - 1) << (7 * count);
        bytes[..count].copy_from_slice(&marked.to_be_bytes()[8 - count..]);
    }
    (bytes, count)
}

/// Bytes to decode, or their complements.
pub struct Encoded<'a> {
    bytes: &'a [u8],
    turned: bool,
}

impl<'a> Encoded<'a> {
    pub fn new(bytes: &'a [u8]) -> Encoded<'a> {
        Encoded { bytes, turned: false }
    }

    pub fn is_at_end(&self) -> bool {
        self.bytes.is_empty()
    }

    fn peek(&self) -> Option<u8> {
        self.bytes.first().map(|byte| if self.turned { !byte } else { *byte })
    }

    fn next(&mut self) -> Option<u8> {
        let byte = self.peek()?;
        self.bytes = &self.bytes[1..];
        Some(byte)
    }

    /// This byte.
    pub fn sign(&mut self, sign: u8) -> Option<()> {
        (self.next()? == sign).then_some(())
    }

    fn array<const N: usize>(&mut self) -> Option<[u8; N]> {
        let (front, rest) = self.bytes.split_first_chunk::<N>()?;
        self.bytes = rest;
        Some(if self.turned { front.map(|byte| !byte) } else { *front })
    }

    /// A value of the type.
    pub fn value(&mut self, kind: &Type) -> Option<Value<'a>> {
        match kind {
            Type::TinyInt => self.array().map(|[byte]: [u8; 1]| Value::Number(i64::from((byte ^ 0x80) as i8))),
            Type::SmallInt => self.array().map(|bytes| Value::Number(i64::from((u16::from_be_bytes(bytes) ^ 0x8000) as i16))),
            Type::Int => self.array().map(|bytes| Value::Number(i64::from((u32::from_be_bytes(bytes) ^ 0x8000_0000) as i32))),
            Type::BigInt => self.big().map(Value::Number),
            Type::Text => self.bytes().filter(|text| std::str::from_utf8(text).is_ok()).map(Value::Bytes),
            Type::Blob => self.bytes().map(Value::Bytes),
            Type::Boolean => self.truth().map(Value::Truth),
            Type::Tuple(kinds) => self.tuple(kinds),
            Type::Reversed(inner) => {
                self.turned = !self.turned;
                let value = self.value(inner);
                self.turned = !self.turned;
                value
            }
        }
    }

    fn truth(&mut self) -> Option<bool> {
        match self.next()? {
            0 => Some(false),
            1 => Some(true),
            _ => None,
        }
    }

    fn tuple(&mut self, kinds: &[Type]) -> Option<Value<'a>> {
        let mut values = Vec::with_capacity(kinds.len());
        for kind in kinds {
            self.sign(SEPARATOR)?;
            values.push(self.value(kind)?);
        }
        self.sign(TERMINATOR)?;
        Some(Value::Tuple(values))
    }

    fn bytes(&mut self) -> Option<Cow<'a, [u8]>> {
        let zero = if self.turned { 0xFF } else { 0 };
        let count = self.bytes.iter().position(|byte| *byte == zero)?;
        let (front, behind) = (&self.bytes[..count], &self.bytes[count + 1..]);
        self.bytes = behind;
        if !self.turned && !matches!(self.peek(), Some(0xFE | 0xFF)) {
            return Some(Cow::Borrowed(front));
        }
        let mut bytes = front.to_vec();
        if self.turned {
            complement(&mut bytes);
        }
        self.behind_zero(&mut bytes)?;
        Some(Cow::Owned(bytes))
    }

    /// What stands behind the `00` of a text's first zeros or of its end.
    fn behind_zero(&mut self, bytes: &mut Vec<u8>) -> Option<()> {
        while let Some(mark @ (0xFE | 0xFF)) = self.peek() {
            self.next();
            bytes.push(0);
            if mark == 0xFF {
                self.plain(bytes)?;
            }
        }
        Some(())
    }

    /// Bytes as they stand, of which there are some, and the `00` behind them.
    fn plain(&mut self, bytes: &mut Vec<u8>) -> Option<()> {
        let start = bytes.len();
        loop {
            match self.next()? {
                0 => return (bytes.len() > start).then_some(()),
                byte => bytes.push(byte),
            }
        }
    }

    /// A number whose bytes are the fewest that hold it.
    fn big(&mut self) -> Option<i64> {
        let negative = self.peek()? < 0x80;
        self.turned ^= negative;
        let size = self.big_size();
        self.turned ^= negative;
        size.map(|size| if negative { !(size as i64) } else { size as i64 })
    }

    /// A number from 0 up.
    fn big_size(&mut self) -> Option<u64> {
        let first = self.next()?;
        let mut count = first.leading_ones() as usize;
        let mut size = u64::from(first) & (0x7F >> count.min(7));
        if count == 8 && self.peek()? >= 0x80 {
            count = 9;
        }
        for _ in 1..count {
            size = size << 8 | u64::from(self.next()?);
        }
        let size = if count == 9 { size & !(1 << 63) } else { size };
        (big_bytes(size).1 == count).then_some(size)
    }
}
