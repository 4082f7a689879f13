//! Schemas: the types of the columns, and their text.

use super::reader::Reader;
use std::fmt;

/// The greatest number of components of a list, and the greatest depth of tuples.
const MOST_COMPONENTS: usize = 8;
const MOST_DEPTH: usize = 4;

/// The type of a component of a key.
pub enum Type {
    TinyInt,
    SmallInt,
    Int,
    BigInt,
    Text,
    Blob,
    Boolean,
    Tuple(Vec<Type>),
    Reversed(Box<Type>),
}

/// The type of values.
#[derive(Clone, Copy)]
pub enum ValueType {
    Text,
    Blob,
}

/// The types of the components of keys, and those of values.
pub struct Schema {
    pub partition: Vec<Type>,
    pub clustering: Vec<Type>,
    pub value: ValueType,
    pub static_value: Option<ValueType>,
}

impl Schema {
    /// The schema of a text of at most so many bytes.
    pub fn read(text: &[u8], longest: usize) -> Option<Schema> {
        if text.len() > longest {
            return None;
        }
        parse(text)
    }
}

fn parse(text: &[u8]) -> Option<Schema> {
    let mut reader = Reader::new(text);
    reader.sign(b'(')?;
    let partition = read_types(&mut reader, MOST_DEPTH)?;
    reader.sign(b';')?;
    let clustering = match reader.peek()? {
        b';' => Vec::new(),
        _ => read_types(&mut reader, MOST_DEPTH)?,
    };
    reader.sign(b';')?;
    let value = read_value_type(&mut reader)?;
    let static_value = match reader.sign(b';') {
        Some(()) => Some(read_value_type(&mut reader)?),
        None => None,
    };
    reader.sign(b')')?;
    reader.is_at_end().then_some(Schema { partition, clustering, value, static_value })
}

fn read_value_type(reader: &mut Reader) -> Option<ValueType> {
    match reader.letters() {
        b"text" => Some(ValueType::Text),
        b"blob" => Some(ValueType::Blob),
        _ => None,
    }
}

/// Types with a comma between each two, whose tuples are nested at most so deep.
fn read_types(reader: &mut Reader, depth: usize) -> Option<Vec<Type>> {
    let mut types = vec![read_type(reader, depth)?];
    while reader.sign(b',').is_some() {
        types.push(read_type(reader, depth)?);
    }
    (types.len() <= MOST_COMPONENTS).then_some(types)
}

/// A type, perhaps with `reversed` behind it.
fn read_type(reader: &mut Reader, depth: usize) -> Option<Type> {
    let kind = match reader.letters() {
        b"tinyint" => Type::TinyInt,
        b"smallint" => Type::SmallInt,
        b"int" => Type::Int,
        b"bigint" => Type::BigInt,
        b"text" => Type::Text,
        b"blob" => Type::Blob,
        b"boolean" => Type::Boolean,
        b"tuple" => read_tuple(reader, depth)?,
        _ => return None,
    };
    match reader.letters() {
        b"" => Some(kind),
        b"reversed" => Some(Type::Reversed(Box::new(kind))),
        _ => None,
    }
}

/// What stands behind the word `tuple`.
fn read_tuple(reader: &mut Reader, depth: usize) -> Option<Type> {
    reader.sign(b'<')?;
    let types = read_types(reader, depth.checked_sub(1)?)?;
    reader.sign(b'>')?;
    Some(Type::Tuple(types))
}

impl fmt::Display for Type {
    fn fmt(&self, out: &mut fmt::Formatter) -> fmt::Result {
        match self {
            Type::TinyInt => out.write_str("tinyint"),
            Type::SmallInt => out.write_str("smallint"),
            Type::Int => out.write_str("int"),
            Type::BigInt => out.write_str("bigint"),
            Type::Text => out.write_str("text"),
            Type::Blob => out.write_str("blob"),
            Type::Boolean => out.write_str("boolean"),
            Type::Tuple(types) => write!(out, "tuple<{}>", joined(types)),
            Type::Reversed(inner) => write!(out, "{inner} reversed"),
        }
    }
}

impl fmt::Display for ValueType {
    fn fmt(&self, out: &mut fmt::Formatter) -> fmt::Result {
        out.write_str(match self {
            ValueType::Text => "text",
            ValueType::Blob => "blob",
        })
    }
}

/// The canonical text of the schema.
impl fmt::Display for Schema {
    fn fmt(&self, out: &mut fmt::Formatter) -> fmt::Result {
        write!(out, "({}; {}; {}", joined(&self.partition), joined(&self.clustering), self.value)?;
        match self.static_value {
            Some(kind) => write!(out, "; {kind})"),
            None => out.write_str(")"),
        }
    }
}

fn joined(types: &[Type]) -> String {
    types.iter().map(Type::to_string).collect::<Vec<_>>().join(", ")
}
