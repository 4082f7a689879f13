//! Values of the components of keys.

use std::borrow::Cow;

/// A value of a type. Bytes stand in the text or the key string from which they were read, where they stand there as they are.
pub enum Value<'a> {
    Number(i64),
    Bytes(Cow<'a, [u8]>),
    Truth(bool),
    Tuple(Vec<Value<'a>>),
}
