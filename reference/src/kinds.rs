//! Object number, offset and length, each a kind of its own.

/// The number by which a command names an object.
#[derive(Clone, Copy, Debug, PartialEq, Eq, PartialOrd, Ord)]
pub struct ObjectNumber(pub u16);

/// A position in an object's data.
#[derive(Clone, Copy, Debug, PartialEq, Eq)]
pub struct Offset(pub usize);

/// A count of bytes of an object's data.
#[derive(Clone, Copy, Debug, PartialEq, Eq)]
pub struct Length(pub usize);

/// The position just after `length` bytes from `offset`.
pub fn end_of(offset: Offset, length: Length) -> usize {
    offset.0 + length.0
}
