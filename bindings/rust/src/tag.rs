//! The tags of metadata. A field is tag, length (1 byte), value; fields stand with their tags rising.

/// What leads the metadata: 20, L, then L bytes of fields.
pub const METADATA: u8 = 0x20;
/// LcsO, the object's life cycle state: 1 byte.
pub const LCSO: u8 = 0xC0;
/// The most data of the object: 2 bytes, read only.
pub const MAXIMUM: u8 = 0xC4;
/// The data in use: 2 bytes, read only.
pub const USED: u8 = 0xC5;
/// The expression that a write asks.
pub const CHANGE: u8 = 0xD0;
/// The expression that a read asks.
pub const READ: u8 = 0xD1;
/// The expression for execute.
pub const EXECUTE: u8 = 0xD3;
