//! The bytes of commands and responses: Cmd, Param and status.

/// Cmd: get.
pub const GET: u8 = 0x01;
/// Cmd: set.
pub const SET: u8 = 0x02;
/// Cmd: open the application.
pub const OPEN: u8 = 0x70;
/// Cmd: close the application.
pub const CLOSE: u8 = 0x71;
/// Set in Cmd: the last error becomes 0 first.
pub const FLUSH: u8 = 0x80;

/// Param of get and set: data. The one Param of open and close.
pub const DATA: u8 = 0x00;
/// Param of get and set: metadata.
pub const METADATA: u8 = 0x01;
/// Param of set: count, a step of a counter towards its threshold.
pub const COUNT: u8 = 0x02;
/// Param of set: append, a fare behind the others of a queue.
pub const APPEND: u8 = 0x04;
/// Param of set: acknowledge, which takes a fare of a queue and all before it away.
pub const ACKNOWLEDGE: u8 = 0x05;
/// Param of set: make all data zero, then write.
pub const ERASE_AND_WRITE: u8 = 0x40;

/// The identifier that opens the application.
pub const IDENTIFIER: [u8; 16] = *b"\xD2\x76\x00\x00\x04GenAuthAppl";

/// Status: done.
pub const DONE: u8 = 0x00;
/// Status: refused; the response is FF 00 00 00.
pub const REFUSED: u8 = 0xFF;
