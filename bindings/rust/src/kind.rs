//! The kinds of records. A record has its kind at byte 2, in two bytes, least significant first; no command tells it or changes it.

/// Data of any size up to the maximum.
pub const DATA: u16 = 0x0001;
/// A counter that counts up to its threshold.
pub const COUNTER_UP: u16 = 0x0002;
/// A queue of fares.
pub const QUEUE: u16 = 0x0003;
/// A counter that counts down to its threshold.
pub const COUNTER_DOWN: u16 = 0x0004;
