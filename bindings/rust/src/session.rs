//! The session, four bytes that the host keeps.

use crate::library;

/// What the element keeps between commands; every value of every byte has a meaning.
#[repr(C)]
#[derive(Clone, Copy, Debug, PartialEq, Eq)]
pub struct Session {
    /// 0 is closed, any other value is open.
    pub opened: u8,
    /// The life cycle state of the chip. With a value that is no state every command is refused.
    pub lcsg: u8,
    /// The life cycle state of the application. With a value that is no state every command is refused.
    pub lcsa: u8,
    /// The last error: the highest number of a refusal since it was read or flushed.
    pub error: u8,
}

impl Session {
    /// The session of a new element: closed, both life cycles in creation, no error.
    pub fn fresh() -> Session {
        library::fresh_session()
    }
}

impl Default for Session {
    fn default() -> Session {
        Session::fresh()
    }
}
