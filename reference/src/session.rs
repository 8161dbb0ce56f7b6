//! The session, its three objects, and the life cycle states.

use crate::kinds::ObjectNumber;

pub const CREATION: u8 = 0x01;
pub const INITIALISATION: u8 = 0x03;
pub const OPERATIONAL: u8 = 0x07;
pub const TERMINATION: u8 = 0x0F;

/// All life cycle states, rising.
pub const STATES: [u8; 4] = [CREATION, INITIALISATION, OPERATIONAL, TERMINATION];

/// Whether a byte is one of the four life cycle states.
pub fn is_state(byte: u8) -> bool {
    matches!(byte, CREATION | INITIALISATION | OPERATIONAL | TERMINATION)
}

/// Whether a life cycle may go from `present` to `next`.
pub fn may_become(present: u8, next: u8) -> bool {
    is_state(next) && next >= present
}

/// What the element keeps outside the store.
#[derive(Clone, Copy, Debug, PartialEq, Eq)]
pub struct Session {
    pub opened: bool,
    pub lcsg: u8,
    pub lcsa: u8,
    pub error: u8,
}

/// The session of a new element: closed, both life cycles in creation, no error.
pub fn fresh_session() -> Session {
    Session {
        opened: false,
        lcsg: CREATION,
        lcsa: CREATION,
        error: 0,
    }
}

/// The objects that live in the session, one byte each.
#[derive(Clone, Copy, Debug, PartialEq, Eq)]
pub enum SessionObject {
    LcsG,
    LcsA,
    LastError,
}

impl SessionObject {
    pub const ALL: [SessionObject; 3] = [
        SessionObject::LcsG,
        SessionObject::LcsA,
        SessionObject::LastError,
    ];

    pub const fn number(self) -> ObjectNumber {
        match self {
            SessionObject::LcsG => ObjectNumber(0xE0C0),
            SessionObject::LcsA => ObjectNumber(0xF1C0),
            SessionObject::LastError => ObjectNumber(0xF1C2),
        }
    }

    pub fn from_number(number: ObjectNumber) -> Option<SessionObject> {
        Self::ALL
            .into_iter()
            .find(|object| object.number() == number)
    }
}

impl Session {
    /// Whether both life cycles are among the four states.
    pub fn is_valid(self) -> bool {
        is_state(self.lcsg) && is_state(self.lcsa)
    }

    /// The byte of a session object.
    pub fn byte(self, object: SessionObject) -> u8 {
        match object {
            SessionObject::LcsG => self.lcsg,
            SessionObject::LcsA => self.lcsa,
            SessionObject::LastError => self.error,
        }
    }

    /// The session with one of its bytes replaced.
    pub fn with_byte(mut self, object: SessionObject, byte: u8) -> Session {
        match object {
            SessionObject::LcsG => self.lcsg = byte,
            SessionObject::LcsA => self.lcsa = byte,
            SessionObject::LastError => self.error = byte,
        }
        self
    }
}
