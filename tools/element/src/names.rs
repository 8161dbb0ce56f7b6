//! The words for states, slots and the objects of the session.
use element::{Session, CREATION, INITIALISATION, OPERATIONAL, TERMINATION};

/// The four life cycle states with their names, rising.
pub const STATES: [(u8, &str); 4] = [
    (CREATION, "creation"),
    (INITIALISATION, "initialisation"),
    (OPERATIONAL, "operational"),
    (TERMINATION, "termination"),
];

/// What is expected where a state should stand.
pub const STATES_EXPECTED: &str =
    "creation (01), initialisation (03), operational (07) or termination (0F)";

/// The slots of a record, in their order.
pub const SLOTS: [&str; 3] = ["change", "read", "execute"];

/// The name of a state, if the byte is one.
pub fn state(byte: u8) -> Option<&'static str> {
    STATES
        .iter()
        .find(|(number, _)| *number == byte)
        .map(|(_, name)| *name)
}

/// A state by its number and name.
pub fn state_shown(byte: u8) -> String {
    format!("{byte:02X} {}", state(byte).unwrap_or("(no state)"))
}

/// The state that a word names, by name or by number.
pub fn state_of(word: &str) -> Option<u8> {
    STATES
        .iter()
        .find(|(number, name)| {
            word.eq_ignore_ascii_case(name) || word.eq_ignore_ascii_case(&format!("{number:02X}"))
        })
        .map(|(number, _)| *number)
}

/// What lives in the session under this number, if anything does.
pub fn session_object(object: u16) -> Option<&'static str> {
    match object {
        0xE0C0 => Some("LcsG"),
        0xF1C0 => Some("LcsA"),
        0xF1C2 => Some("last error"),
        _ => None,
    }
}

/// An object by its number, and by its name where it lives in the session.
pub fn object(number: u16) -> String {
    match session_object(number) {
        Some(name) => format!("{number:04X} ({name})"),
        None => format!("{number:04X}"),
    }
}

/// A session in one line.
pub fn session(session: Session) -> String {
    let opened = match session.opened {
        0 => "closed",
        _ => "open",
    };
    format!(
        "application {opened}, LcsG {}, LcsA {}, last error {:02X}",
        state_shown(session.lcsg),
        state_shown(session.lcsa),
        session.error
    )
}

/// A count with its word.
pub fn count(number: usize, one: &str) -> String {
    match number {
        1 => format!("1 {one}"),
        _ => format!("{number} {one}s"),
    }
}

#[cfg(test)]
mod tests {
    use super::*;

    #[test]
    fn states_go_both_ways() {
        for (number, name) in STATES {
            assert_eq!(state(number), Some(name));
            assert_eq!(state_of(name), Some(number));
            assert_eq!(state_of(&format!("{number:02x}")), Some(number));
        }
        assert_eq!(state(0x04), None);
        assert_eq!(state_of("04"), None);
    }

    #[test]
    fn a_session_is_told() {
        assert_eq!(
            session(Session::fresh()),
            "application closed, LcsG 01 creation, LcsA 01 creation, last error 00"
        );
    }
}
