//! The two sides that are measured: the proved library and the reference.

use reference::{Answer, Session};

use crate::library::{self, ElementSession};

/// One side: how it keeps the session, how it executes a command, how it checks a store.
pub trait Side {
    type Kept: Copy;

    fn keep(session: Session) -> Self::Kept;
    fn session(kept: Self::Kept) -> Session;
    fn execute(command: &[u8], store: &mut [u8], kept: &mut Self::Kept, room: &mut [u8]) -> u8;
    fn check_store(store: &[u8]) -> bool;
}

/// The proved library, through its C interface.
pub struct Ours;

impl Side for Ours {
    type Kept = ElementSession;

    fn keep(session: Session) -> ElementSession {
        ElementSession {
            opened: u8::from(session.opened),
            lcsg: session.lcsg,
            lcsa: session.lcsa,
            error: session.error,
        }
    }

    fn session(kept: ElementSession) -> Session {
        Session {
            opened: kept.opened != 0,
            lcsg: kept.lcsg,
            lcsa: kept.lcsa,
            error: kept.error,
        }
    }

    fn execute(command: &[u8], store: &mut [u8], kept: &mut ElementSession, room: &mut [u8]) -> u8 {
        library::execute(command, store, kept, room)
    }

    fn check_store(store: &[u8]) -> bool {
        library::check_store(store)
    }
}

/// The reference.
pub struct Reference;

impl Side for Reference {
    type Kept = Session;

    fn keep(session: Session) -> Session {
        session
    }

    fn session(kept: Session) -> Session {
        kept
    }

    fn execute(command: &[u8], store: &mut [u8], kept: &mut Session, room: &mut [u8]) -> u8 {
        let Answer { outcome, session } = reference::execute(command, store, *kept, room);
        *kept = session;
        outcome
    }

    fn check_store(store: &[u8]) -> bool {
        reference::check_store(store)
    }
}
