//! The C interface of the proved library.

use reference::dock::Lent;

/// The session as the C interface has it: `opened` is 0 where the application is closed.
#[derive(Clone, Copy)]
#[repr(C)]
pub struct ElementSession {
    pub opened: u8,
    pub lcsg: u8,
    pub lcsa: u8,
    pub error: u8,
}

/// A stream as the C interface has it.
#[derive(Clone, Copy)]
#[repr(C)]
pub struct DockStream {
    pub collected: u16,
    pub stop: u16,
}

/// What came of a piece; `kind` is 0 where no frame has become whole.
#[repr(C)]
pub struct DockFed {
    pub stream: DockStream,
    pub kind: u16,
    pub size: u16,
    pub taken: usize,
}

extern "C" {
    fn element_execute(
        command: *const u8,
        command_len: usize,
        store: *mut u8,
        store_len: usize,
        session: *mut ElementSession,
        room: *mut u8,
        room_len: usize,
    ) -> u8;
    fn element_check_store(store: *const u8, len: usize) -> bool;
    fn dock_feed(stream: DockStream, frame: *mut u8, piece: *const u8, piece_len: usize)
        -> DockFed;
}

pub fn execute(
    command: &[u8],
    store: &mut [u8],
    session: &mut ElementSession,
    room: &mut [u8],
) -> u8 {
    // SAFETY: each pointer is good for its length, and what is lent to be changed overlaps nothing.
    unsafe {
        element_execute(
            command.as_ptr(),
            command.len(),
            store.as_mut_ptr(),
            store.len(),
            session,
            room.as_mut_ptr(),
            room.len(),
        )
    }
}

pub fn check_store(store: &[u8]) -> bool {
    // SAFETY: the pointer is good for its length.
    unsafe { element_check_store(store.as_ptr(), store.len()) }
}

pub fn feed(stream: DockStream, lent: &mut Lent, piece: &[u8]) -> DockFed {
    // SAFETY: the pointers are good for the longest frame and for the length of the piece, and what is lent to be changed overlaps nothing.
    unsafe { dock_feed(stream, lent.as_mut_ptr(), piece.as_ptr(), piece.len()) }
}
