//! The thin calls of the static library, as include/element.h and include/dock.h declare it.
#![allow(unsafe_code)]

use crate::dock::{Kind, LONGEST_FRAME};
use crate::Session;

unsafe extern "C" {
    fn element_execute(
        command: *const u8,
        command_len: usize,
        store: *mut u8,
        store_len: usize,
        session: *mut Session,
        room: *mut u8,
        room_len: usize,
    ) -> u8;

    fn element_run(
        commands: *const u8,
        commands_len: usize,
        sizes: *const usize,
        sizes_count: usize,
        store: *mut u8,
        store_len: usize,
        session: *mut Session,
        rooms: *mut u8,
        rooms_len: usize,
        spaces: *const usize,
        spaces_count: usize,
        outcomes: *mut u8,
        outcomes_count: usize,
    ) -> u8;

    fn element_check_store(store: *const u8, store_len: usize) -> bool;

    fn element_make_factory_store(store: *mut u8, store_len: usize) -> u8;

    // Takes nothing, and gives four bytes laid out as in C.
    safe fn element_fresh_session() -> Session;

    // Takes nothing, and gives two numbers laid out as in C.
    safe fn dock_start() -> DockStream;

    fn dock_feed(stream: DockStream, frame: *mut u8, piece: *const u8, piece_len: usize)
        -> DockFed;

    fn dock_write_command(body: *const u8, body_len: usize, room: *mut u8, room_len: usize) -> u8;

    fn dock_write_response(body: *const u8, body_len: usize, room: *mut u8, room_len: usize) -> u8;
}

/// Where a stream is, as `dock_stream` of the header has it.
#[repr(C)]
#[derive(Clone, Copy, Debug)]
pub(crate) struct DockStream {
    pub collected: u16,
    pub stop: u16,
}

/// What came of a call, as `dock_fed` of the header has it.
#[repr(C)]
#[derive(Clone, Copy)]
pub(crate) struct DockFed {
    pub stream: DockStream,
    pub kind: u16,
    pub size: u16,
    pub taken: usize,
}

/// The outcome of a call that did its work.
pub(crate) const ANSWERED: u8 = 0;

/// A list of commands: bytes end to end with their sizes, rooms end to end with theirs, and a place for each outcome.
pub(crate) struct List<'l> {
    pub commands: &'l [u8],
    pub sizes: &'l [usize],
    pub rooms: &'l mut [u8],
    pub spaces: &'l [usize],
    pub outcomes: &'l mut [u8],
}

pub(crate) fn execute(
    command: &[u8],
    store: &mut [u8],
    session: &mut Session,
    room: &mut [u8],
) -> u8 {
    // SAFETY: each pointer is good for the length of its slice, the session for its four bytes, and what is lent to be changed overlaps nothing.
    unsafe {
        element_execute(
            command.as_ptr(),
            command.len(),
            store.as_mut_ptr(),
            store.len(),
            session,
            room.as_mut_ptr(),
            room.len(),
        )
    }
}

pub(crate) fn run(list: List, store: &mut [u8], session: &mut Session) -> u8 {
    // SAFETY: each pointer is good for the length of its slice, the session for its four bytes, and what is lent to be changed overlaps nothing.
    unsafe {
        element_run(
            list.commands.as_ptr(),
            list.commands.len(),
            list.sizes.as_ptr(),
            list.sizes.len(),
            store.as_mut_ptr(),
            store.len(),
            session,
            list.rooms.as_mut_ptr(),
            list.rooms.len(),
            list.spaces.as_ptr(),
            list.spaces.len(),
            list.outcomes.as_mut_ptr(),
            list.outcomes.len(),
        )
    }
}

pub(crate) fn make_factory_store(store: &mut [u8]) -> u8 {
    // SAFETY: the pointer is good for the length of the slice, which is lent to be changed.
    unsafe { element_make_factory_store(store.as_mut_ptr(), store.len()) }
}

pub(crate) fn fresh_session() -> Session {
    element_fresh_session()
}

/// Whether a store is well formed. On one that is not, every command is refused with [`Refusal::InternalError`](crate::Refusal).
///
/// ```
/// assert!(!element::check_store(&[0; 100]));
/// ```
pub fn check_store(store: &[u8]) -> bool {
    // SAFETY: the pointer is good for the length of the slice.
    unsafe { element_check_store(store.as_ptr(), store.len()) }
}

pub(crate) fn start_stream() -> DockStream {
    dock_start()
}

pub(crate) fn feed(stream: DockStream, frame: &mut [u8; LONGEST_FRAME], piece: &[u8]) -> DockFed {
    // SAFETY: the frame has the bytes that the header asks for, the piece's pointer is good for its length, and the frame overlaps nothing.
    unsafe { dock_feed(stream, frame.as_mut_ptr(), piece.as_ptr(), piece.len()) }
}

pub(crate) fn write_frame(kind: Kind, body: &[u8], room: &mut [u8]) -> u8 {
    let write = match kind {
        Kind::Command => dock_write_command,
        Kind::Response => dock_write_response,
    };
    // SAFETY: each pointer is good for the length of its slice, and the room overlaps nothing.
    unsafe { write(body.as_ptr(), body.len(), room.as_mut_ptr(), room.len()) }
}
