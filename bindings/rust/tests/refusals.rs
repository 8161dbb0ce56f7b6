//! Every refusal by its own number, with a higher last error in its way; what a refusal changes; flush.
mod common;

use common::*;
use element::{Element, Error, ObjectNumber, Refusal, Session, TERMINATION};

/// A last error above every number of a refusal.
const HIGHEST: u8 = 0xFF;
const OPENED: Session = Session {
    opened: 1,
    lcsg: 1,
    lcsa: 1,
    error: HIGHEST,
};

/// The command has the refusal as its own, and changes neither store nor session, where the last error already is the highest.
fn check(refusal: Refusal, command: &[u8], session: Session, store: Vec<u8>, room: usize) {
    let mut element = element_of(store.clone(), session);
    let mut room = vec![0xEE; room];
    let answer = element.carry_out(command, &mut room);
    assert_eq!(answer, refused(refusal), "{command:02X?}");
    assert_eq!(room[..4], [0xFF, 0, 0, 0], "{command:02X?}");
    assert!(room[4..].iter().all(|byte| *byte == 0xEE), "{command:02X?}");
    assert_eq!(element.session(), session, "{command:02X?}");
    assert_eq!(element.store(), store, "{command:02X?}");
}

fn check_opened(refusal: Refusal, command: &[u8]) {
    check(refusal, command, OPENED, factory_store(), 64);
}

#[test]
fn invalid_object() {
    check_opened(Refusal::InvalidObject, &[1, 1, 0, 2, 0x12, 0x34]);
}

#[test]
fn invalid_param() {
    check_opened(Refusal::InvalidParam, &[1, 2, 0, 2, 0xF1, 0xD0]);
    check_opened(Refusal::InvalidParam, &[0x71, 1, 0, 0]);
}

#[test]
fn invalid_length() {
    check_opened(Refusal::InvalidLength, &[]);
    check_opened(Refusal::InvalidLength, &[0x71, 0, 0]);
    check_opened(Refusal::InvalidLength, &[1, 1, 0, 3, 0xF1, 0xD0]);
    let mut long = vec![0; 1558];
    long[..4].copy_from_slice(&[2, 0, 0x06, 0x12]);
    check_opened(Refusal::InvalidLength, &long);
}

#[test]
fn invalid_data() {
    let mut other = OPEN;
    other[19] += 1;
    check_opened(Refusal::InvalidData, &other);
    let no_state = [2, 1, 0, 7, 0xF1, 0xD0, 0x20, 3, 0xC0, 1, 4];
    check_opened(Refusal::InvalidData, &no_state);
}

#[test]
fn internal_error() {
    let no_state = Session { lcsg: 2, ..OPENED };
    let command = [0x71, 0, 0, 0];
    check(
        Refusal::InternalError,
        &command,
        no_state,
        factory_store(),
        4,
    );
    let no_state = Session { lcsa: 0, ..OPENED };
    check(
        Refusal::InternalError,
        &command,
        no_state,
        factory_store(),
        4,
    );
    check(Refusal::InternalError, &command, OPENED, vec![0; 100], 4);
    check(Refusal::InternalError, &command, OPENED, vec![], 4);
}

#[test]
fn access_denied() {
    check_opened(Refusal::AccessDenied, &[2, 0, 0, 5, 0xF1, 0xC2, 0, 0, 0]);
    check_opened(Refusal::AccessDenied, &[1, 1, 0, 2, 0xE0, 0xC0]);
}

#[test]
fn boundary_exceeded() {
    let past_used = [1, 0, 0, 6, 0xF1, 0xD0, 0, 1, 0, 0];
    check_opened(Refusal::BoundaryExceeded, &past_used);
    let past_maximum = [2, 0, 0, 5, 0xF1, 0xD0, 0, 140, 1];
    check_opened(Refusal::BoundaryExceeded, &past_maximum);
}

#[test]
fn invalid_command() {
    check_opened(Refusal::InvalidCommand, &[3, 0, 0, 0]);
}

#[test]
fn not_available() {
    let closed = Session {
        opened: 0,
        ..OPENED
    };
    check(
        Refusal::NotAvailable,
        &[0x71, 0, 0, 0],
        closed,
        factory_store(),
        4,
    );
    let ended = Session {
        lcsa: TERMINATION,
        ..OPENED
    };
    check(Refusal::NotAvailable, &OPEN, ended, factory_store(), 4);
}

#[test]
fn insufficient_buffer() {
    let metadata = [1, 1, 0, 2, 0xF1, 0xD0];
    check(
        Refusal::InsufficientBuffer,
        &metadata,
        OPENED,
        factory_store(),
        27,
    );
    let mut element = element_of(factory_store(), OPENED);
    assert_eq!(element.send(&metadata, &mut [0; 28]).response.len(), 28);
}

fn open_with_error(error: u8) -> Element<'static> {
    element_of(factory_store(), Session { error, ..OPENED })
}

#[test]
fn the_last_error_is_the_higher_one() {
    for (before, after) in [(0x00, 0x03), (0x01, 0x03), (0x03, 0x03), (0x0D, 0x0D)] {
        let mut element = open_with_error(before);
        let answer = element.carry_out(&[1, 2, 0, 0], &mut [0; 4]).map(|_| ());
        assert_eq!(answer, refused(Refusal::InvalidParam));
        assert_eq!(element.session().error, after);
    }
}

#[test]
fn the_last_error_survives_opening_and_closing() {
    let mut element = open_with_error(0x08);
    assert_eq!(element.close(), Ok(()));
    assert_eq!(element.open(), Ok(()));
    assert_eq!(take_error(&mut element), 0x08);
}

#[test]
fn a_flush_clears_the_last_error_first() {
    let mut element = open_with_error(0x0D);
    let answer = element.carry_out(&[0x81, 2, 0, 0], &mut [0; 4]).map(|_| ());
    assert_eq!(answer, refused(Refusal::InvalidParam));
    assert_eq!(element.session().error, 0x03);
    let closed = element.carry_out(&[0xF1, 0, 0, 0], &mut [0; 4]).map(|_| ());
    assert_eq!(closed, Ok(()));
    assert_eq!(element.session().error, 0x00);
}

#[test]
fn without_room_nothing_is_flushed() {
    let mut element = open_with_error(0x0D);
    let flushed_close = [0xF1, 0, 0, 0];
    let answer = element.carry_out(&flushed_close, &mut [0; 3]).map(|_| ());
    assert_eq!(answer, Err(Error::NoRoom));
    assert_eq!(element.session(), open_with_error(0x0D).session());
}

#[test]
fn typed_calls_give_the_own_number_too() {
    let mut element = open_with_error(0x0D);
    let no_bytes = write(&mut element, FARES, 0, &[]);
    assert_eq!(no_bytes, refused(Refusal::InvalidLength));
    let no_fields = set_metadata(&mut element, FARES, &[]);
    assert_eq!(no_fields, refused(Refusal::InvalidData));
    let last_error = write(&mut element, ObjectNumber::LAST_ERROR, 0, &[0]);
    assert_eq!(last_error, refused(Refusal::AccessDenied));
    let unknown = metadata(&mut element, ObjectNumber(0x1234));
    assert_eq!(unknown, refused(Refusal::InvalidObject));
    assert_eq!(element.session().error, 0x0D);
}

#[test]
fn numbers_and_refusals_go_both_ways() {
    let numbers = [1, 3, 4, 5, 6, 7, 8, 0x0A, 0x0C, 0x0D];
    for number in 0..=255 {
        let refusal = Refusal::from_number(number);
        assert_eq!(refusal.is_some(), numbers.contains(&number));
        assert!(refusal.is_none_or(|refusal| refusal.number() == number));
    }
}

#[test]
fn errors_say_what_is_wrong() {
    let full = Error::Refused(Refusal::BoundaryExceeded);
    let text = "refused 08: an offset past the bytes in use (get); past the maximum, or not all of a counter (write); at the threshold, or not at offset 0 (count); the fare does not fit behind the others (append)";
    assert_eq!(full.to_string(), text);
    assert_eq!(Error::NoRoom.to_string(), "the room is under 4 bytes");
    let text = "a buffer has the wrong size, its bytes fit no command, or an object's data is no counter or no queue";
    assert_eq!(Error::WrongSize.to_string(), text);
}
