//! Reads that give less than was asked: at the end of the bytes in use, by the room, of the session's objects. The answers stand here by hand.
mod common;

use common::*;
use element::{Element, Error, Length, ObjectNumber, Offset, Refusal, Session};
use element::{FACTORY_STORE_SIZE, HEADER};

const OBJECTS: [ObjectNumber; 3] = [
    ObjectNumber::LCSG,
    ObjectNumber::LCSA,
    ObjectNumber::LAST_ERROR,
];

/// Three bytes in use in F1D0, of a maximum of 140.
fn three() -> Element<'static> {
    let mut element = opened();
    assert_eq!(write(&mut element, FARES, 0, &[0x0A, 0x0B, 0x0C]), Ok(()));
    element
}

/// Opened, with LcsG 03, LcsA 07 and a last error.
fn with_error(error: u8) -> Element<'static> {
    let session = Session {
        opened: 1,
        lcsg: 0x03,
        lcsa: 0x07,
        error,
    };
    element_of(factory_store(), session)
}

#[test]
fn what_is_in_use_from_the_offset_on_at_most_the_length() {
    let mut element = three();
    for (offset, length, given) in [
        (0, 0, &[][..]),
        (0, 2, &[0x0A, 0x0B]),
        (0, 3, &[0x0A, 0x0B, 0x0C]),
        (0, 4, &[0x0A, 0x0B, 0x0C]),
        (0, 140, &[0x0A, 0x0B, 0x0C]),
        (0, 0xFFFF, &[0x0A, 0x0B, 0x0C]),
        (1, 1, &[0x0B]),
        (1, 0xFFFF, &[0x0B, 0x0C]),
        (2, 0, &[]),
        (2, 1, &[0x0C]),
        (2, 2, &[0x0C]),
        (2, 0xFFFF, &[0x0C]),
        (3, 0, &[]),
        (3, 1, &[]),
        (3, 0xFFFF, &[]),
    ] {
        let read = read(&mut element, FARES, offset, length);
        assert_eq!(read, Ok(given.to_vec()), "{length} at {offset}");
    }
    assert_eq!(element.session().error, 0);
}

#[test]
fn an_offset_past_the_bytes_in_use_is_refused_at_every_length() {
    for offset in [4, 5, 139, 140, 141, 0xFFFF] {
        for length in [0, 1, 0xFFFF] {
            let past = read(&mut three(), FARES, offset, length);
            let expected = refused(Refusal::BoundaryExceeded);
            assert_eq!(past, expected, "{length} at {offset}");
        }
    }
}

#[test]
fn an_empty_object_gives_nothing_at_0_and_refuses_from_1_on() {
    let mut element = opened();
    assert_eq!(read(&mut element, FARES, 0, 0), Ok(vec![]));
    assert_eq!(read(&mut element, FARES, 0, 1), Ok(vec![]));
    assert_eq!(read(&mut element, FARES, 0, 0xFFFF), Ok(vec![]));
    assert_eq!(element.session().error, 0);
    let past = read(&mut element, FARES, 1, 0);
    assert_eq!(past, refused(Refusal::BoundaryExceeded));
}

#[test]
fn the_room_is_judged_by_what_comes_back() {
    let mut element = three();
    let mut room = [0xEE; HEADER + 4];
    let all = element.read(FARES, Offset(0), Length::ALL, &mut room[..HEADER + 3]);
    assert_eq!(all, Ok(&[0x0A, 0x0B, 0x0C][..]));
    assert_eq!(room, [0, 0, 0, 3, 0x0A, 0x0B, 0x0C, 0xEE]);

    let mut room = [0xEE; HEADER + 4];
    let narrow = element.read(FARES, Offset(0), Length::ALL, &mut room[..HEADER + 2]);
    assert_eq!(narrow, refused(Refusal::InsufficientBuffer));
    assert_eq!(room, [0xFF, 0, 0, 0, 0xEE, 0xEE, 0xEE, 0xEE]);

    let mut room = [0xEE; HEADER];
    let none = element.read(FARES, Offset(3), Length::ALL, &mut room);
    assert_eq!(none, Ok(&[][..]));
    assert_eq!(room, [0, 0, 0, 0]);

    let past = element.read(FARES, Offset(4), Length::ALL, &mut room);
    assert_eq!(past, refused(Refusal::BoundaryExceeded));
    let no_room = element.read(FARES, Offset(0), Length::ALL, &mut room[..3]);
    assert_eq!(no_room, Err(Error::NoRoom));
}

#[test]
fn access_comes_before_the_offset() {
    let mut element = three();
    let never = [element::tag::READ, 1, element::expression::NEVER];
    assert_eq!(set_metadata(&mut element, FARES, &never), Ok(()));
    for offset in [0, 3, 4] {
        let denied = read(&mut element, FARES, offset, 0xFFFF);
        assert_eq!(denied, refused(Refusal::AccessDenied));
    }
}

#[test]
fn all_of_the_largest_object_and_the_last_byte_of_it() {
    let mut element = opened();
    let data: Vec<u8> = (0..1500).map(|at| at as u8 ^ 0x5A).collect();
    assert_eq!(write(&mut element, LARGE, 0, &data), Ok(()));
    assert_eq!(read(&mut element, LARGE, 0, Length::ALL.0), Ok(data));
    let last = 1499_u16 as u8 ^ 0x5A;
    assert_eq!(read(&mut element, LARGE, 1499, 2), Ok(vec![last]));
    assert_eq!(read(&mut element, LARGE, 1500, 2), Ok(vec![]));
    let past = read(&mut element, LARGE, 1501, 2);
    assert_eq!(past, refused(Refusal::BoundaryExceeded));
}

#[test]
fn a_byte_of_the_session_is_given_at_0_by_every_length_but_0() {
    for (object, byte) in OBJECTS.into_iter().zip([0x03, 0x07, 0x0A]) {
        for length in [1, 2, 9, 0xFFFF] {
            let given = read(&mut with_error(0x0A), object, 0, length);
            assert_eq!(given, Ok(vec![byte]), "{object:?} {length}");
        }
        assert_eq!(read(&mut with_error(0x0A), object, 0, 0), Ok(vec![]));
    }
}

#[test]
fn behind_the_byte_of_the_session_there_is_nothing() {
    for object in OBJECTS {
        for length in [0, 1, 5, 0xFFFF] {
            let mut element = with_error(0x0A);
            assert_eq!(read(&mut element, object, 1, length), Ok(vec![]));
            let past = read(&mut element, object, 2, length);
            assert_eq!(past, refused(Refusal::BoundaryExceeded));
            assert_eq!(element.session().error, 0x0A);
        }
    }
}

#[test]
fn the_last_error_is_cleared_only_where_its_byte_is_given() {
    let mut element = with_error(0x0A);
    for (offset, length) in [(0, 0), (1, 0), (1, 1), (1, 0xFFFF)] {
        let none = read(&mut element, ObjectNumber::LAST_ERROR, offset, length);
        assert_eq!(none, Ok(vec![]));
        assert_eq!(element.session().error, 0x0A, "{length} at {offset}");
    }
    let mut room = [0xEE; HEADER + 1];
    let error = ObjectNumber::LAST_ERROR;
    let narrow = element.read(error, Offset(0), Length(9), &mut room[..HEADER]);
    assert_eq!(narrow, refused(Refusal::InsufficientBuffer));
    assert_eq!(element.session().error, 0x0D);
    let byte = element.read(error, Offset(0), Length(9), &mut room);
    assert_eq!(byte, Ok(&[0x0D][..]));
    assert_eq!(element.session().error, 0);
    let cleared = read(&mut element, error, 0, 0xFFFF);
    assert_eq!(cleared, Ok(vec![0]));
}

#[test]
fn a_read_changes_no_byte_of_the_store() {
    let mut element = three();
    let before = element.store().to_vec();
    assert_eq!(before.len(), FACTORY_STORE_SIZE);
    for (offset, length) in [(0, 0xFFFF), (2, 2), (3, 1), (4, 1)] {
        let _ = read(&mut element, FARES, offset, length);
        assert_eq!(element.store(), before);
    }
}
