//! Sizes of stores, rooms and scratches, and every kind of session byte.
mod common;

use common::*;
use element::{check_store, Answer, Element, Error, Length, ObjectNumber, Offset, Refusal};
use element::{Session, FACTORY_STORE_SIZE, LARGEST_COMMAND, LARGEST_STORE, LEAD};

const ODD: Session = Session {
    opened: 0x2A,
    lcsg: 0x03,
    lcsa: 0x07,
    error: 0x55,
};

#[test]
fn the_factory_needs_its_exact_size() {
    for size in [0, 1, FACTORY_STORE_SIZE - 1, FACTORY_STORE_SIZE + 1] {
        let mut store = vec![0xEE; size];
        let mut session = ODD;
        let made = Element::factory(&mut store, &mut session).map(|_| ());
        assert_eq!(made, Err(Error::WrongSize));
        assert!(store.iter().all(|byte| *byte == 0xEE));
        assert_eq!(session, ODD);
    }
}

#[test]
fn the_factory_makes_the_session_fresh() {
    let (mut store, mut session) = (vec![0xEE; FACTORY_STORE_SIZE], ODD);
    let element = Element::factory(&mut store, &mut session).unwrap();
    assert!(element.check_store());
    let fresh = Session {
        opened: 0,
        lcsg: 1,
        lcsa: 1,
        error: 0,
    };
    assert_eq!(session, fresh);
    assert_eq!(Session::fresh(), fresh);
    assert_eq!(Session::default(), fresh);
}

/// Records end to end, with object numbers from 1 on.
fn store_of(records: u16, maximum: u16) -> Vec<u8> {
    (1..=records)
        .flat_map(|object| record(object, maximum))
        .collect()
}

/// A record in creation, with every access granted.
fn record(object: u16, maximum: u16) -> Vec<u8> {
    let mut record: Vec<u8> = [96 + maximum, 1, object, maximum, 0, 1]
        .iter()
        .flat_map(|number| number.to_le_bytes())
        .collect();
    for _ in 0..3 {
        record.push(1);
        record.extend([0; 27]);
    }
    record.resize(96 + usize::from(maximum), 0);
    record
}

#[test]
fn stores_are_checked() {
    let full = store_of(32, 416);
    assert_eq!(full.len(), LARGEST_STORE);
    assert!(check_store(&full));
    assert!(check_store(&store_of(1, 1)));
    assert!(check_store(&factory_store()));
    assert!(!check_store(&[]));
    assert!(!check_store(&store_of(33, 1)));
    assert!(!check_store(&store_of(32, 417)));
    assert!(!check_store(&store_of(1, 1501)));
    assert!(!check_store(&full[..LARGEST_STORE - 1]));
}

#[test]
fn the_largest_store_is_used_to_its_end() {
    let session = Session {
        opened: 1,
        ..Session::fresh()
    };
    let mut element = element_of(store_of(32, 416), session);
    assert_eq!(write(&mut element, ObjectNumber(32), 415, &[0xAB]), Ok(()));
    assert_eq!(element.store()[LARGEST_STORE - 1], 0xAB);
}

#[test]
fn a_room_under_four_bytes_changes_nothing() {
    for size in 0..4 {
        let mut element = element_of(factory_store(), ODD);
        let mut room = vec![0xEE; size];
        let none = Answer {
            outcome: 1,
            response: &[],
        };
        assert_eq!(element.send(&READ_ERROR, &mut room), none);
        let read = element.read(
            ObjectNumber::LAST_ERROR,
            Offset(0),
            Length(1),
            &mut room[..],
        );
        assert_eq!(read, Err(Error::NoRoom));
        assert_eq!(element.metadata(FARES, &mut room), Err(Error::NoRoom));
        assert!(room.iter().all(|byte| *byte == 0xEE));
        assert_eq!(element.session(), ODD);
        assert_eq!(element.store(), factory_store());
    }
}

#[test]
fn a_read_needs_four_bytes_more_than_its_data() {
    let mut element = opened();
    write(&mut element, FARES, 0, b"FARE 001").unwrap();
    let mut room = [0xEE; 14];
    let short = element.read(FARES, Offset(0), Length(8), &mut room[..11]);
    assert_eq!(short, refused(Refusal::InsufficientBuffer));
    let read = element.read(FARES, Offset(0), Length(8), &mut room[..12]);
    assert_eq!(read, Ok(&b"FARE 001"[..]));
    let read = element.read(FARES, Offset(0), Length(8), &mut room);
    assert_eq!(read, Ok(&b"FARE 001"[..]));
    assert_eq!(room[12..], [0xEE, 0xEE]);
}

#[test]
fn a_write_needs_eight_bytes_more_than_its_data() {
    let mut element = opened();
    let before = element.store().to_vec();
    for size in 0..LEAD + 4 {
        let short = element.write(FARES, Offset(0), b"FARE", &mut vec![0; size]);
        assert_eq!(short, Err(Error::WrongSize));
        let short = element.erase_and_write(FARES, Offset(0), b"FARE", &mut vec![0; size]);
        assert_eq!(short, Err(Error::WrongSize));
    }
    assert_eq!(element.store(), before);
    assert_eq!(element.session().error, 0);
    let written = element.write(FARES, Offset(0), b"FARE", &mut [0; LEAD + 4]);
    assert_eq!(written, Ok(()));
}

#[test]
fn what_fits_no_command_is_not_sent() {
    let mut element = opened();
    let mut scratch = [0; LARGEST_COMMAND + 1];
    let bytes = [0; LARGEST_COMMAND - LEAD + 1];
    let long = element.write(LARGE, Offset(0), &bytes, &mut scratch);
    assert_eq!(long, Err(Error::WrongSize));
    let sent = element.write(LARGE, Offset(0), &bytes[1..], &mut scratch);
    assert_eq!(sent, refused(Refusal::BoundaryExceeded));
    let long = element.set_metadata(LARGE, &[0; 256], &mut scratch);
    assert_eq!(long, Err(Error::WrongSize));
    let sent = element.set_metadata(LARGE, &[0; 255], &mut scratch);
    assert_eq!(sent, refused(Refusal::InvalidData));
}

#[test]
fn fields_need_eight_bytes_more_than_they_have() {
    let mut element = opened();
    let fields = [0xC0, 0x01, 0x03];
    let short = element.set_metadata(FARES, &fields, &mut [0; LEAD + 2]);
    assert_eq!(short, Err(Error::WrongSize));
    let set = element.set_metadata(FARES, &fields, &mut [0; LEAD + 3]);
    assert_eq!(set, Ok(()));
}

#[test]
fn every_value_but_0_is_opened_and_stays_as_it_is() {
    for opened in 1..=255 {
        let mut element = element_of(factory_store(), Session { opened, ..ODD });
        assert_eq!(take_error(&mut element), 0x55);
        assert_eq!(element.open(), Ok(()));
        assert_eq!(element.session().opened, opened);
        assert_eq!(element.close(), Ok(()));
        assert_eq!(element.session().opened, 0);
    }
}

#[test]
fn life_cycles_that_are_no_state_refuse_all() {
    for state in 0..=255 {
        let lcsg = Session { lcsg: state, ..ODD };
        let lcsa = Session { lcsa: state, ..ODD };
        let expected = match state {
            0x01 | 0x03 | 0x07 | 0x0F => Ok(()),
            _ => refused(Refusal::InternalError),
        };
        assert_eq!(element_of(factory_store(), lcsg).close(), expected);
        if state != 0x0F {
            assert_eq!(element_of(factory_store(), lcsa).close(), expected);
        }
    }
}
