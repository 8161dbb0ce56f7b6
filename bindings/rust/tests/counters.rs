//! Counters by typed calls: steps up to, onto and at the threshold, what is refused, and what a write must set.
mod common;

use common::*;
use element::{expression, OPERATIONAL};
use element::{kind, tag, Counter, Element, Error, ObjectNumber, Offset, Refusal, Session};

const UP: ObjectNumber = ObjectNumber(0xF1D0);
const DOWN: ObjectNumber = ObjectNumber(0xF1D1);
const PLAIN: ObjectNumber = ObjectNumber(0xF1D2);
const OPENED: Session = Session {
    opened: 1,
    lcsg: 1,
    lcsa: 1,
    error: 0,
};

fn of(value: u32, threshold: u32) -> Counter {
    Counter { value, threshold }
}

/// A counter up, a counter down and eight bytes of data.
fn counters(up: Counter, down: Counter) -> Element<'static> {
    let store = [
        record(kind::COUNTER_UP, UP, &up.to_bytes()),
        record(kind::COUNTER_DOWN, DOWN, &down.to_bytes()),
        record(kind::DATA, PLAIN, b"PLAIN 01"),
    ];
    element_of(store.concat(), OPENED)
}

/// What a count by a step leaves of a counter of an object, or why it is refused.
fn counted(object: ObjectNumber, before: Counter, step: u8) -> Result<Counter, Error> {
    let mut element = counters(before, before);
    let was = element.store().to_vec();
    match element.count(object, step) {
        Ok(()) => element.counter(object),
        Err(error) => {
            assert_eq!(element.store(), was);
            Err(error)
        }
    }
}

#[test]
fn up_to_onto_and_at_the_threshold() {
    let full = refused(Refusal::BoundaryExceeded);
    assert_eq!(counted(UP, of(12, 300), 5), Ok(of(17, 300)));
    assert_eq!(counted(UP, of(12, 300), 0), Ok(of(12, 300)));
    assert_eq!(counted(UP, of(299, 300), 1), Ok(of(300, 300)));
    assert_eq!(counted(UP, of(299, 300), 255), Ok(of(300, 300)));
    for step in [0, 1, 255] {
        assert_eq!(counted(UP, of(300, 300), step), full);
        assert_eq!(counted(UP, of(301, 300), step), full);
        assert_eq!(counted(UP, of(0, 0), step), full);
    }
}

#[test]
fn down_to_onto_and_at_the_threshold() {
    let empty = refused(Refusal::BoundaryExceeded);
    assert_eq!(counted(DOWN, of(10, 2), 5), Ok(of(5, 2)));
    assert_eq!(counted(DOWN, of(10, 2), 0), Ok(of(10, 2)));
    assert_eq!(counted(DOWN, of(10, 2), 8), Ok(of(2, 2)));
    assert_eq!(counted(DOWN, of(10, 2), 255), Ok(of(2, 2)));
    for step in [0, 1, 255] {
        assert_eq!(counted(DOWN, of(2, 2), step), empty);
        assert_eq!(counted(DOWN, of(1, 2), step), empty);
    }
}

#[test]
fn no_count_wraps() {
    let most = u32::MAX;
    assert_eq!(counted(UP, of(most - 1, most), 255), Ok(of(most, most)));
    assert_eq!(counted(UP, of(0xFF, most), 1), Ok(of(0x100, most)));
    assert_eq!(counted(DOWN, of(1, 0), 255), Ok(of(0, 0)));
    assert_eq!(counted(DOWN, of(0x100, 0), 1), Ok(of(0xFF, 0)));
}

#[test]
fn what_is_no_counter_is_not_counted() {
    let mut element = counters(of(0, 9), of(9, 0));
    let was = element.store().to_vec();
    for object in [PLAIN, ObjectNumber::LCSG, ObjectNumber::LCSA] {
        assert_eq!(element.count(object, 1), refused(Refusal::InvalidParam));
    }
    let denied = element.count(ObjectNumber::LAST_ERROR, 1);
    assert_eq!(denied, refused(Refusal::AccessDenied));
    let missing = element.count(ObjectNumber(0xF1D3), 1);
    assert_eq!(missing, refused(Refusal::InvalidObject));
    assert_eq!(element.store(), was);
}

#[test]
fn access_comes_before_the_kind_and_the_kind_before_the_offset() {
    let mut element = counters(of(0, 9), of(9, 0));
    let fields = [
        tag::CHANGE,
        3,
        expression::LCSO,
        expression::LESS,
        OPERATIONAL,
    ];
    for object in [UP, PLAIN] {
        assert_eq!(set_metadata(&mut element, object, &fields), Ok(()));
        assert_eq!(
            set_metadata(&mut element, object, &[tag::LCSO, 1, OPERATIONAL]),
            Ok(())
        );
        assert_eq!(element.count(object, 1), refused(Refusal::AccessDenied));
    }
    let mut element = counters(of(0, 9), of(9, 0));
    let other_offset = |object| [2, 2, 0, 5, 0xF1, object, 0, 1, 1];
    let answer = element.carry_out(&other_offset(0xD2), &mut [0; 4]).err();
    assert_eq!(answer, Some(Error::Refused(Refusal::InvalidParam)));
    let answer = element.carry_out(&other_offset(0xD0), &mut [0; 4]).err();
    assert_eq!(answer, Some(Error::Refused(Refusal::BoundaryExceeded)));
    let two_steps = [2, 2, 0, 6, 0xF1, 0xD0, 0, 0, 1, 1];
    let answer = element.carry_out(&two_steps, &mut [0; 4]).err();
    assert_eq!(answer, Some(Error::Refused(Refusal::InvalidLength)));
}

#[test]
fn a_write_sets_the_whole_counter() {
    let mut element = counters(of(300, 300), of(9, 0));
    assert_eq!(element.set_counter(UP, of(0, 500)), Ok(()));
    assert_eq!(element.counter(UP), Ok(of(0, 500)));
    assert_eq!(element.set_counter(UP, of(7, 3)), Ok(()));
    assert_eq!(element.counter(UP), Ok(of(7, 3)));
    let was = element.store().to_vec();
    for (offset, size) in [(0, 7), (0, 9), (1, 7), (4, 4), (0, 1), (8, 1)] {
        let partly = write(&mut element, UP, offset, &[0; 9][..size]);
        assert_eq!(partly, refused(Refusal::BoundaryExceeded));
        let partly = element.erase_and_write(UP, Offset(offset), &[0; 9][..size], &mut [0; 17]);
        assert_eq!(partly, refused(Refusal::BoundaryExceeded));
    }
    assert_eq!(element.store(), was);
    let whole = element.erase_and_write(UP, Offset(0), &of(1, 2).to_bytes(), &mut [0; 16]);
    assert_eq!(whole, Ok(()));
    assert_eq!(element.counter(UP), Ok(of(1, 2)));
}

#[test]
fn a_counter_is_read_as_other_data_is() {
    let mut element = counters(of(12, 300), of(9, 0));
    assert_eq!(read(&mut element, UP, 4, 4), Ok(vec![0, 0, 0x01, 0x2C]));
    let whole = of(12, 300).to_bytes();
    assert_eq!(read(&mut element, UP, 0, 9), Ok(whole.to_vec()));
    assert_eq!(read(&mut element, UP, 7, 2), Ok(vec![0x2C]));
    assert_eq!(read(&mut element, UP, 8, 1), Ok(vec![]));
    let past = read(&mut element, UP, 9, 0);
    assert_eq!(past, refused(Refusal::BoundaryExceeded));
    let fields = metadata(&mut element, UP).unwrap();
    assert_eq!(fields[3..11], [tag::MAXIMUM, 2, 0, 8, tag::USED, 2, 0, 8]);
    let plain = Counter::from_bytes(*b"PLAIN 01");
    assert_eq!(element.counter(PLAIN), Ok(plain));
    let unknown = element.counter(ObjectNumber(0xF1D3));
    assert_eq!(unknown, refused(Refusal::InvalidObject));
}

#[test]
fn fewer_than_eight_bytes_are_no_counter() {
    for size in 1..8 {
        let store = record(kind::DATA, PLAIN, &b"PLAIN 01"[..size]);
        let mut element = element_of(store, OPENED);
        assert_eq!(element.counter(PLAIN), Err(Error::WrongSize), "{size}");
        assert_eq!(element.session(), OPENED);
    }
    let mut unused = record(kind::DATA, PLAIN, &[0; 8]);
    unused[8] = 0;
    let mut element = element_of(unused, OPENED);
    assert_eq!(element.counter(PLAIN), Err(Error::WrongSize));
    let store = record(kind::DATA, PLAIN, b"PLAIN 012");
    let front = Counter::from_bytes(*b"PLAIN 01");
    assert_eq!(element_of(store, OPENED).counter(PLAIN), Ok(front));
}

#[test]
fn a_byte_of_the_session_is_no_counter_and_stays() {
    let session = Session {
        error: 0x08,
        ..OPENED
    };
    let mut element = element_of(record(kind::DATA, PLAIN, &[1]), session);
    for object in [
        ObjectNumber::LCSG,
        ObjectNumber::LCSA,
        ObjectNumber::LAST_ERROR,
    ] {
        assert_eq!(element.counter(object), Err(Error::WrongSize));
        assert_eq!(element.session(), session);
    }
}

#[test]
fn a_counter_of_another_size_makes_a_store_malformed() {
    for kind in [kind::COUNTER_UP, kind::COUNTER_DOWN] {
        assert!(element::check_store(&record(kind, UP, &[0xFF; 8])));
        assert!(!element::check_store(&record(kind, UP, &[0; 7])));
        assert!(!element::check_store(&record(kind, UP, &[0; 9])));
        let mut unused = record(kind, UP, &[0; 8]);
        unused[8] = 7;
        assert!(!element::check_store(&unused));
    }
    for kind in [0, 3, 5, 6, 0x0102, 0x0200] {
        assert!(!element::check_store(&record(kind, UP, &[0; 8])));
    }
}
