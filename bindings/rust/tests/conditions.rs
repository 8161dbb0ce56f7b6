//! Conditions that use up a counter, by typed calls: what moves, when, and what a refused command leaves.
mod common;

use common::*;
use element::expression::{self, counter, AND, LCSO, LESS, OR};
use element::{kind, tag, Counter, Element, Error, ObjectNumber, Offset, Refusal, Session};
use element::{CREATION, HEADER, OPERATIONAL};

const TRIPS: ObjectNumber = ObjectNumber(0xE120);
const TICKET: ObjectNumber = ObjectNumber(0xE121);
/// A counter whose number has the bytes of both joins.
const JOINS: ObjectNumber = ObjectNumber(0xFDFE);
const OPENED: Session = Session {
    opened: 1,
    lcsg: 1,
    lcsa: 1,
    error: 0,
};

fn of(value: u32, threshold: u32) -> Counter {
    Counter { value, threshold }
}

/// Puts an expression into a slot of a record: 0 change, 1 read.
fn put(record: &mut [u8], slot: usize, expression: &[u8]) {
    let at = 12 + 28 * slot;
    record[at] = expression.len() as u8;
    record[at + 1..at + 1 + expression.len()].copy_from_slice(expression);
}

/// A counter of trips, a ticket with these expressions, and a second counter.
fn ticket(trips: Counter, change: &[u8], read: &[u8]) -> Element<'static> {
    let mut ticket = record(kind::DATA, TICKET, b"TICKET");
    put(&mut ticket, 0, change);
    put(&mut ticket, 1, read);
    let store = [
        record(kind::COUNTER_UP, TRIPS, &trips.to_bytes()),
        ticket,
        record(kind::COUNTER_UP, JOINS, &of(0, 9).to_bytes()),
    ];
    element_of(store.concat(), OPENED)
}

/// Both counters, as they stand in the store.
fn values(element: &Element) -> (u32, u32) {
    let store = element.store();
    let value = |at: usize| {
        let bytes: [u8; 8] = store[at..at + 8].try_into().unwrap();
        Counter::from_bytes(bytes).value
    };
    (value(96), value(store.len() - 8))
}

#[test]
fn the_condition_is_its_byte_and_the_number() {
    assert_eq!(counter(TRIPS), [0x40, 0xE1, 0x20]);
    assert_eq!(counter(JOINS), [0x40, 0xFD, 0xFE]);
    assert_eq!(counter(ObjectNumber(0x00FF)), [0x40, 0x00, 0xFF]);
}

#[test]
fn each_read_that_is_done_uses_up_one() {
    let mut element = ticket(of(0, 3), &[0], &counter(TRIPS));
    assert_eq!(read(&mut element, TICKET, 0, 6), Ok(b"TICKET".to_vec()));
    assert_eq!(values(&element), (1, 0));
    assert_eq!(read(&mut element, TICKET, 6, 1), Ok(vec![]));
    assert_eq!(values(&element), (2, 0));
    assert_eq!(read(&mut element, TICKET, 0, 0), Ok(vec![]));
    assert_eq!(element.counter(TRIPS), Ok(of(3, 3)));
    let denied = refused(Refusal::AccessDenied);
    assert_eq!(read(&mut element, TICKET, 0, 6), denied);
    assert_eq!(element.counter(TRIPS), Ok(of(3, 3)));
}

#[test]
fn metadata_is_read_without_a_step() {
    let mut element = ticket(of(0, 3), &[0], &counter(TRIPS));
    let fields = metadata(&mut element, TICKET).unwrap();
    assert!(fields.ends_with(&[tag::READ, 3, 0x40, 0xE1, 0x20, tag::EXECUTE, 1, 0]));
    assert_eq!(values(&element), (0, 0));
}

#[test]
fn a_refused_command_moves_nothing() {
    let change = counter(TRIPS);
    let mut element = ticket(of(0, 3), &change, &change);
    let before = element.store().to_vec();
    let mut room = [0; HEADER + 5];
    let past = refused(Refusal::BoundaryExceeded);
    assert_eq!(read(&mut element, TICKET, 7, 1), past);
    assert_eq!(
        element.read(TICKET, Offset(0), element::Length(6), &mut room),
        refused(Refusal::InsufficientBuffer)
    );
    assert_eq!(
        element.read(TICKET, Offset(0), element::Length(6), &mut room[..3]),
        Err(Error::NoRoom)
    );
    assert_eq!(
        write(&mut element, TICKET, 6, b"!"),
        refused(Refusal::BoundaryExceeded)
    );
    assert_eq!(element.count(TICKET, 1), refused(Refusal::InvalidParam));
    assert_eq!(
        set_metadata(&mut element, TICKET, &[tag::LCSO, 1, 4]),
        refused(Refusal::InvalidData)
    );
    assert_eq!(element.store(), before);
}

#[test]
fn every_change_that_is_done_uses_up_one() {
    let mut element = ticket(of(0, 4), &counter(TRIPS), &[0]);
    assert_eq!(write(&mut element, TICKET, 0, b"t"), Ok(()));
    assert_eq!(values(&element), (1, 0));
    let erased = element.erase_and_write(TICKET, Offset(0), b"T", &mut [0; 9]);
    assert_eq!((erased, values(&element)), (Ok(()), (2, 0)));
    let lcso = set_metadata(&mut element, TICKET, &[tag::LCSO, 1, OPERATIONAL]);
    assert_eq!((lcso, values(&element)), (Ok(()), (3, 0)));
    let fields = [tag::CHANGE, 1, expression::ALWAYS];
    assert_eq!(set_metadata(&mut element, TICKET, &fields), Ok(()));
    assert_eq!(values(&element), (4, 0), "by the expression before it");
    assert_eq!(write(&mut element, TICKET, 0, b"t"), Ok(()));
    assert_eq!(values(&element), (4, 0), "by always");
}

#[test]
fn the_first_group_that_holds_decides() {
    let [a, b, c] = counter(TRIPS);
    let [d, e, f] = counter(JOINS);
    let read_by = [
        LCSO, LESS, CREATION, OR, a, b, c, AND, d, e, f, OR, d, e, f, AND, d, e, f,
    ];
    let mut element = ticket(of(2, 3), &[0], &read_by);
    assert_eq!(read(&mut element, TICKET, 0, 1), Ok(b"T".to_vec()));
    assert_eq!(values(&element), (3, 1), "both of the second group");
    assert_eq!(read(&mut element, TICKET, 0, 1), Ok(b"T".to_vec()));
    assert_eq!(values(&element), (3, 2), "once, though it is named twice");
}

#[test]
fn a_counter_that_asks_itself() {
    let mut own = record(kind::COUNTER_UP, JOINS, &of(1, 9).to_bytes());
    put(&mut own, 0, &counter(JOINS));
    put(&mut own, 1, &counter(JOINS));
    let mut element = element_of(own, OPENED);
    assert_eq!(element.counter(JOINS), Ok(of(1, 9)), "before its step");
    assert_eq!(element.counter(JOINS), Ok(of(2, 9)));
    assert_eq!(element.count(JOINS, 2), Ok(()));
    assert_eq!(element.counter(JOINS), Ok(of(6, 9)), "3 and 2, and a step");
    assert_eq!(element.set_counter(JOINS, of(9, 4)), Ok(()));
    let last = element.store()[96..].to_vec();
    assert_eq!(
        last,
        of(4, 4).to_bytes(),
        "past the threshold it steps onto it"
    );
    let locked = refused(Refusal::AccessDenied);
    assert_eq!(element.set_counter(JOINS, of(0, 4)), locked);
    assert_eq!(element.count(JOINS, 1), locked);
    assert_eq!(element.counter(JOINS), refused(Refusal::AccessDenied));
    assert_eq!(element.store()[96..], last);
}

#[test]
fn what_is_no_counter_up_grants_nothing() {
    let down = ObjectNumber(0xE122);
    for number in [TICKET, down, ObjectNumber(0xE123), ObjectNumber::LCSG] {
        let mut ticket = record(kind::DATA, TICKET, b"TICKET");
        put(&mut ticket, 1, &counter(number));
        let counter = record(kind::COUNTER_DOWN, down, &of(9, 0).to_bytes());
        let mut element = element_of([ticket, counter].concat(), OPENED);
        assert!(element.check_store());
        let denied = refused(Refusal::AccessDenied);
        assert_eq!(read(&mut element, TICKET, 0, 1), denied, "{number:?}");
    }
}

#[test]
fn every_number_is_taken_in_a_set_of_metadata() {
    let mut element = opened();
    for number in [0x0000, 0x00FF, 0xFDFE, 0xFEFD, 0xE0C0, 0xFFFF, 0x4040] {
        let [a, b, c] = counter(ObjectNumber(number));
        let fields = [tag::READ, 7, a, b, c, OR, a, b, c];
        assert_eq!(set_metadata(&mut element, FARES, &fields), Ok(()));
        assert!(element.check_store());
    }
    let four = [0x40, 0xFE, 0xFE, OR].repeat(4);
    let fields = [&[tag::READ, 15], &four[..15]].concat();
    let groups = set_metadata(&mut element, FARES, &fields);
    assert_eq!(groups, refused(Refusal::InvalidData));
}

#[test]
fn a_list_steps_as_its_commands_do() {
    let mut element = ticket(of(0, 2), &[0], &counter(TRIPS));
    let get = [0x01, 0x00, 0, 6, 0xE1, 0x21, 0, 0, 0, 1];
    let (mut rooms, mut outcomes) = ([0xEE; 15], [0xEE; 3]);
    let ran = element.run(&get.repeat(3), &[10; 3], &mut rooms, &[5; 3], &mut outcomes);
    assert_eq!((ran, outcomes), (Ok(()), [0; 3]));
    let answer = [0, 0, 0, 1, b'T'];
    assert_eq!(rooms[..10], [answer, answer].concat());
    assert_eq!(rooms[10..], [0xFF, 0, 0, 0, 0xEE]);
    assert_eq!(values(&element), (2, 0));
}

/// The read of `counter` is done, and only what it gave is too little.
#[test]
fn too_few_bytes_for_a_counter_are_read_all_the_same() {
    let mut element = ticket(of(0, 3), &[0], &counter(TRIPS));
    assert_eq!(element.counter(TICKET), Err(Error::WrongSize));
    assert_eq!(values(&element), (1, 0));
    assert_eq!(element.session(), OPENED);
}
