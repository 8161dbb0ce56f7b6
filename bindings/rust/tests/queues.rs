//! Fare queues by typed calls: appends up to the last byte, acknowledgements, each refusal, what a queue's bytes must be, and the end of the numbers.
mod common;

use common::*;
use element::expression::{self, counter, NEVER};
use element::{check_store, kind, tag, Counter, Element, Error, Fare, FareNumber, ObjectNumber};
use element::{Offset, Queue, Refusal, Session, HEADER, LARGEST_BODY, LARGEST_ROOM};

const QUEUE: ObjectNumber = ObjectNumber(0xE130);
const PLAIN: ObjectNumber = ObjectNumber(0xE131);
const TRIPS: ObjectNumber = ObjectNumber(0xE120);
const OPENED: Session = Session {
    opened: 1,
    lcsg: 1,
    lcsa: 1,
    error: 0,
};

type Fares = Vec<(u32, Vec<u8>)>;

/// The bodies under the numbers from the first on.
fn fares(first: u32, bodies: &[&[u8]]) -> Fares {
    let bodies = bodies.iter().map(|body| body.to_vec());
    (first..).zip(bodies).collect()
}

/// A queue of that maximum and an object of data behind it.
fn holding(maximum: usize, next: u32, fares: &[(u32, Vec<u8>)]) -> Element<'static> {
    let data = queue_bytes(next, fares);
    let store = [
        record_up_to(maximum, kind::QUEUE, QUEUE, &data),
        record(kind::DATA, PLAIN, b"PLAIN 01"),
    ];
    let element = element_of(store.concat(), OPENED);
    assert!(element.check_store());
    element
}

/// The fares `a` (number 5), `bb` (6) and `ccc` (7) in 64 bytes.
fn three() -> Element<'static> {
    holding(64, 8, &fares(5, &[b"a", b"bb", b"ccc"]))
}

fn held(element: &mut Element) -> (u32, Fares) {
    let mut room = [0xEE; LARGEST_ROOM];
    let queue = element.queue(QUEUE, &mut room).expect("a queue is read");
    let fares = queue
        .fares()
        .map(|fare| (fare.number.0, fare.body.to_vec()));
    (queue.next_number().0, fares.collect())
}

/// The call is refused so, and no byte of the store is changed.
fn check_refused(
    element: &mut Element,
    refusal: Refusal,
    call: impl FnOnce(&mut Element) -> Result<(), Error>,
) {
    let was = element.store().to_vec();
    assert_eq!(call(element), refused(refusal));
    assert_eq!(element.store(), was);
}

fn set_change(element: &mut Element, object: ObjectNumber, expression: &[u8]) {
    let fields = [&[tag::CHANGE, expression.len() as u8], expression].concat();
    assert_eq!(set_metadata(element, object, &fields), Ok(()));
}

#[test]
fn fares_stand_in_order_under_numbers_from_0() {
    let mut element = holding(64, 0, &[]);
    for body in [&b"FARE 1"[..], b"F", b"FARE 003"] {
        assert_eq!(element.append(QUEUE, body), Ok(()));
    }
    let due = fares(0, &[b"FARE 1", b"F", b"FARE 003"]);
    assert_eq!(held(&mut element), (3, due.clone()));
    let record = record_up_to(64, kind::QUEUE, QUEUE, &queue_bytes(3, &due));
    assert_eq!(element.store()[..160], record);
}

#[test]
fn the_bytes_of_a_queue() {
    let mut element = holding(64, 0x0102_0304, &[]);
    assert_eq!(element.append(QUEUE, b"FARE"), Ok(()));
    let data = b"\x05\x03\x02\x01\x0C\x00\x01\x00\x04\x03\x02\x01FARE";
    assert_eq!(read(&mut element, QUEUE, 0, 0xFFFF), Ok(data.to_vec()));
    assert_eq!(read(&mut element, QUEUE, 12, 9), Ok(b"FARE".to_vec()));
    let fields = metadata(&mut element, QUEUE).unwrap();
    assert_eq!(fields[3..11], [tag::MAXIMUM, 2, 0, 64, tag::USED, 2, 0, 16]);
}

#[test]
fn a_fare_fits_up_to_the_last_byte() {
    for size in [1, 2, 7, 100, LARGEST_BODY] {
        let body = vec![0xC3; size];
        let mut element = holding(12 + size, 0, &[]);
        assert_eq!(element.append(QUEUE, &body), Ok(()));
        assert_eq!(held(&mut element), (1, fares(0, &[&body])));
        check_refused(&mut element, Refusal::BoundaryExceeded, |element| {
            element.append(QUEUE, &[1])
        });
        let mut element = holding(11 + size, 0, &[]);
        check_refused(&mut element, Refusal::BoundaryExceeded, |element| {
            element.append(QUEUE, &body)
        });
    }
}

#[test]
fn a_full_queue_refuses_and_takes_a_smaller_fare_still() {
    let mut element = holding(64, 0, &[]);
    for _ in 0..4 {
        assert_eq!(element.append(QUEUE, b"FARE 1"), Ok(()));
    }
    let full = Refusal::BoundaryExceeded;
    check_refused(&mut element, full, |element| {
        element.append(QUEUE, b"FARE 2")
    });
    let mut element = holding(64, 0, &[]); // 60 bytes for fares: 48 and 12
    assert_eq!(element.append(QUEUE, &[7; 40]), Ok(()));
    check_refused(&mut element, full, |element| element.append(QUEUE, &[8; 5]));
    assert_eq!(element.append(QUEUE, &[9; 4]), Ok(()));
    let due = fares(0, &[&[7; 40], &[9; 4]]);
    assert_eq!(held(&mut element), (2, due));
    check_refused(&mut element, full, |element| element.append(QUEUE, &[1]));
}

#[test]
fn a_body_has_1_to_200_bytes() {
    let mut element = holding(1500, 0, &[]);
    let wrong = Refusal::InvalidLength;
    check_refused(&mut element, wrong, |element| element.append(QUEUE, &[]));
    let was = (element.store().to_vec(), element.session());
    for size in [LARGEST_BODY + 1, 1551, 1552, 70_000] {
        let long = element.append(QUEUE, &vec![1; size]);
        assert_eq!(long, Err(Error::WrongSize), "{size}");
    }
    assert_eq!((element.store().to_vec(), element.session()), was);
    let long = [&[2, 4, 0, 203, 0xE1, 0x30], &[1; 201][..]].concat();
    check_refused(&mut element, wrong, |element| {
        element.carry_out(&long, &mut [0; 4]).map(|_| ())
    });
    assert_eq!(element.append(QUEUE, &[1; LARGEST_BODY]), Ok(()));
    assert_eq!(element.append(QUEUE, &[2]), Ok(()));
    let due = fares(0, &[&[1; LARGEST_BODY], &[2]]);
    assert_eq!(held(&mut element), (2, due));
}

#[test]
fn an_acknowledgement_takes_the_fare_and_all_before_it() {
    let left: [&[&[u8]]; 3] = [&[b"bb", b"ccc"], &[b"ccc"], &[]];
    for (number, left) in (5..).zip(left) {
        let mut element = three();
        assert_eq!(element.acknowledge(QUEUE, FareNumber(number)), Ok(()));
        let due = fares(number + 1, left);
        assert_eq!(held(&mut element), (8, due.clone()));
        let record = record_up_to(64, kind::QUEUE, QUEUE, &queue_bytes(8, &due));
        assert_eq!(element.store()[..160], record, "zeros behind the fares");
        assert_eq!(element.append(QUEUE, b"d"), Ok(()));
        assert_eq!(held(&mut element).1.last(), Some(&(8, b"d".to_vec())));
    }
}

#[test]
fn a_number_that_no_fare_has_is_not_acknowledged() {
    for number in [0, 4, 8, 9, 0x0500_0000, 0x0105, u32::MAX] {
        check_refused(&mut three(), Refusal::InvalidData, |element| {
            element.acknowledge(QUEUE, FareNumber(number))
        });
    }
    for number in [0, 1, u32::MAX] {
        check_refused(&mut holding(4, 0, &[]), Refusal::InvalidData, |element| {
            element.acknowledge(QUEUE, FareNumber(number))
        });
    }
    let mut element = three();
    assert_eq!(element.acknowledge(QUEUE, FareNumber(6)), Ok(()));
    check_refused(&mut element, Refusal::InvalidData, |element| {
        element.acknowledge(QUEUE, FareNumber(6))
    });
}

#[test]
fn an_acknowledgement_has_six_bytes_of_in_data() {
    for size in [0, 1, 2, 5, 7, 8] {
        let number = [
            &[2, 5, 0, size],
            &[0xE1, 0x30, 0, 0, 0, 5, 0, 0][..size.into()],
        ]
        .concat();
        check_refused(&mut three(), Refusal::InvalidLength, |element| {
            element.carry_out(&number, &mut [0; 4]).map(|_| ())
        });
    }
}

#[test]
fn no_number_is_given_after_fffffffe() {
    let mut element = holding(64, 0xFFFF_FFFE, &[]);
    assert_eq!(element.append(QUEUE, b"LAST"), Ok(()));
    let last = fares(0xFFFF_FFFE, &[b"LAST"]);
    assert_eq!(held(&mut element), (FareNumber::NONE.0, last));
    let ended = Refusal::InsufficientBuffer;
    check_refused(&mut element, ended, |element| element.append(QUEUE, b"X"));
    check_refused(&mut element, Refusal::InvalidData, |element| {
        element.acknowledge(QUEUE, FareNumber::NONE)
    });
    check_refused(&mut element, Refusal::BoundaryExceeded, |element| {
        element.append(QUEUE, &[1; LARGEST_BODY])
    });
    assert_eq!(element.acknowledge(QUEUE, FareNumber(0xFFFF_FFFE)), Ok(()));
    assert_eq!(held(&mut element), (FareNumber::NONE.0, vec![]));
    check_refused(&mut element, ended, |element| element.append(QUEUE, b"X"));
}

#[test]
fn writes_to_a_queue_are_refused_whatever_its_expression_says() {
    let mut element = three();
    let denied = Refusal::AccessDenied;
    let same = queue_bytes(8, &fares(5, &[b"a", b"bb", b"ccc"]));
    for (offset, bytes) in [
        (0, &same[..]),
        (0, &[8]),
        (4, &[9]),
        (64, &[1]),
        (65535, &[1]),
    ] {
        check_refused(&mut element, denied, |element| {
            write(element, QUEUE, offset, bytes)
        });
        check_refused(&mut element, denied, |element| {
            element.erase_and_write(QUEUE, Offset(offset), bytes, &mut [0; 64])
        });
    }
    let no_counter = Refusal::InvalidParam;
    check_refused(&mut element, no_counter, |element| element.count(QUEUE, 1));
}

#[test]
fn what_is_no_queue_is_refused_right_after_access() {
    let mut element = three();
    let calls = [
        |element: &mut Element, object| element.append(object, b"FARE"),
        |element: &mut Element, object| element.acknowledge(object, FareNumber(5)),
    ];
    for call in calls {
        for (object, refusal) in [
            (PLAIN, Refusal::InvalidParam),
            (ObjectNumber::LCSG, Refusal::InvalidParam),
            (ObjectNumber::LCSA, Refusal::InvalidParam),
            (ObjectNumber::LAST_ERROR, Refusal::AccessDenied),
            (ObjectNumber(0xE132), Refusal::InvalidObject),
        ] {
            check_refused(&mut element, refusal, |element| call(element, object));
        }
    }
}

#[test]
fn access_comes_first() {
    let mut element = holding(16, FareNumber::NONE.0, &[]);
    set_change(&mut element, QUEUE, &[NEVER]);
    set_change(&mut element, PLAIN, &[NEVER]);
    let denied = Refusal::AccessDenied;
    for object in [QUEUE, PLAIN] {
        check_refused(&mut element, denied, |element| element.append(object, b"F"));
        check_refused(&mut element, denied, |element| {
            element.append(object, &[1; LARGEST_BODY])
        });
        check_refused(&mut element, denied, |element| {
            element.acknowledge(object, FareNumber(1))
        });
    }
    check_refused(&mut element, denied, |element| element.count(QUEUE, 1));
    let empty = element.append(QUEUE, &[]);
    assert_eq!(empty, refused(Refusal::InvalidLength), "step 7 before 10");
}

#[test]
fn an_append_and_an_acknowledgement_use_up_a_counter() {
    let trips = Counter {
        value: 0,
        threshold: 3,
    };
    let mut queue = record_up_to(32, kind::QUEUE, QUEUE, &queue_bytes(0, &[]));
    queue[12] = 3;
    queue[13..16].copy_from_slice(&counter(TRIPS));
    let store = [record(kind::COUNTER_UP, TRIPS, &trips.to_bytes()), queue];
    let mut element = element_of(store.concat(), OPENED);
    assert_eq!(element.append(QUEUE, b"FARE 1"), Ok(()));
    assert_eq!(element.append(QUEUE, b"FARE 2"), Ok(()));
    check_refused(&mut element, Refusal::BoundaryExceeded, |element| {
        element.append(QUEUE, b"FARE 3")
    });
    check_refused(&mut element, Refusal::InvalidData, |element| {
        element.acknowledge(QUEUE, FareNumber(2))
    });
    assert_eq!(element.acknowledge(QUEUE, FareNumber(0)), Ok(()));
    assert_eq!(element.counter(TRIPS).map(|trips| trips.value), Ok(3));
    check_refused(&mut element, Refusal::AccessDenied, |element| {
        element.append(QUEUE, b"FARE 3")
    });
    assert_eq!(held(&mut element), (2, fares(1, &[b"FARE 2"])));
}

#[test]
fn the_room_of_a_read_has_four_bytes_more() {
    let mut element = three();
    let used = queue_bytes(8, &fares(5, &[b"a", b"bb", b"ccc"])).len();
    let mut room = [0xEE; 64];
    let short = element.queue(QUEUE, &mut room[..HEADER + used - 1]);
    assert_eq!(short, refused(Refusal::InsufficientBuffer));
    let none = element.queue(QUEUE, &mut room[..3]);
    assert_eq!(none, Err(Error::NoRoom));
    let queue = element.queue(QUEUE, &mut room[..HEADER + used]).unwrap();
    let first = Fare {
        number: FareNumber(5),
        body: b"a",
    };
    assert_eq!(queue.fares().next(), Some(first));
}

#[test]
fn data_that_is_no_queue_leaves_the_session() {
    let session = Session {
        error: 0x08,
        ..OPENED
    };
    let plain = record(kind::DATA, PLAIN, b"PLAIN 01");
    let mut element = element_of(plain, session);
    let mut room = [0; 64];
    for object in [
        PLAIN,
        ObjectNumber::LCSG,
        ObjectNumber::LCSA,
        ObjectNumber::LAST_ERROR,
    ] {
        assert_eq!(element.queue(object, &mut room), Err(Error::WrongSize));
        assert_eq!(element.session(), session);
    }
    let missing = element.queue(QUEUE, &mut room);
    assert_eq!(missing, refused(Refusal::InvalidObject));
    let bytes = queue_bytes(8, &fares(5, &[b"a", b"bb", b"ccc"]));
    let mut element = element_of(record(kind::DATA, QUEUE, &bytes), OPENED);
    assert_eq!(held(&mut element).0, 8, "the kind is not looked at");
}

/// What was read for it is used up, though it is no queue.
#[test]
fn data_that_is_no_queue_is_read_all_the_same() {
    let mut plain = record(kind::DATA, PLAIN, b"PLAIN 01");
    plain[40] = 3;
    plain[41..44].copy_from_slice(&counter(TRIPS));
    let trips = Counter {
        value: 0,
        threshold: 1,
    };
    let store = [record(kind::COUNTER_UP, TRIPS, &trips.to_bytes()), plain];
    let mut element = element_of(store.concat(), OPENED);
    let mut room = [0; 64];
    assert_eq!(element.queue(PLAIN, &mut room), Err(Error::WrongSize));
    let denied = element.queue(PLAIN, &mut room);
    assert_eq!(denied, refused(Refusal::AccessDenied));
}

/// A byte of two fares changed to every value: the reader takes it exactly where the library takes a store with it.
#[test]
fn the_reader_takes_what_the_store_check_takes() {
    let bytes = queue_bytes(2, &fares(0, &[b"AB", &[0; 9]]));
    let mut taken = 0;
    for at in 0..bytes.len() {
        for byte in 0..=255 {
            let mut other = bytes.clone();
            other[at] = byte;
            let formed = check_store(&record(kind::QUEUE, QUEUE, &other));
            let read = Queue::from_bytes(&other).is_some();
            assert_eq!(read, formed, "{byte:02X} at {at}");
            taken += usize::from(read);
        }
    }
    let bodies = 11;
    assert_eq!(taken, 256 * bodies + bytes.len() - bodies);
}

#[test]
fn a_queue_of_every_size_is_taken_and_no_other() {
    for used in 0..4 {
        let record = record_up_to(8, kind::QUEUE, QUEUE, &vec![0; used]);
        assert!(!check_store(&record), "{used}");
    }
    assert!(check_store(&record(kind::QUEUE, QUEUE, &[0xFF; 4])));
    let mut dirty = record_up_to(16, kind::QUEUE, QUEUE, &[0; 4]);
    *dirty.last_mut().unwrap() = 1;
    assert!(!check_store(&dirty), "a byte behind used");
    let most: Vec<&[u8]> = vec![b"F"; 166];
    let full = queue_bytes(166, &fares(0, &most));
    assert_eq!(full.len(), 1498);
    assert!(check_store(&record_up_to(1500, kind::QUEUE, QUEUE, &full)));
    assert!(Queue::from_bytes(&full).is_some());
}

#[test]
fn metadata_of_a_queue_is_set_as_of_other_objects() {
    let mut element = three();
    let fields = [tag::LCSO, 1, 7, tag::READ, 1, expression::NEVER];
    assert_eq!(set_metadata(&mut element, QUEUE, &fields), Ok(()));
    let mut room = [0; 64];
    let denied = element.queue(QUEUE, &mut room);
    assert_eq!(denied, refused(Refusal::AccessDenied));
    assert_eq!(element.acknowledge(QUEUE, FareNumber(7)), Ok(()));
    let fields = metadata(&mut element, QUEUE).unwrap();
    assert_eq!(fields[7..11], [tag::USED, 2, 0, 4]);
}

#[test]
fn a_list_appends_and_acknowledges_as_its_commands_do() {
    let mut element = holding(32, 0, &[]);
    let append = b"\x02\x04\x00\x08\xE1\x30FARE 1";
    let acknowledge = b"\x02\x05\x00\x06\xE1\x30\x00\x00\x00\x01";
    let list = [&append[..], append, append, acknowledge, append].concat();
    let (mut rooms, mut outcomes) = ([0xEE; 20], [0xEE; 5]);
    let sizes = [12, 12, 12, 10, 12];
    let ran = element.run(&list, &sizes, &mut rooms, &[4; 5], &mut outcomes);
    assert_eq!((ran, outcomes), (Ok(()), [0; 5]));
    let statuses: Vec<u8> = rooms.iter().step_by(4).copied().collect();
    assert_eq!(statuses, [0, 0, 0xFF, 0, 0]);
    assert_eq!(held(&mut element), (3, fares(2, &[b"FARE 1"])));
}
