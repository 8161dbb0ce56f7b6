//! Fare queues: appends, acknowledgements, other commands at them, and long days of one.

mod common;

use common::{
    acknowledge, append, command, count, counter_record, erase_and_write, fare, get_data,
    get_metadata, hex, queue_data, queue_record, set, set_metadata, write, Element, DONE,
};
use reference::check_store;
use reference::generator::random::Random;
use reference::store::Slot;

/// The object of each queue, before those of the factory.
const QUEUE: u16 = 0x1000;
/// An up counter, and another queue.
const COUNTER: u16 = 0x1001;
const OTHER: u16 = 0x1002;

/// A queue of this maximum with these fares, the factory's objects after it.
fn with_queue(maximum: u16, next: u32, fares: &[Vec<u8>]) -> Element {
    let element = Element::with_records(&[queue_record(QUEUE, maximum, &queue_data(next, fares))]);
    assert!(check_store(&element.store));
    element
}

/// The fares 5, 6 and 7 of 1, 3 and 2 bytes in a queue of 50 bytes.
fn three_fares() -> Element {
    with_queue(
        50,
        8,
        &[
            fare(5, &[0xA5]),
            fare(6, &[1, 2, 3]),
            fare(7, &[0xB0, 0xB1]),
        ],
    )
}

/// Whether the queue holds exactly these fares, zeros behind them.
fn holds(element: &mut Element, next: u32, fares: &[Vec<u8>]) -> bool {
    let mut expected = queue_data(next, fares);
    let used = element.used(QUEUE) == expected.len();
    let data = element.data(QUEUE);
    expected.resize(data.len(), 0);
    used && data == expected && check_store(&element.store)
}

#[test]
fn bytes_of_appends() {
    let mut element = with_queue(40, 0, &[]);
    element.done("02 04 00 05 10 00 AA BB CC");
    let data = element.done("01 00 00 06 10 00 00 00 FF FF");
    assert_eq!(data, hex("01000000 0B00 0100 00000000 AABBCC"));
    element.done("82 04 00 03 10 00 DD");
    let data = element.done("01 00 00 06 10 00 00 00 FF FF");
    let expected = "02000000 0B00 0100 00000000 AABBCC 0900 0100 01000000 DD";
    assert_eq!(data, hex(expected));
}

#[test]
fn bytes_of_acknowledgements() {
    // Next number 02010101; the fares 020100FF and 02010100 have 2 bytes and 1.
    let fares = [fare(0x0201_00FF, &[0xAA, 0xBB]), fare(0x0201_0100, &[0xCC])];
    let mut element = with_queue(40, 0x0201_0101, &fares);
    element.done("02 05 00 06 10 00 02 01 00 FF");
    let data = element.done("01 00 00 06 10 00 00 00 FF FF");
    assert_eq!(data, hex("01010102 0900 0100 00010102 CC"));
    element.done("02 05 00 06 10 00 02 01 01 00");
    let data = element.done("01 00 00 06 10 00 00 00 FF FF");
    assert_eq!(data, hex("01010102"));
    assert_eq!(element.data(QUEUE)[4..], [0; 36]);
}

#[test]
fn an_append_changes_its_queue_alone() {
    let other = queue_record(OTHER, 30, &queue_data(3, &[fare(2, &[9])]));
    let used = queue_data(1, &[fare(0, &[7])]);
    let mut element = Element::with_records(&[queue_record(QUEUE, 50, &used), other]);
    let before = element.clone();
    assert_eq!(element.send(&append(QUEUE, &[1, 2])), DONE);
    assert_eq!(element.session, before.session);
    // Used is at 8, the data of 50 bytes at 96.
    assert_eq!(element.store[..8], before.store[..8]);
    assert_eq!(element.store[10..96], before.store[10..96]);
    assert_eq!(element.store[146..], before.store[146..]);
    assert!(holds(&mut element, 2, &[fare(0, &[7]), fare(1, &[1, 2])]));
    assert_eq!(element.send(&acknowledge(QUEUE, 0)), DONE);
    assert_eq!(element.store[..8], before.store[..8]);
    assert_eq!(element.store[10..96], before.store[10..96]);
    assert_eq!(element.store[146..], before.store[146..]);
    assert!(holds(&mut element, 2, &[fare(1, &[1, 2])]));
}

#[test]
fn an_append_fits_exactly_or_is_refused() {
    for size in [1, 2, 100, 199, 200] {
        let body = vec![0x11; size];
        for (maximum, code) in [(11 + size, 8), (12 + size, 0), (13 + size, 0)] {
            let mut element = with_queue(maximum as u16, 0, &[]);
            assert_eq!(element.code(&append(QUEUE, &body)), code, "{size}");
            let fares = match code {
                0 => vec![fare(0, &body)],
                _ => vec![],
            };
            assert!(holds(&mut element, fares.len() as u32, &fares));
        }
    }
    // Bytes left behind a fare of 9, and the largest body that fits them.
    for (left, fits) in [(0, 0), (1, 0), (7, 0), (8, 0), (9, 1), (10, 2), (208, 200)] {
        for size in 1..=200 {
            let mut element = with_queue(13 + left, 1, &[fare(0, &[7])]);
            let code = element.code(&append(QUEUE, &vec![0x22; size]));
            assert_eq!(code, if size <= fits { 0 } else { 8 }, "{left} {size}");
        }
    }
    // No queue of 4 bytes takes a fare.
    let mut element = with_queue(4, 0, &[]);
    assert_eq!(element.code(&append(QUEUE, &[1])), 0x08);
}

#[test]
fn a_full_queue_keeps_its_fares() {
    let mut element = with_queue(40, 0, &[]);
    let fares: Vec<Vec<u8>> = (0..4).map(|number| fare(number, &[number as u8])).collect();
    for number in 0..4 {
        assert_eq!(element.send(&append(QUEUE, &[number])), DONE);
    }
    for body in [&[9][..], &[9; 28], &[9; 200]] {
        assert_eq!(element.code(&append(QUEUE, body)), 0x08);
        assert!(holds(&mut element, 4, &fares));
    }
    // What an acknowledgement frees is used again, from the next number on.
    assert_eq!(element.send(&acknowledge(QUEUE, 1)), DONE);
    assert_eq!(element.send(&append(QUEUE, &[4; 10])), DONE);
    let fares = [fares[2].clone(), fares[3].clone(), fare(4, &[4; 10])];
    assert!(holds(&mut element, 5, &fares));
    assert_eq!(element.code(&append(QUEUE, &[5])), 0x08);
}

#[test]
fn sizes_of_a_body() {
    for size in [0, 201, 202, 255, 256, 257, 456, 1_551] {
        let body = vec![1; size];
        // Also where the queue is full, the object missing, of another kind or the session's.
        for object in [QUEUE, 0x1001, 0xF1D0, 0xE0C0, 0xF1C0, 0xF1C2] {
            for maximum in [4, 1_500] {
                let mut element = with_queue(maximum, u32::MAX, &[]);
                assert_eq!(element.code(&append(object, &body)), 0x04, "{size}");
            }
        }
    }
    let mut element = with_queue(1_500, 0, &[]);
    for in_data in [&[][..], &[0x10], &[0x10, 0x00]] {
        assert_eq!(element.code(&command(0x02, 0x04, in_data)), 0x04);
    }
    for size in [1, 200] {
        assert_eq!(element.code(&append(QUEUE, &vec![1; size])), 0);
    }
}

#[test]
fn length_of_an_acknowledgement() {
    for length in (0..=12).filter(|&length| length != 6) {
        for object in ["1000", "1001", "F1D0", "E0C0", "F1C2"] {
            let mut in_data = hex(object);
            in_data.resize(length, 0);
            let mut element = with_queue(20, 1, &[fare(0, &[1])]);
            assert_eq!(element.code(&command(0x02, 0x05, &in_data)), 0x04);
        }
    }
}

#[test]
fn numbers_come_one_after_another() {
    for start in [
        0,
        1,
        254,
        255,
        256,
        65_534,
        0x00FF_FFFF,
        0x7FFF_FFFF,
        u32::MAX - 3,
    ] {
        let mut element = with_queue(60, start, &[]);
        let mut fares = Vec::new();
        for number in start..start + 3 {
            assert_eq!(element.send(&append(QUEUE, &[7, 7])), DONE);
            fares.push(fare(number, &[7, 7]));
            assert!(holds(&mut element, number + 1, &fares));
        }
    }
}

#[test]
fn the_last_number() {
    // FFFFFFFE is given, FFFFFFFF is not.
    let mut element = with_queue(30, u32::MAX - 1, &[]);
    assert_eq!(element.send(&append(QUEUE, &[1])), DONE);
    let last = [fare(u32::MAX - 1, &[1])];
    assert!(holds(&mut element, u32::MAX, &last));
    // 17 bytes are left: 9 more fit, 10 do not, and that comes first.
    assert_eq!(element.code(&append(QUEUE, &[1; 10])), 0x08);
    assert_eq!(element.code(&append(QUEUE, &[1; 9])), 0x0D);
    assert_eq!(element.code(&append(QUEUE, &[1])), 0x0D);
    assert_eq!(element.code(&append(QUEUE, &[1; 201])), 0x04);
    assert_eq!(element.code(&acknowledge(QUEUE, u32::MAX)), 0x05);
    assert!(holds(&mut element, u32::MAX, &last));
    // An empty queue stays at its end too.
    assert_eq!(element.send(&acknowledge(QUEUE, u32::MAX - 1)), DONE);
    assert!(holds(&mut element, u32::MAX, &[]));
    assert_eq!(element.code(&append(QUEUE, &[1])), 0x0D);
    assert_eq!(element.code(&append(QUEUE, &[1; 18])), 0x0D);
    assert_eq!(element.code(&append(QUEUE, &[1; 19])), 0x08);
    // The 0D is kept as the highest error.
    element.session.error = 0x03;
    element.send(&append(QUEUE, &[1]));
    assert_eq!(element.session.error, 0x0D);
}

#[test]
fn acknowledged_fares_are_gone() {
    let [first, second, third] = [
        fare(5, &[0xA5]),
        fare(6, &[1, 2, 3]),
        fare(7, &[0xB0, 0xB1]),
    ];
    for (number, left) in [
        (5, &[second.clone(), third.clone()][..]),
        (6, std::slice::from_ref(&third)),
        (7, &[]),
    ] {
        let mut element = three_fares();
        assert_eq!(element.send(&acknowledge(QUEUE, number)), DONE);
        assert!(holds(&mut element, 8, left), "{number}");
        // Once more, it is not present.
        assert_eq!(element.code(&acknowledge(QUEUE, number)), 0x05);
        assert!(holds(&mut element, 8, left));
    }
    let all = [first, second, third];
    for number in [
        0,
        1,
        4,
        8,
        9,
        13,
        255,
        256,
        0x0500_0000,
        0x0600_0000,
        0x0700_0000,
        0x0001_0005,
        u32::MAX,
    ] {
        let mut element = three_fares();
        assert_eq!(element.code(&acknowledge(QUEUE, number)), 0x05, "{number}");
        assert!(holds(&mut element, 8, &all));
    }
}

#[test]
fn an_empty_queue_has_no_number() {
    for next in [0, 1, 8, u32::MAX - 1, u32::MAX] {
        let mut element = with_queue(50, next, &[]);
        for number in [0, 1, 7, 8, next, next.wrapping_sub(1), next.wrapping_add(1)] {
            assert_eq!(element.code(&acknowledge(QUEUE, number)), 0x05);
        }
    }
}

#[test]
fn other_objects_have_no_queue() {
    let mut element = Element::with_records(&[
        queue_record(QUEUE, 20, &[0; 4]),
        counter_record(2, COUNTER, 5, 9),
        counter_record(4, 0x1003, 9, 5),
    ]);
    for (object, code) in [
        (COUNTER, 0x03),
        (0x1003, 0x03),
        (0xF1D0, 0x03),
        (0xF1E0, 0x03),
        (0xE0C0, 0x03),
        (0xF1C0, 0x03),
        (0xF1C2, 0x07),
        (0x1002, 0x01),
        (0x0010, 0x01),
    ] {
        assert_eq!(element.code(&append(object, &[1])), code, "{object:04X}");
        // Too long for any object: the kind comes first.
        assert_eq!(element.code(&append(object, &[1; 200])), code);
        assert_eq!(element.code(&acknowledge(object, 0)), code);
        assert_eq!(element.code(&acknowledge(object, u32::MAX)), code);
    }
    for object in [COUNTER, 0x1003, 0xF1D0] {
        element.set_expression(object, Slot::Change, &[0xFF]);
        assert_eq!(element.code(&append(object, &[1])), 0x07);
        assert_eq!(element.code(&acknowledge(object, 0)), 0x07);
    }
}

#[test]
fn access_comes_first() {
    // 34 bytes are used of 50: 8 more with their head fit, 9 do not.
    let mut element = three_fares();
    element.set_expression(QUEUE, Slot::Change, &[0xFF]);
    assert_eq!(element.code(&append(QUEUE, &[1; 9])), 0x07);
    assert_eq!(element.code(&append(QUEUE, &[1; 8])), 0x07);
    assert_eq!(element.code(&acknowledge(QUEUE, 5)), 0x07);
    assert_eq!(element.code(&acknowledge(QUEUE, 9)), 0x07);
    let mut at_end = with_queue(50, u32::MAX, &[]);
    at_end.set_expression(QUEUE, Slot::Change, &[0xFF]);
    assert_eq!(at_end.code(&append(QUEUE, &[1])), 0x07);
    // The change expression is asked, not the others.
    let mut element = three_fares();
    element.set_expression(QUEUE, Slot::Read, &[0xFF]);
    element.set_expression(QUEUE, Slot::Execute, &[0xFF]);
    assert_eq!(element.code(&append(QUEUE, &[1; 2])), 0);
    assert_eq!(element.code(&acknowledge(QUEUE, 8)), 0);
    // And by the present LcsO.
    element.set_expression(QUEUE, Slot::Change, &hex("E1 FC 07"));
    assert_eq!(element.code(&append(QUEUE, &[1])), 0);
    assert_eq!(element.code(&set_metadata(QUEUE, &hex("C0 01 07"))), 0);
    assert_eq!(element.code(&append(QUEUE, &[1])), 0x07);
    assert_eq!(element.code(&acknowledge(QUEUE, 9)), 0x07);
}

#[test]
fn plain_writes_have_no_access() {
    for change in [&[0x00][..], &[0xFF], &hex("E1 FC 07"), &hex("40 1001")] {
        let records = [
            queue_record(QUEUE, 50, &queue_data(1, &[fare(0, &[7])])),
            counter_record(2, COUNTER, 5, 9),
        ];
        let mut element = Element::with_records(&records);
        element.set_expression(QUEUE, Slot::Change, change);
        for param in [0x00, 0x40] {
            for (offset, length) in [(0, 1), (0, 4), (0, 13), (13, 1), (0, 50), (49, 1)] {
                let sent = set(param, QUEUE, offset, &vec![0; length]);
                assert_eq!(element.code(&sent), 0x07);
            }
            // Past the maximum it is 07 too.
            for (offset, length) in [(0, 51), (50, 1), (65_535, 1), (0, 1_549)] {
                let sent = set(param, QUEUE, offset, &vec![0; length]);
                assert_eq!(element.code(&sent), 0x07);
            }
        }
        // Its own bytes change nothing, and are refused as well.
        let own = element.data(QUEUE);
        assert_eq!(element.code(&write(QUEUE, 0, &own)), 0x07);
        assert_eq!(element.code(&erase_and_write(QUEUE, 0, &own)), 0x07);
        assert_eq!(element.data(COUNTER), hex("00000005 00000009"));
    }
}

#[test]
fn a_queue_is_no_counter() {
    let mut element = with_queue(8, 0, &[]);
    for offset in [0, 1] {
        assert_eq!(element.code(&count(QUEUE, offset, 1)), 0x03);
    }
    element.set_expression(QUEUE, Slot::Change, &[0xFF]);
    assert_eq!(element.code(&count(QUEUE, 0, 1)), 0x07);
}

#[test]
fn reads_of_a_queue() {
    let mut element = three_fares();
    // Used is 4 + 9 + 11 + 10.
    let all =
        hex("08000000 0900 0100 05000000 A5 0B00 0100 06000000 010203 0A00 0100 07000000 B0B1");
    assert_eq!(all.len(), 34);
    for (offset, length, shown) in [
        (0, 34, 0..34),
        (0, 35, 0..34),
        (0, 0xFFFF, 0..34),
        (0, 4, 0..4),
        (4, 9, 4..13),
        (13, 2, 13..15),
        (33, 5, 33..34),
        (34, 1, 34..34),
        (34, 0, 34..34),
    ] {
        let response = element.send(&get_data(QUEUE, offset, length));
        assert_eq!(response[0], 0);
        assert_eq!(response[4..], all[shown]);
    }
    assert_eq!(element.code(&get_data(QUEUE, 35, 0)), 0x08);
    assert_eq!(element.code(&get_data(QUEUE, 35, 1)), 0x08);
    assert_eq!(element.code_in(&get_data(QUEUE, 0, 34), 37), 0x0D);
    assert_eq!(element.code_in(&get_data(QUEUE, 0, 34), 38), 0);
    element.set_expression(QUEUE, Slot::Read, &[0xFF]);
    assert_eq!(element.code(&get_data(QUEUE, 0, 34)), 0x07);
    let mut empty = with_queue(20, 0x0102_0304, &[]);
    let response = empty.send(&get_data(QUEUE, 0, 20));
    assert_eq!(response, hex("00 00 00 04 04 03 02 01"));
}

#[test]
fn metadata_of_a_queue() {
    let mut element = three_fares();
    let expected = "00 00 00 16 20 14 C0 01 01 C4 02 00 32 C5 02 00 22 \
                    D0 01 00 D1 01 00 D3 01 00";
    assert_eq!(element.send(&get_metadata(QUEUE)), hex(expected));
    let before = element.data(QUEUE);
    let content = hex("C0 01 03 D0 03 E1 FC 07 D1 01 FF");
    assert_eq!(element.send(&set_metadata(QUEUE, &content)), DONE);
    let expected = "00 00 00 18 20 16 C0 01 03 C4 02 00 32 C5 02 00 22 \
                    D0 03 E1 FC 07 D1 01 FF D3 01 00";
    assert_eq!(element.send(&get_metadata(QUEUE)), hex(expected));
    assert_eq!(element.data(QUEUE), before);
    for content in ["C0 01 01", "C5 02 00 04", "D0 01 01", ""] {
        assert_eq!(element.code(&set_metadata(QUEUE, &hex(content))), 0x05);
    }
    element.set_expression(QUEUE, Slot::Change, &[0xFF]);
    let content = hex("C0 01 03");
    assert_eq!(element.code(&set_metadata(QUEUE, &content)), 0x07);
    // Used is seen to rise and fall.
    element.set_expression(QUEUE, Slot::Change, &[0x00]);
    assert_eq!(element.send(&append(QUEUE, &[1])), DONE);
    assert_eq!(element.send(&get_metadata(QUEUE))[16], 0x2B);
    assert_eq!(element.send(&acknowledge(QUEUE, 6)), DONE);
    assert_eq!(element.send(&get_metadata(QUEUE))[16], 0x17);
}

/// The queue of three fares, and a counter of 5 with threshold 9 that its changes use up.
fn counting() -> Element {
    let mut element = three_fares();
    let counter = counter_record(2, COUNTER, 5, 9);
    element.store.splice(146..146, counter);
    element.set_expression(QUEUE, Slot::Change, &hex("40 1001"));
    assert!(check_store(&element.store));
    element
}

fn value(element: &mut Element) -> u8 {
    let data = element.data(COUNTER);
    assert_eq!(data[..3], [0; 3]);
    data[3]
}

#[test]
fn a_change_of_a_queue_uses_up_counters() {
    let mut element = counting();
    assert_eq!(element.send(&append(QUEUE, &[1])), DONE);
    assert_eq!(value(&mut element), 6);
    assert_eq!(element.send(&acknowledge(QUEUE, 6)), DONE);
    assert_eq!(value(&mut element), 7);
    let left = [fare(7, &[0xB0, 0xB1]), fare(8, &[1])];
    assert!(holds(&mut element, 9, &left));
    let sent_back = hex("C0 01 01 D0 03 40 10 01 D1 01 00 D3 01 00");
    assert_eq!(element.send(&set_metadata(QUEUE, &sent_back)), DONE);
    assert_eq!(value(&mut element), 8);
    // The last step, and then there is no access.
    assert_eq!(element.send(&acknowledge(QUEUE, 7)), DONE);
    assert_eq!(value(&mut element), 9);
    assert_eq!(element.code(&append(QUEUE, &[1])), 0x07);
    assert_eq!(element.code(&acknowledge(QUEUE, 8)), 0x07);
    assert!(holds(&mut element, 9, &[fare(8, &[1])]));
}

#[test]
fn a_refused_change_uses_up_nothing() {
    let mut element = counting();
    // 16 bytes are left.
    assert_eq!(element.code(&append(QUEUE, &[1; 9])), 0x08);
    assert_eq!(element.code(&append(QUEUE, &[1; 201])), 0x04);
    assert_eq!(element.code(&acknowledge(QUEUE, 8)), 0x05);
    assert_eq!(element.code(&count(QUEUE, 0, 1)), 0x03);
    assert_eq!(element.code(&write(QUEUE, 0, &[8])), 0x07);
    assert_eq!(element.code(&erase_and_write(QUEUE, 0, &[8])), 0x07);
    assert_eq!(element.code(&set_metadata(QUEUE, &hex("C0 01 00"))), 0x05);
    element.set_expression(0xF1D0, Slot::Change, &hex("40 1001"));
    assert_eq!(element.code(&append(0xF1D0, &[1])), 0x03);
    assert_eq!(element.code(&acknowledge(0xF1D0, 1)), 0x03);
    assert_eq!(value(&mut element), 5);
    let mut at_end = with_queue(50, u32::MAX, &[]);
    at_end
        .store
        .splice(146..146, counter_record(2, COUNTER, 5, 9));
    at_end.set_expression(QUEUE, Slot::Change, &hex("40 1001"));
    assert_eq!(at_end.code(&append(QUEUE, &[1])), 0x0D);
    assert_eq!(value(&mut at_end), 5);
}

#[test]
fn a_queue_makes_a_condition_false() {
    let mut element = three_fares();
    element.set_expression(0xF1D0, Slot::Change, &hex("40 1000"));
    assert_eq!(element.code(&write(0xF1D0, 0, &[1])), 0x07);
    element.set_expression(QUEUE, Slot::Change, &hex("40 1000"));
    assert_eq!(element.code(&append(QUEUE, &[1])), 0x07);
    assert_eq!(element.code(&acknowledge(QUEUE, 5)), 0x07);
}

#[test]
fn rooms_of_a_change() {
    for sent in [append(QUEUE, &[1]), acknowledge(QUEUE, 5)] {
        let mut element = three_fares();
        let before = element.clone();
        for size in 0..4 {
            let mut room = vec![0xA5; size];
            assert_eq!(element.send_in(&sent, &mut room), 1);
            assert_eq!(element, before);
        }
        let mut room = [0xA5; 6];
        assert_eq!(element.send_in(&sent, &mut room[..4]), 0);
        assert_eq!(room, [0, 0, 0, 0, 0xA5, 0xA5]);
        assert_ne!(element.store, before.store);
    }
}

#[test]
fn errors_and_flushes_of_queues() {
    let mut element = three_fares();
    element.send(&acknowledge(QUEUE, 9));
    assert_eq!(element.session.error, 0x05);
    element.send(&append(QUEUE, &[1; 100]));
    assert_eq!(element.session.error, 0x08);
    element.send(&acknowledge(QUEUE, 9));
    assert_eq!(element.session.error, 0x08);
    let mut flushing = acknowledge(QUEUE, 9);
    flushing[0] |= 0x80;
    element.send(&flushing);
    assert_eq!(element.session.error, 0x05);
    let mut flushing = append(QUEUE, &[1]);
    flushing[0] |= 0x80;
    assert_eq!(element.send(&flushing), DONE);
    assert_eq!(element.session.error, 0);
}

type Fare = (u32, Vec<u8>);

/// A queue's next number and fares, as a host reads them.
fn upload(element: &mut Element) -> (u32, Vec<Fare>) {
    let response = element.send(&get_data(QUEUE, 0, 0xFFFF));
    assert_eq!(response[0], 0);
    let number = |bytes: &[u8]| u32::from_le_bytes(bytes.try_into().unwrap());
    let next = number(&response[4..8]);
    let mut rest = &response[8..];
    let mut fares = Vec::new();
    while !rest.is_empty() {
        let length = usize::from(u16::from_le_bytes([rest[0], rest[1]]));
        assert_eq!(rest[2..4], [1, 0]);
        fares.push((number(&rest[4..8]), rest[8..length].to_vec()));
        rest = &rest[length..];
    }
    (next, fares)
}

/// A long time of one queue, and what the test keeps of it.
struct Day {
    element: Element,
    maximum: usize,
    next: u32,
    accepted: Vec<Fare>,
    /// As read before each acknowledgement that was done.
    acknowledged: Vec<Fare>,
    refusals: [usize; 16],
    random: Random,
}

impl Day {
    fn new(maximum: u16, next: u32, seed: u64) -> Day {
        let records = [
            queue_record(QUEUE, maximum, &queue_data(next, &[])),
            counter_record(2, COUNTER, 0, u32::MAX),
            queue_record(OTHER, 400, &[0; 4]),
        ];
        Day {
            element: Element::with_records(&records),
            maximum: usize::from(maximum),
            next,
            accepted: Vec::new(),
            acknowledged: Vec::new(),
            refusals: [0; 16],
            random: Random::new(seed),
        }
    }

    /// The fares accepted and not acknowledged.
    fn present(&self) -> &[Fare] {
        &self.accepted[self.acknowledged.len()..]
    }

    fn used(&self) -> usize {
        let sizes = self.present().iter().map(|fare| 8 + fare.1.len());
        4 + sizes.sum::<usize>()
    }

    fn step(&mut self) {
        match self.random.below(20) {
            0..=8 => self.append(),
            9..=13 => self.acknowledge(),
            14 => self.plain_write(),
            15 => self.change_others(),
            16 => self.change_metadata(),
            _ => self.read(),
        }
        let code = self.element.session.error;
        self.element.session.error = 0;
        self.refusals[usize::from(code)] += 1;
    }

    fn append(&mut self) {
        let size = match self.random.below(10) {
            0 => self.random.pick(&[0, 1, 199, 200, 201, 300]),
            1..=6 => self.random.between(1, 30),
            _ => self.random.between(1, 200),
        };
        let body = self.random.bytes(size);
        let due = match size {
            0 | 201.. => 0x04,
            _ if self.used() + 8 + size > self.maximum => 0x08,
            _ if self.next == u32::MAX => 0x0D,
            _ => 0,
        };
        assert_eq!(self.element.code(&append(QUEUE, &body)), due);
        if due == 0 {
            self.accepted.push((self.next, body));
            self.next += 1;
        }
    }

    fn acknowledge(&mut self) {
        let first = self.next - self.present().len() as u32;
        let number = match self.random.below(12) {
            0..=6 => first,
            7 | 8 => first.wrapping_add(self.random.below(6) as u32),
            9 => first.wrapping_sub(1),
            10 => self.next.wrapping_sub(1),
            _ => self.random.number() as u32,
        };
        let (_, read) = upload(&mut self.element);
        let place = self.present().iter().position(|fare| fare.0 == number);
        let due = if place.is_some() { 0 } else { 0x05 };
        assert_eq!(self.element.code(&acknowledge(QUEUE, number)), due);
        if let Some(place) = place {
            self.acknowledged.extend_from_slice(&read[..=place]);
        }
    }

    fn plain_write(&mut self) {
        let sent = set(self.random.pick(&[0x00, 0x40]), QUEUE, 0, &[0; 4]);
        assert_eq!(self.element.code(&sent), 0x07);
        assert_eq!(self.element.code(&count(QUEUE, 0, 1)), 0x03);
    }

    /// The other queue, the counter and a factory object.
    fn change_others(&mut self) {
        let size = self.random.between(1, 200);
        let body = self.random.bytes(size);
        let fits = self.element.used(OTHER) + 8 + size <= 400;
        let code = self.element.code(&append(OTHER, &body));
        assert_eq!(code, if fits { 0 } else { 0x08 });
        if !fits {
            let next = self.element.data(OTHER)[..4].try_into().unwrap();
            let last = u32::from_le_bytes(next) - 1;
            assert_eq!(self.element.code(&acknowledge(OTHER, last)), 0);
        }
        assert_eq!(self.element.code(&count(COUNTER, 0, 1)), 0);
        assert_eq!(self.element.code(&write(0xF1D0, 3, &[1, 2])), 0);
    }

    /// A change expression that refuses, and one that holds again.
    fn change_metadata(&mut self) {
        let never = set_metadata(QUEUE, &hex("D0 03 E1 FA 0F"));
        assert_eq!(self.element.code(&never), 0);
        assert_eq!(self.element.code(&append(QUEUE, &[1])), 0x07);
        assert_eq!(self.element.code(&acknowledge(QUEUE, self.next)), 0x07);
        self.element.set_expression(QUEUE, Slot::Change, &[0x00]);
    }

    fn read(&mut self) {
        let expected = (self.next, self.present().to_vec());
        assert_eq!(upload(&mut self.element), expected);
        let used = self.used();
        assert_eq!(self.element.used(QUEUE), used);
        assert!(self.element.data(QUEUE)[used..]
            .iter()
            .all(|&byte| byte == 0));
        assert!(check_store(&self.element.store));
    }

    /// Acknowledged and then present is accepted, each once, with its number.
    fn end(mut self, start: u32) -> [usize; 16] {
        self.read();
        let (_, present) = upload(&mut self.element);
        let kept: Vec<Fare> = [&self.acknowledged[..], &present].concat();
        assert_eq!(kept, self.accepted);
        let numbers = self.accepted.iter().map(|fare| fare.0);
        assert!(numbers.eq(start..self.next));
        self.refusals
    }
}

#[test]
fn long_days_of_a_queue() {
    for (maximum, start) in [(60, 0), (300, 250), (1_500, 65_000), (700, u32::MAX - 900)] {
        let mut day = Day::new(maximum, start, u64::from(maximum));
        for _ in 0..4_000 {
            day.step();
        }
        assert!(day.accepted.len() > 300, "{}", day.accepted.len());
        assert!(day.acknowledged.len() > 300);
        let refusals = day.end(start);
        for code in [0x04, 0x05, 0x07, 0x08] {
            assert!(refusals[code] > 20, "{code} of {maximum}");
        }
    }
}

#[test]
fn a_day_to_the_last_number() {
    let start = u32::MAX - 100;
    let mut day = Day::new(400, start, 9);
    for _ in 0..3_000 {
        day.step();
    }
    assert_eq!(day.next, u32::MAX);
    assert_eq!(day.accepted.len(), 100);
    let refusals = day.end(start);
    assert!(refusals[0x0D] > 20);
}
