//! Gets of data that ask for more than is there.

mod common;

use common::{counter_record, get_data, hex, write, Element, DONE, REFUSED};
use reference::store::Slot;

/// The three objects of the session: LcsG, LcsA and the last error.
const SESSION_OBJECTS: [u16; 3] = [0xE0C0, 0xF1C0, 0xF1C2];

/// An opened element whose F1D0 has used 3 of its 140 bytes: 0A 0B 0C.
fn three_used() -> Element {
    let mut element = Element::opened();
    assert_eq!(element.send(&write(0xF1D0, 0, &[0x0A, 0x0B, 0x0C])), DONE);
    element
}

/// An opened element with LcsG 07, LcsA 03 and last error 55.
fn with_session_bytes() -> Element {
    let mut element = Element::opened();
    element.session.lcsg = 0x07;
    element.session.lcsa = 0x03;
    element.session.error = 0x55;
    element
}

/// Sends a get in a room of this size, and gives the response.
/// The bytes of the room after it and the store stay as they were.
fn get_in(element: &mut Element, object: u16, offset: u16, length: u16, size: usize) -> Vec<u8> {
    let store = element.store.clone();
    let mut room = vec![0xA5; size];
    let outcome = element.send_in(&get_data(object, offset, length), &mut room);
    assert_eq!(outcome, 0);
    assert_eq!(element.store, store);
    let end = 4 + usize::from(u16::from_be_bytes([room[2], room[3]]));
    assert!(room[end..].iter().all(|&byte| byte == 0xA5));
    room.truncate(end);
    room
}

#[test]
fn p4_with_a_length_above_used() {
    let mut element = Element::opened();
    element.done("02 00 00 0C F1 D0 00 09 01 02 03 04 05 06 07 08");
    let expected = hex("00 00 00 11 00 00 00 00 00 00 00 00 00 01 02 03 04 05 06 07 08");
    for length in ["00 11", "00 12", "00 8C", "00 8D", "FF FF"] {
        let sent = format!("01 00 00 06 F1 D0 00 00 {length}");
        assert_eq!(element.send_hex(&sent), expected, "{length}");
    }
    assert_eq!(element.session.error, 0);
}

#[test]
fn each_offset_and_length_of_three_used_bytes() {
    for (offset, length, response) in [
        // From the start.
        (0, 0, "00 00 00 00"),
        (0, 1, "00 00 00 01 0A"),
        (0, 2, "00 00 00 02 0A 0B"),
        (0, 3, "00 00 00 03 0A 0B 0C"),
        (0, 4, "00 00 00 03 0A 0B 0C"),
        (0, 140, "00 00 00 03 0A 0B 0C"),
        (0, 141, "00 00 00 03 0A 0B 0C"),
        (0, 65_535, "00 00 00 03 0A 0B 0C"),
        // In the middle.
        (1, 0, "00 00 00 00"),
        (1, 1, "00 00 00 01 0B"),
        (1, 2, "00 00 00 02 0B 0C"),
        (1, 3, "00 00 00 02 0B 0C"),
        (1, 65_534, "00 00 00 02 0B 0C"),
        // At used - 1.
        (2, 0, "00 00 00 00"),
        (2, 1, "00 00 00 01 0C"),
        (2, 2, "00 00 00 01 0C"),
        (2, 3, "00 00 00 01 0C"),
        (2, 65_533, "00 00 00 01 0C"),
        // At used.
        (3, 0, "00 00 00 00"),
        (3, 1, "00 00 00 00"),
        (3, 2, "00 00 00 00"),
        (3, 137, "00 00 00 00"),
        (3, 65_532, "00 00 00 00"),
    ] {
        let mut element = three_used();
        let before = element.clone();
        let sent = get_data(0xF1D0, offset, length);
        assert_eq!(element.send(&sent), hex(response), "{offset} {length}");
        assert_eq!(element, before);
    }
}

#[test]
fn sums_past_16_bits() {
    for (offset, length, response) in [
        (1, 65_535, "00 00 00 02 0B 0C"),
        (2, 65_534, "00 00 00 01 0C"),
        (2, 65_535, "00 00 00 01 0C"),
        (3, 65_533, "00 00 00 00"),
        (3, 65_535, "00 00 00 00"),
    ] {
        let response = hex(response);
        assert_eq!(
            three_used().send(&get_data(0xF1D0, offset, length)),
            response
        );
    }
}

#[test]
fn only_an_offset_above_used_is_08() {
    let mut element = three_used();
    for offset in [4, 5, 139, 140, 141, 255, 256, 259, 32_768, 65_535] {
        for length in [0, 1, 2, 3, 4, 140, 65_531, 65_532, 65_533, 65_535] {
            let sent = get_data(0xF1D0, offset, length);
            assert_eq!(element.code(&sent), 0x08, "{offset} {length}");
            // Before the room.
            assert_eq!(element.code_in(&sent, 4), 0x08, "{offset} {length}");
        }
    }
}

#[test]
fn an_empty_object() {
    let mut element = Element::opened();
    for length in [0, 1, 140, 65_535] {
        assert_eq!(element.send(&get_data(0xF1D0, 0, length)), DONE);
        assert_eq!(element.code_in(&get_data(0xF1D0, 0, length), 4), 0);
        assert_eq!(element.code(&get_data(0xF1D0, 1, length)), 0x08);
    }
}

#[test]
fn a_full_object_of_the_largest_size() {
    let mut element = Element::opened();
    let bytes: Vec<u8> = (0..1_500).map(|place| (place % 251) as u8).collect();
    assert_eq!(element.send(&write(0xF1E0, 0, &bytes)), DONE);
    for length in [1_500, 1_501, 65_535] {
        let response = element.send(&get_data(0xF1E0, 0, length));
        assert_eq!(response[..4], hex("00 00 05 DC"));
        assert_eq!(response[4..], bytes);
        // 1,504 bytes of room are enough, 1,503 are not.
        assert_eq!(element.code_in(&get_data(0xF1E0, 0, length), 1_504), 0);
        assert_eq!(element.code_in(&get_data(0xF1E0, 0, length), 1_503), 0x0D);
        // Past the end of its data.
        assert_eq!(element.code(&get_data(0xF1E0, 1_501, length)), 0x08);
        assert_eq!(element.send(&get_data(0xF1E0, 1_500, length)), DONE);
    }
    // Its last byte is 1,499 - 5 * 251 = 244.
    let response = element.send(&get_data(0xF1E0, 1_499, 2));
    assert_eq!(response, hex("00 00 00 01 F4"));
}

#[test]
fn bytes_past_used_are_not_shown() {
    let mut element = Element::opened();
    element.send(&write(0xF1D0, 0, &[0xEE; 140]));
    element.send(&common::erase_and_write(0xF1D0, 1, &[0x77]));
    let response = element.send(&get_data(0xF1D0, 0, 140));
    assert_eq!(response, hex("00 00 00 02 00 77"));
    // The record after it is not reached either.
    element.send(&write(0xF1D1, 0, &[0x99; 140]));
    let response = element.send(&get_data(0xF1D0, 0, 300));
    assert_eq!(response, hex("00 00 00 02 00 77"));
}

#[test]
fn the_room_is_judged_by_the_shortened_answer() {
    for (offset, length, needed) in [
        (0, 3, 7),
        (0, 4, 7),
        (0, 140, 7),
        (0, 65_535, 7),
        (1, 3, 6),
        (1, 65_535, 6),
        (2, 2, 5),
        (2, 65_535, 5),
        (3, 0, 4),
        (3, 1, 4),
        (3, 65_535, 4),
    ] {
        for size in 4..=12 {
            let code = three_used().code_in(&get_data(0xF1D0, offset, length), size);
            let expected = if size < needed { 0x0D } else { 0 };
            assert_eq!(code, expected, "{offset} {length} {size}");
        }
    }
}

#[test]
fn a_room_that_fits_exactly() {
    let mut element = three_used();
    let response = get_in(&mut element, 0xF1D0, 0, 0xFFFF, 7);
    assert_eq!(response, hex("00 00 00 03 0A 0B 0C"));
    assert_eq!(element.session.error, 0);
    let response = get_in(&mut element, 0xF1D0, 0, 0xFFFF, 6);
    assert_eq!(response, REFUSED);
    assert_eq!(element.session.error, 0x0D);
}

#[test]
fn no_room_for_a_header_is_outcome_1() {
    let mut element = three_used();
    element.session.error = 0x02;
    let before = element.clone();
    for size in 0..4 {
        let mut room = vec![0xA5; size];
        assert_eq!(
            element.send_in(&get_data(0xF1D0, 3, 9), &mut room),
            1,
            "{size}"
        );
        assert_eq!(room, vec![0xA5; size]);
        assert_eq!(element, before);
    }
}

#[test]
fn access_comes_before_the_offset() {
    let mut element = three_used();
    element.set_expression(0xF1D0, Slot::Read, &[0xFF]);
    for offset in [0, 2, 3, 4, 140, 65_535] {
        for length in [0, 1, 3, 4, 65_535] {
            let sent = get_data(0xF1D0, offset, length);
            assert_eq!(element.code(&sent), 0x07, "{offset} {length}");
            assert_eq!(element.code_in(&sent, 4), 0x07, "{offset} {length}");
        }
    }
}

#[test]
fn an_object_that_is_not_there() {
    let mut element = Element::opened();
    for (offset, length) in [(0, 0), (0, 1), (0, 65_535), (65_535, 65_535)] {
        assert_eq!(element.code(&get_data(0xF1DC, offset, length)), 0x01);
    }
}

/// The response to a get of a session object by offset and length, and its code.
fn session_answer(byte: u8, offset: u16, length: u16, size: usize) -> (Vec<u8>, u8) {
    match (offset, length, size) {
        (0, 0, _) => (hex("00 00 00 00"), 0),
        (0, _, 4) => (hex("FF 00 00 00"), 0x0D),
        (0, _, _) => (vec![0x00, 0x00, 0x00, 0x01, byte], 0),
        (1, _, _) => (hex("00 00 00 00"), 0),
        _ => (hex("FF 00 00 00"), 0x08),
    }
}

#[test]
fn session_objects_by_offset_length_and_room() {
    for (object, byte) in SESSION_OBJECTS.into_iter().zip([0x07, 0x03, 0x55]) {
        for offset in [0, 1, 2, 3, 256, 65_535] {
            for length in [0, 1, 2, 3, 256, 65_534, 65_535] {
                for size in [4, 5, 6, 1_504] {
                    let mut element = with_session_bytes();
                    let before = element.session;
                    let (response, code) = session_answer(byte, offset, length, size);
                    let given = get_in(&mut element, object, offset, length, size);
                    let case = format!("{object:04X} {offset} {length} {size}");
                    assert_eq!(given, response, "{case}");
                    let mut expected = before;
                    expected.error = before.error.max(code);
                    if object == 0xF1C2 && response.len() == 5 {
                        expected.error = 0;
                    }
                    assert_eq!(element.session, expected, "{case}");
                }
            }
        }
    }
}

#[test]
fn the_last_error_is_cleared_only_when_its_byte_is_returned() {
    for (error, offset, length, size, after) in [
        // Its byte is returned.
        (0x03, 0, 1, 5, 0x00),
        (0x03, 0, 2, 5, 0x00),
        (0x03, 0, 0xFFFF, 5, 0x00),
        (0x03, 0, 0xFFFF, 1_504, 0x00),
        (0xFF, 0, 2, 6, 0x00),
        // Nothing is returned.
        (0x03, 0, 0, 4, 0x03),
        (0x03, 0, 0, 5, 0x03),
        (0x03, 1, 0, 5, 0x03),
        (0x03, 1, 1, 5, 0x03),
        (0x03, 1, 2, 5, 0x03),
        (0x03, 1, 0xFFFF, 4, 0x03),
        (0x03, 1, 0xFFFF, 5, 0x03),
        // Refused by 0D and by 08: the larger code is kept.
        (0x03, 0, 1, 4, 0x0D),
        (0x03, 0, 2, 4, 0x0D),
        (0x03, 0, 0xFFFF, 4, 0x0D),
        (0xFF, 0, 0xFFFF, 4, 0xFF),
        (0x03, 2, 0, 4, 0x08),
        (0x03, 2, 1, 5, 0x08),
        (0x0A, 2, 0xFFFF, 5, 0x0A),
        (0x0A, 0xFFFF, 1, 5, 0x0A),
    ] {
        let mut element = Element::opened();
        element.session.error = error;
        get_in(&mut element, 0xF1C2, offset, length, size);
        assert_eq!(element.session.error, after, "{error} {offset} {length}");
    }
}

#[test]
fn the_last_error_is_still_there_after_a_get_at_its_end() {
    let mut element = Element::opened();
    element.session.error = 0x0C;
    assert_eq!(element.send_hex("01 00 00 06 F1 C2 00 01 FF FF"), DONE);
    let response = element.send_hex("01 00 00 06 F1 C2 00 00 FF FF");
    assert_eq!(response, hex("00 00 00 01 0C"));
    let response = element.send_hex("01 00 00 06 F1 C2 00 00 FF FF");
    assert_eq!(response, hex("00 00 00 01 00"));
}

#[test]
fn a_flush_comes_before_a_short_read() {
    for (sent, response) in [
        ("81 00 00 06 F1 C2 00 00 00 02", "00 00 00 01 00"),
        ("81 00 00 06 F1 C2 00 01 00 02", "00 00 00 00"),
    ] {
        let mut element = Element::opened();
        element.session.error = 0x0C;
        assert_eq!(element.send_hex(sent), hex(response));
        assert_eq!(element.session.error, 0);
    }
}

#[test]
fn counters_are_read_as_data_is() {
    for kind in [2, 4] {
        let record = counter_record(kind, 0x1000, 0x0102_0304, 0x0506_0708);
        for (offset, length, response) in [
            (0, 8, "00 00 00 08 01 02 03 04 05 06 07 08"),
            (0, 9, "00 00 00 08 01 02 03 04 05 06 07 08"),
            (0, 65_535, "00 00 00 08 01 02 03 04 05 06 07 08"),
            (4, 5, "00 00 00 04 05 06 07 08"),
            (7, 1, "00 00 00 01 08"),
            (7, 2, "00 00 00 01 08"),
            (8, 0, "00 00 00 00"),
            (8, 1, "00 00 00 00"),
            (8, 65_535, "00 00 00 00"),
        ] {
            let mut element = Element::with_records(std::slice::from_ref(&record));
            let needed = hex(response).len();
            let given = get_in(&mut element, 0x1000, offset, length, needed);
            assert_eq!(given, hex(response), "{kind} {offset} {length}");
            if needed > 4 {
                let sent = get_data(0x1000, offset, length);
                assert_eq!(element.code_in(&sent, needed - 1), 0x0D);
            }
        }
        let mut element = Element::with_records(&[record]);
        for length in [0, 1, 8, 65_535] {
            assert_eq!(element.code(&get_data(0x1000, 9, length)), 0x08);
        }
    }
}

#[test]
fn writes_are_as_they_were() {
    let mut element = three_used();
    assert_eq!(element.code(&write(0xF1D0, 139, &[1, 2])), 0x08);
    assert_eq!(element.code(&write(0xF1D0, 140, &[1])), 0x08);
    assert_eq!(element.code(&write(0xE0C0, 0, &[1, 1])), 0x08);
    assert_eq!(element.code(&write(0xF1C0, 1, &[1])), 0x08);
    assert_eq!(element.code(&write(0xF1C2, 1, &[1])), 0x07);
    // A write above used is done, and a read then reaches it.
    assert_eq!(element.send(&write(0xF1D0, 5, &[0x0E])), DONE);
    let response = element.send(&get_data(0xF1D0, 2, 140));
    assert_eq!(response, hex("00 00 00 04 0C 00 00 0E"));
}
