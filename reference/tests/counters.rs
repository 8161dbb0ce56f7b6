//! Counters: counts, writes and reads, and the order of their refusals.

mod common;

use common::{
    command, count, counter_record, erase_and_write, get_data, get_metadata, hex, set,
    set_metadata, write, Element, DONE,
};
use reference::check_store;
use reference::store::Slot;

/// The object of each counter, before those of the factory.
const COUNTER: u16 = 0x1000;

const UP: u8 = 2;
const DOWN: u8 = 4;

fn with_counter(kind: u8, value: u32, threshold: u32) -> Element {
    Element::with_records(&[counter_record(kind, COUNTER, value, threshold)])
}

/// Sends a count that must be done, and gives the data after it.
fn counted(kind: u8, value: u32, threshold: u32, step: u8) -> Vec<u8> {
    let mut element = with_counter(kind, value, threshold);
    let before = element.clone();
    assert_eq!(element.send(&count(COUNTER, 0, step)), DONE);
    assert_eq!(element.session, before.session);
    // Only the data of the first record may have changed.
    assert_eq!(element.store[..96], before.store[..96]);
    assert_eq!(element.store[104..], before.store[104..]);
    assert!(check_store(&element.store));
    element.data(COUNTER)
}

/// The code by which a count is refused; 0 if it is done.
fn code(kind: u8, value: u32, threshold: u32, step: u8) -> u8 {
    with_counter(kind, value, threshold).code(&count(COUNTER, 0, step))
}

#[test]
fn bytes_of_a_count_up() {
    // Value 250 (00FA), threshold 600 (0258).
    let mut element = with_counter(UP, 250, 600);
    element.done("02 02 00 05 10 00 00 00 0A");
    let data = element.done("01 00 00 06 10 00 00 00 00 08");
    assert_eq!(data, hex("00 00 01 04 00 00 02 58"));
    element.done("82 02 00 05 10 00 00 00 FF");
    let data = element.done("01 00 00 06 10 00 00 00 00 08");
    assert_eq!(data, hex("00 00 02 03 00 00 02 58"));
    element.done("02 02 00 05 10 00 00 00 FF");
    let data = element.done("01 00 00 06 10 00 00 00 00 08");
    assert_eq!(data, hex("00 00 02 58 00 00 02 58"));
    assert_eq!(element.code_hex("02 02 00 05 10 00 00 00 01"), 0x08);
}

#[test]
fn bytes_of_a_count_down() {
    // Value 600 (0258), threshold 250 (00FA).
    let mut element = with_counter(DOWN, 600, 250);
    element.done("02 02 00 05 10 00 00 00 59");
    let data = element.done("01 00 00 06 10 00 00 00 00 08");
    assert_eq!(data, hex("00 00 01 FF 00 00 00 FA"));
    element.done("02 02 00 05 10 00 00 00 FF");
    let data = element.done("01 00 00 06 10 00 00 00 00 08");
    assert_eq!(data, hex("00 00 01 00 00 00 00 FA"));
    element.done("02 02 00 05 10 00 00 00 07");
    let data = element.done("01 00 00 06 10 00 00 00 00 08");
    assert_eq!(data, hex("00 00 00 FA 00 00 00 FA"));
    assert_eq!(element.code_hex("02 02 00 05 10 00 00 00 01"), 0x08);
}

#[test]
fn counts_up_to_the_threshold() {
    for (value, threshold, step, after) in [
        (5, 9, 3, "00000008 00000009"),
        (5, 9, 4, "00000009 00000009"),
        (5, 9, 5, "00000009 00000009"),
        (5, 9, 255, "00000009 00000009"),
        (5, 9, 0, "00000005 00000009"),
        (8, 9, 1, "00000009 00000009"),
        (0, 1, 255, "00000001 00000001"),
        (0x00FF_FFFF, 0xFFFF_FFFF, 1, "01000000 FFFFFFFF"),
        (0xFFFF_FF00, 0xFFFF_FFFF, 254, "FFFFFFFE FFFFFFFF"),
        (0xFFFF_FF00, 0xFFFF_FFFF, 255, "FFFFFFFF FFFFFFFF"),
        (0xFFFF_FFFE, 0xFFFF_FFFF, 2, "FFFFFFFF FFFFFFFF"),
        (0xFFFF_FFFE, 0xFFFF_FFFF, 255, "FFFFFFFF FFFFFFFF"),
        (0xFFFF_FF80, 0xFFFF_FF90, 255, "FFFFFF90 FFFFFF90"),
        (0, 0xFFFF_FFFF, 255, "000000FF FFFFFFFF"),
    ] {
        assert_eq!(counted(UP, value, threshold, step), hex(after));
    }
}

#[test]
fn counts_down_to_the_threshold() {
    for (value, threshold, step, after) in [
        (9, 5, 3, "00000006 00000005"),
        (9, 5, 4, "00000005 00000005"),
        (9, 5, 5, "00000005 00000005"),
        (9, 5, 255, "00000005 00000005"),
        (9, 5, 0, "00000009 00000005"),
        (6, 5, 1, "00000005 00000005"),
        (0xFFFF_FFFF, 0xFFFF_FFFE, 255, "FFFFFFFE FFFFFFFE"),
        (0x0100_0000, 0, 1, "00FFFFFF 00000000"),
        (255, 0, 254, "00000001 00000000"),
        (255, 0, 255, "00000000 00000000"),
        (1, 0, 2, "00000000 00000000"),
        (1, 0, 255, "00000000 00000000"),
        (0x7F, 0x6F, 255, "0000006F 0000006F"),
        (0xFFFF_FFFF, 0, 255, "FFFFFF00 00000000"),
    ] {
        assert_eq!(counted(DOWN, value, threshold, step), hex(after));
    }
}

#[test]
fn counts_at_the_threshold_or_past_it() {
    for step in [0, 1, 2, 255] {
        for (value, threshold) in [
            (9, 9),
            (10, 9),
            (0xFFFF_FFFF, 9),
            (0, 0),
            (0xFFFF_FFFF, 0),
            (0xFFFF_FFFF, 0xFFFF_FFFF),
            (0x8000_0000, 0x7FFF_FFFF),
        ] {
            assert_eq!(code(UP, value, threshold, step), 0x08);
        }
        for (value, threshold) in [
            (9, 9),
            (8, 9),
            (0, 9),
            (0, 0),
            (0, 0xFFFF_FFFF),
            (0xFFFF_FFFF, 0xFFFF_FFFF),
            (0x7FFF_FFFF, 0x8000_0000),
        ] {
            assert_eq!(code(DOWN, value, threshold, step), 0x08);
        }
    }
}

#[test]
fn a_step_of_0_changes_nothing() {
    for (kind, value, threshold) in [(UP, 5, 9), (DOWN, 9, 5)] {
        let mut element = with_counter(kind, value, threshold);
        let before = element.clone();
        assert_eq!(element.send(&count(COUNTER, 0, 0)), DONE);
        assert_eq!(element, before);
    }
}

#[test]
fn length_of_a_count() {
    for kind in [UP, DOWN] {
        for length in (0..=12).filter(|&length| length != 5) {
            let mut in_data = hex("10 00 00 00");
            in_data.resize(length, 1);
            let mut element = with_counter(kind, 7, 7);
            assert_eq!(element.code(&command(0x02, 0x02, &in_data)), 0x04);
        }
    }
    // Also where the object is missing, of data, or of the session.
    for object in ["10 01", "F1 D0", "E0 C0", "F1 C0", "F1 C2"] {
        for rest in ["", "00 00", "00 00 01 01"] {
            let in_data = hex(&format!("{object} {rest}"));
            let mut element = with_counter(UP, 7, 9);
            assert_eq!(element.code(&command(0x02, 0x02, &in_data)), 0x04);
        }
    }
}

#[test]
fn offset_of_a_count() {
    for (kind, value, threshold) in [(UP, 5, 9), (DOWN, 9, 5)] {
        for offset in [1, 4, 7, 8, 256, 65_535] {
            let mut element = with_counter(kind, value, threshold);
            assert_eq!(element.code(&count(COUNTER, offset, 1)), 0x08);
        }
    }
}

#[test]
fn count_of_other_objects() {
    let mut element = with_counter(UP, 5, 9);
    // 03 also where the offset is not 0: the kind is judged before it.
    for offset in [0, 1, 65_535] {
        assert_eq!(element.code(&count(0xF1D0, offset, 1)), 0x03);
        assert_eq!(element.code(&count(0xE0C0, offset, 1)), 0x03);
        assert_eq!(element.code(&count(0xF1C0, offset, 1)), 0x03);
        assert_eq!(element.code(&count(0xF1C2, offset, 1)), 0x07);
        assert_eq!(element.code(&count(0x0FFF, offset, 1)), 0x01);
    }
    // Data of 8 bytes is no counter.
    let mut data = Element::with_records(&[counter_record(1, COUNTER, 5, 9)]);
    assert_eq!(data.code(&count(COUNTER, 0, 1)), 0x03);
}

#[test]
fn access_comes_before_the_kind() {
    let mut element = Element::opened();
    element.set_expression(0xF1D0, Slot::Change, &[0xFF]);
    assert_eq!(element.code(&count(0xF1D0, 0, 1)), 0x07);
    assert_eq!(element.code(&count(0xF1D0, 1, 1)), 0x07);
}

#[test]
fn access_comes_before_the_threshold() {
    for kind in [UP, DOWN] {
        for value in [5, 9, 13] {
            for offset in [0, 1] {
                let mut element = with_counter(kind, value, 9);
                element.set_expression(COUNTER, Slot::Change, &[0xFF]);
                assert_eq!(element.code(&count(COUNTER, offset, 1)), 0x07);
            }
        }
    }
}

#[test]
fn a_count_asks_the_change_expression() {
    for (kind, value, threshold) in [(UP, 5, 9), (DOWN, 9, 5)] {
        let mut element = with_counter(kind, value, threshold);
        element.set_expression(COUNTER, Slot::Change, &hex("E1 FC 07"));
        element.set_expression(COUNTER, Slot::Read, &[0xFF]);
        element.set_expression(COUNTER, Slot::Execute, &[0xFF]);
        assert_eq!(element.code(&count(COUNTER, 0, 1)), 0);
        element.set_lcso(COUNTER, 0x07);
        assert_eq!(element.code(&count(COUNTER, 0, 1)), 0x07);
    }
}

#[test]
fn a_count_in_small_rooms() {
    for size in 0..8 {
        let mut element = with_counter(UP, 5, 9);
        let before = element.clone();
        let mut room = vec![0xA5; size];
        let outcome = element.send_in(&count(COUNTER, 0, 1), &mut room);
        match size {
            0..=3 => {
                assert_eq!(outcome, 1);
                assert_eq!(room, vec![0xA5; size]);
                assert_eq!(element, before);
            }
            _ => {
                assert_eq!(outcome, 0);
                assert_eq!(room[..4], DONE);
                assert_eq!(room[4..], vec![0xA5; size - 4]);
                assert_eq!(element.data(COUNTER), hex("00000006 00000009"));
            }
        }
    }
}

#[test]
fn steps_2_to_5_come_first() {
    let mut closed = with_counter(UP, 5, 9);
    closed.session.opened = false;
    assert_eq!(closed.code(&count(COUNTER, 0, 1)), 0x0C);
    let mut malformed = with_counter(UP, 5, 9);
    malformed.store[8] = 7;
    assert_eq!(malformed.code(&count(COUNTER, 0, 1)), 0x06);
}

#[test]
fn other_params_stay_unknown() {
    let mut element = with_counter(UP, 5, 9);
    let in_data = hex("10 00 00 00 01");
    for (cmd, param) in [(0x01, 0x02), (0x02, 0x03), (0x02, 0x42), (0x02, 0x82)] {
        assert_eq!(element.code(&command(cmd, param, &in_data)), 0x03);
    }
    assert_eq!(element.data(COUNTER), hex("00000005 00000009"));
}

#[test]
fn writes_set_all_of_a_counter() {
    for kind in [UP, DOWN] {
        for param in [0x00, 0x40] {
            // Values below, at and past the threshold are all taken.
            for data in [
                "00000001 00000002",
                "00000002 00000002",
                "00000003 00000002",
                "FFFFFFFF 00000000",
                "00000000 FFFFFFFF",
                "FFFFFFFF FFFFFFFF",
                "00000000 00000000",
            ] {
                let mut element = with_counter(kind, 5, 9);
                let sent = set(param, COUNTER, 0, &hex(data));
                assert_eq!(element.send(&sent), DONE);
                assert_eq!(element.data(COUNTER), hex(data));
                assert_eq!(element.used(COUNTER), 8);
                assert!(check_store(&element.store));
            }
        }
    }
}

#[test]
fn writes_that_do_not_set_all_of_a_counter() {
    for kind in [UP, DOWN] {
        for param in [0x00, 0x40] {
            for (offset, length) in [
                (0, 1),
                (0, 4),
                (0, 7),
                (0, 9),
                (0, 16),
                (0, 1_500),
                (1, 1),
                (1, 7),
                (1, 8),
                (4, 4),
                (7, 1),
                (8, 1),
                (8, 8),
                (65_528, 8),
                (65_535, 8),
            ] {
                let mut element = with_counter(kind, 5, 9);
                let sent = set(param, COUNTER, offset, &vec![0; length]);
                assert_eq!(element.code(&sent), 0x08, "{offset} {length}");
            }
        }
    }
}

#[test]
fn access_comes_before_the_bytes_of_a_write() {
    for kind in [UP, DOWN] {
        let mut element = with_counter(kind, 5, 9);
        element.set_expression(COUNTER, Slot::Change, &[0xFF]);
        for length in [1, 7, 8, 9] {
            let bytes = vec![0; length];
            assert_eq!(element.code(&write(COUNTER, 0, &bytes)), 0x07);
            assert_eq!(element.code(&erase_and_write(COUNTER, 0, &bytes)), 0x07);
        }
    }
}

#[test]
fn a_written_counter_counts_anew() {
    let mut element = with_counter(UP, 9, 9);
    assert_eq!(element.code(&count(COUNTER, 0, 1)), 0x08);
    let anew = hex("00000000 00000003");
    assert_eq!(element.send(&write(COUNTER, 0, &anew)), DONE);
    assert_eq!(element.send(&count(COUNTER, 0, 2)), DONE);
    assert_eq!(element.data(COUNTER), hex("00000002 00000003"));
}

#[test]
fn reads_of_a_counter() {
    for kind in [UP, DOWN] {
        let mut element = with_counter(kind, 0x0102_0304, 0x0506_0708);
        let response = element.send(&get_data(COUNTER, 0, 8));
        assert_eq!(response, hex("00 00 00 08 01 02 03 04 05 06 07 08"));
        let response = element.send(&get_data(COUNTER, 3, 2));
        assert_eq!(response, hex("00 00 00 02 04 05"));
        assert_eq!(element.code(&get_data(COUNTER, 8, 0)), 0);
        assert_eq!(element.code(&get_data(COUNTER, 9, 0)), 0x08);
        element.set_expression(COUNTER, Slot::Read, &[0xFF]);
        assert_eq!(element.code(&get_data(COUNTER, 0, 8)), 0x07);
    }
}

#[test]
fn metadata_of_a_counter() {
    for kind in [UP, DOWN] {
        let mut element = with_counter(kind, 5, 9);
        let expected = "00 00 00 16 20 14 C0 01 01 C4 02 00 08 C5 02 00 08 \
                        D0 01 00 D1 01 00 D3 01 00";
        assert_eq!(element.send(&get_metadata(COUNTER)), hex(expected));
        let content = hex("C0 01 03 D0 03 E1 FC 07");
        assert_eq!(element.send(&set_metadata(COUNTER, &content)), DONE);
        let expected = "00 00 00 18 20 16 C0 01 03 C4 02 00 08 C5 02 00 08 \
                        D0 03 E1 FC 07 D1 01 00 D3 01 00";
        assert_eq!(element.send(&get_metadata(COUNTER)), hex(expected));
        assert_eq!(element.data(COUNTER), hex("00000005 00000009"));
        assert!(check_store(&element.store));
    }
}

#[test]
fn errors_and_flushes_of_a_count() {
    let mut element = with_counter(UP, 9, 9);
    element.session.error = 0x03;
    element.send(&count(COUNTER, 0, 1));
    assert_eq!(element.session.error, 0x08);
    element.send(&count(0xF1D0, 0, 1));
    assert_eq!(element.session.error, 0x08);
    let mut flushing = count(0xF1D0, 0, 1);
    flushing[0] |= 0x80;
    element.send(&flushing);
    assert_eq!(element.session.error, 0x03);
}
