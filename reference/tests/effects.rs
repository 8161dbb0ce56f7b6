//! What commands that are done do to the store and the session.

mod common;

use common::{
    command, erase_and_write, get_data, get_metadata, hex, set_metadata, write, Element, DONE,
    OPEN, REFUSED,
};
use reference::store::{check_store, Slot};

#[test]
fn open_and_close() {
    let mut element = Element::fresh();
    element.session.error = 0x0A;
    element.done(OPEN);
    assert!(element.session.opened);
    assert_eq!(element.session.error, 0x0A);
    let before = element.clone();
    element.done(OPEN);
    assert_eq!(element, before);
    element.done("71 00 00 00");
    assert!(!element.session.opened);
    assert_eq!(element.session.error, 0x0A);
    assert_eq!(element.store, before.store);
}

#[test]
fn write_keeps_the_larger_used() {
    let mut element = Element::opened();
    element.send(&write(0xF1D0, 0, &[1; 10]));
    assert_eq!(element.used(0xF1D0), 10);
    element.send(&write(0xF1D0, 2, &[2; 3]));
    assert_eq!(element.used(0xF1D0), 10);
    element.send(&write(0xF1D0, 8, &[3; 4]));
    assert_eq!(element.used(0xF1D0), 12);
    let expected = [1, 1, 2, 2, 2, 1, 1, 1, 3, 3, 3, 3];
    assert_eq!(element.send(&get_data(0xF1D0, 0, 12))[4..], expected);
    assert!(check_store(&element.store));
}

#[test]
fn erase_and_write_zeroes_first() {
    let mut element = Element::opened();
    element.send(&write(0xF1D0, 0, &[1; 140]));
    element.send(&erase_and_write(0xF1D0, 2, &[2; 3]));
    assert_eq!(element.used(0xF1D0), 5);
    let mut expected = vec![0, 0, 2, 2, 2];
    assert_eq!(element.send(&get_data(0xF1D0, 0, 5))[4..], expected);
    expected.resize(140, 0);
    assert_eq!(element.data(0xF1D0), expected);
    assert!(check_store(&element.store));
}

#[test]
fn a_command_changes_its_record_only() {
    let mut element = Element::opened();
    let before = element.store.clone();
    element.send(&write(0xF1D4, 0, &[0xFF; 140]));
    element.send(&set_metadata(
        0xF1D4,
        &hex("C0 01 03 D0 01 FF D1 01 FF D3 01 FF"),
    ));
    let record = 4 * 236..5 * 236;
    assert_eq!(element.store[..record.start], before[..record.start]);
    assert_eq!(element.store[record.end..], before[record.end..]);
    assert_ne!(element.store, before);
}

#[test]
fn data_of_the_largest_object() {
    let mut element = Element::opened();
    let bytes: Vec<u8> = (0..1_500).map(|place| (place % 251) as u8).collect();
    assert_eq!(element.send(&write(0xF1E1, 0, &bytes)), DONE);
    let response = element.send(&get_data(0xF1E1, 0, 1_500));
    assert_eq!(response[..4], hex("00 00 05 DC"));
    assert_eq!(response[4..], bytes);
    // In a room of 1,503 bytes it does not fit.
    assert_eq!(element.code_in(&get_data(0xF1E1, 0, 1_500), 1_503), 0x0D);
}

#[test]
fn metadata_of_all_tags() {
    let mut element = Element::opened();
    element.send(&write(0xF1E0, 0, &[1; 0x123]));
    let content = hex("C0 01 03 D0 03 E1 FC 0F D1 07 70 FA 01 FD E0 FA 01 D3 01 FF");
    assert_eq!(element.send(&set_metadata(0xF1E0, &content)), DONE);
    let expected = hex("00 00 00 1E 20 1C C0 01 03 C4 02 05 DC C5 02 01 23 \
         D0 03 E1 FC 0F D1 07 70 FA 01 FD E0 FA 01 D3 01 FF");
    assert_eq!(element.send(&get_metadata(0xF1E0)), expected);
}

#[test]
fn shorter_expression_leaves_zeros() {
    let mut element = Element::opened();
    element.set_expression(0xF1D0, Slot::Read, &common::chain(7));
    assert_eq!(
        element.send(&set_metadata(0xF1D0, &hex("D1 03 E1 FC 0F"))),
        DONE
    );
    let mut expected = vec![3, 0xE1, 0xFC, 0x0F];
    expected.resize(28, 0);
    assert_eq!(element.slot(0xF1D0, Slot::Read), expected);
    assert!(check_store(&element.store));
}

#[test]
fn each_tag_alone() {
    for (content, state) in [
        ("C0 01 01", 0x01),
        ("C0 01 03", 0x03),
        ("C0 01 07", 0x07),
        ("C0 01 0F", 0x0F),
        ("D0 01 00", 0x01),
        ("D1 01 00", 0x01),
        ("D3 01 00", 0x01),
    ] {
        let mut element = Element::opened();
        assert_eq!(element.send(&set_metadata(0xF1D0, &hex(content))), DONE);
        assert_eq!(element.lcso(0xF1D0), state);
    }
}

#[test]
fn session_objects_are_read() {
    let mut element = Element::opened();
    element.session.lcsg = 0x07;
    element.session.lcsa = 0x03;
    element.session.error = 0x55;
    let before = element.clone();
    assert_eq!(element.send(&get_data(0xE0C0, 0, 1))[4..], [0x07]);
    assert_eq!(element.send(&get_data(0xF1C0, 0, 1))[4..], [0x03]);
    for object in [0xE0C0, 0xF1C0, 0xF1C2] {
        assert_eq!(element.send(&get_data(object, 0, 0)), DONE);
        assert_eq!(element.send(&get_data(object, 1, 0)), DONE);
    }
    // Reading no byte of the last error keeps it.
    assert_eq!(element, before);
    assert_eq!(element.send(&get_data(0xF1C2, 0, 1))[4..], [0x55]);
    assert_eq!(element.session.error, 0);
    for object in [0xE0C0, 0xF1C0, 0xF1C2] {
        for (offset, length) in [(2, 0), (2, 1), (65_535, 1), (65_535, 65_535)] {
            assert_eq!(element.code(&get_data(object, offset, length)), 0x08);
        }
        assert_eq!(element.code(&get_metadata(object)), 0x07);
        assert_eq!(element.code(&set_metadata(object, &hex("C0 01 03"))), 0x07);
        assert_eq!(element.code(&command(0x02, 0x01, &hex("F1 C0 00 00"))), 7);
    }
    for param in [0x00, 0x40] {
        for (offset, bytes) in [(0, &[0][..]), (1, &[0]), (0, &[0, 0])] {
            let sent = common::set(param, 0xF1C2, offset, bytes);
            assert_eq!(element.code(&sent), 0x07);
        }
    }
}

#[test]
fn life_cycles_of_the_session_judge_expressions() {
    let mut element = Element::opened();
    element.set_expression(0xF1D0, Slot::Read, &hex("70 FB 03"));
    element.set_expression(0xF1D1, Slot::Read, &hex("E0 FA 07"));
    assert_eq!(element.code(&get_data(0xF1D0, 0, 0)), 0x07);
    assert_eq!(element.code(&get_data(0xF1D1, 0, 0)), 0x07);
    element.done("02 00 00 05 E0 C0 00 00 07");
    element.done("02 40 00 05 F1 C0 00 00 07");
    assert_eq!(element.code(&get_data(0xF1D0, 0, 0)), 0);
    assert_eq!(element.code(&get_data(0xF1D1, 0, 0)), 0);
}

#[test]
fn terminating_the_application_ends_it() {
    let mut element = Element::opened();
    element.done("02 00 00 05 F1 C0 00 00 0F");
    assert_eq!(element.session.lcsa, 0x0F);
    assert!(element.session.opened);
    assert_eq!(element.send_hex(OPEN), REFUSED);
    assert_eq!(element.session.error, 0x0C);
}

#[test]
fn termination_of_others_ends_nothing() {
    let mut element = Element::opened();
    element.done("02 00 00 05 E0 C0 00 00 0F");
    element.done("02 01 00 0A F1 D0 20 06 C0 01 0F D0 01 00");
    assert_eq!(element.code(&write(0xF1D0, 0, &[1])), 0);
    assert_eq!(element.code(&get_data(0xF1D0, 0, 1)), 0);
}

#[test]
fn a_read_flushes_before_it_answers() {
    let mut element = Element::opened();
    element.session.error = 0x08;
    let response = element.send_hex("81 00 00 06 F1 C2 00 00 00 01");
    assert_eq!(response, hex("00 00 00 01 00"));
}
