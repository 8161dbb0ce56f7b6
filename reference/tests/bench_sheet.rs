//! The lines of the bench sheet.

mod common;

use common::{
    chain, factory_of_the_paper, factory_store, get_data, hex, set_metadata, write, Element, DONE,
    OPEN,
};
use reference::expression::{judge, CounterSet, States};
use reference::store::{check_store, Slot};
use reference::{fresh_session, make_factory_store, program, Session};

#[test]
fn p1_open() {
    let mut element = Element::fresh();
    assert_eq!(element.send_hex(OPEN), DONE);
    let expected = Session {
        opened: true,
        ..fresh_session()
    };
    assert_eq!(element.session, expected);
    assert_eq!(element.store, factory_store());
}

#[test]
fn p2_metadata_of_a_fresh_object() {
    let response = Element::opened().send_hex("01 01 00 02 F1 D0");
    let expected = "00 00 00 18 20 16 C0 01 01 C4 02 00 8C C5 02 00 00 \
                    D0 03 E1 FC 07 D1 01 00 D3 01 00";
    assert_eq!(response, hex(expected));
}

#[test]
fn p3_and_p4_write_after_a_gap() {
    let mut element = Element::opened();
    let response = element.send_hex("02 00 00 0C F1 D0 00 09 01 02 03 04 05 06 07 08");
    assert_eq!(response, DONE);
    let mut expected = hex("00 00 00 11");
    expected.extend_from_slice(&[0; 9]);
    expected.extend(1..=8);
    assert_eq!(element.send_hex("01 00 00 06 F1 D0 00 00 00 11"), expected);
    assert_eq!(element.send_hex("01 00 00 06 F1 D0 00 00 00 12"), expected);
}

#[test]
fn p5_and_p6_boundary_of_f1d0() {
    let mut element = Element::opened();
    let bytes = [1, 2, 3, 4, 5, 6, 7, 8];
    assert_eq!(element.send(&write(0xF1D0, 132, &bytes)), DONE);
    assert_eq!(element.used(0xF1D0), 140);
    assert_eq!(element.code(&write(0xF1D0, 133, &bytes)), 0x08);
}

#[test]
fn boundary_of_f1e0() {
    let mut element = Element::opened();
    assert_eq!(element.send(&write(0xF1E0, 1_499, &[9])), DONE);
    assert_eq!(element.used(0xF1E0), 1_500);
    assert_eq!(element.code(&write(0xF1E0, 1_500, &[9])), 0x08);
}

#[test]
fn p7_p8_and_p9_operational_object() {
    let mut element = Element::opened();
    assert_eq!(element.send_hex("02 01 00 07 F1 D0 20 03 C0 01 07"), DONE);
    assert_eq!(element.code(&write(0xF1D0, 0, &[1])), 0x07);
    let read_error = "01 00 00 06 F1 C2 00 00 00 01";
    assert_eq!(element.send_hex(read_error), hex("00 00 00 01 07"));
    assert_eq!(element.send_hex(read_error), hex("00 00 00 01 00"));
}

#[test]
fn p10_highest_error_is_kept() {
    let mut element = Element::opened();
    element.send(&get_data(0xF1D0, 1, 1));
    assert_eq!(element.session.error, 0x08);
    element.send(&get_data(0x1234, 0, 1));
    assert_eq!(element.session.error, 0x08);
}

#[test]
fn p11_and_binds_first() {
    let expression = hex("70 FA 07 FE E1 FC 07 FD E0 FB 03");
    let states = States {
        lcsg: 0x07,
        lcsa: 0x03,
        lcso: 0x07,
    };
    let judged = judge(&expression, states, |_| false);
    assert_eq!(judged, Some(CounterSet::EMPTY));
    let mut element = Element::opened();
    element.set_expression(0xF1D0, Slot::Read, &expression);
    element.set_lcso(0xF1D0, 0x07);
    element.session.lcsg = 0x07;
    element.session.lcsa = 0x03;
    assert_eq!(element.send(&get_data(0xF1D0, 0, 0)), DONE);
}

#[test]
fn p12_factory_record() {
    let store = factory_store();
    let expected = hex("EC 00 01 00 D0 F1 8C 00 00 00 01 00 03 E1 FC 07");
    assert_eq!(store[..16], expected);
}

#[test]
fn factory_store_as_a_whole() {
    let expected = factory_of_the_paper();
    assert_eq!(expected.len(), 6_024);
    assert_eq!(factory_store(), expected);
    assert!(check_store(&expected));
}

#[test]
fn factory_maker_needs_its_size() {
    for size in [0, 1, 6_023, 6_025, 16_384] {
        let mut buffer = vec![0xEE; size];
        assert_eq!(make_factory_store(&mut buffer), 2);
        assert!(buffer.iter().all(|&byte| byte == 0xEE));
    }
}

#[test]
fn fresh_session_is_closed() {
    let expected = Session {
        opened: false,
        lcsg: 0x01,
        lcsa: 0x01,
        error: 0,
    };
    assert_eq!(fresh_session(), expected);
}

#[test]
fn longest_expression_is_taken() {
    let mut element = Element::opened();
    let longest = chain(7);
    assert_eq!(longest.len(), 27);
    let mut content = vec![0xD0, 27];
    content.extend_from_slice(&longest);
    assert_eq!(element.send(&set_metadata(0xF1D0, &content)), DONE);
    assert_eq!(element.slot(0xF1D0, Slot::Change)[0], 27);
    assert_eq!(element.slot(0xF1D0, Slot::Change)[1..], longest);
    assert!(check_store(&element.store));
}

#[test]
fn eight_conditions_are_refused() {
    let mut content = vec![0xD0, 31];
    content.extend_from_slice(&chain(8));
    assert_eq!(
        Element::opened().code(&set_metadata(0xF1D0, &content)),
        0x05
    );
}

#[test]
fn empty_command() {
    assert_eq!(Element::opened().code(&[]), 0x04);
}

#[test]
fn program_example() {
    let mut input = hex("00 14");
    input.extend(hex(OPEN));
    input.extend(hex("00 0A 01 00 00 06 F1 C2 00 00 00 01"));
    let mut output = Vec::new();
    program::run(&input, &mut output).unwrap();
    assert_eq!(output, b"0 00000000\n0 0000000100\n");
}

#[test]
fn metadata_sent_back_changes_nothing() {
    let mut element = Element::opened();
    element.done("02 00 00 0C F1 D3 00 09 01 02 03 04 05 06 07 08");
    element.set_expression(0xF1D3, Slot::Change, &chain(7));
    element.set_expression(0xF1D3, Slot::Read, &[0xFF]);
    element.set_lcso(0xF1D3, 0x03);
    let metadata = element.done("01 01 00 02 F1 D3");
    // 20, L, C0 and its value, then C4 and C5 with 4 bytes each.
    let mut content = metadata[2..5].to_vec();
    content.extend_from_slice(&metadata[13..]);
    let before = element.clone();
    assert_eq!(element.send(&set_metadata(0xF1D3, &content)), DONE);
    assert_eq!(element, before);
}
