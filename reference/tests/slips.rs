//! Each of the six slips would fail a test here.

mod common;

use common::{get_data, hex, set_metadata, write, Element, DONE};
use reference::store::Slot;

#[test]
fn slip_1_a_full_object_does_not_wrap() {
    let mut element = Element::opened();
    element.send(&write(0xF1D0, 0, &[0x11; 140]));
    let before = element.store.clone();
    for param in [0x00, 0x40] {
        assert_eq!(element.code(&common::set(param, 0xF1D0, 140, &[0x22])), 8);
        assert_eq!(
            element.code(&common::set(param, 0xF1D0, 139, &[0x22, 0x33])),
            8
        );
        let wrapping = vec![0x22; 140];
        assert_eq!(
            element.code(&common::set(param, 0xF1D0, 0xFFFF, &wrapping)),
            8
        );
    }
    assert_eq!(element.store, before);
}

#[test]
fn slip_2_and_binds_before_or() {
    let mut element = Element::opened();
    let expression = hex("70 FA 07 FE E1 FC 07 FD E0 FB 03");
    element.set_expression(0xF1D0, Slot::Change, &expression);
    element.set_lcso(0xF1D0, 0x07);
    element.session.lcsg = 0x07;
    element.session.lcsa = 0x03;
    assert_eq!(element.send(&write(0xF1D0, 0, &[1])), DONE);
    // The first group fails alone, and the second has a condition that fails.
    element.session.lcsg = 0x03;
    assert_eq!(element.code(&write(0xF1D0, 0, &[1])), 0x07);
}

#[test]
fn slip_3_the_expression_it_brings_does_not_judge() {
    let mut element = Element::opened();
    // Never is brought, the stored expression grants.
    let never = set_metadata(0xF1D0, &hex("D0 01 FF"));
    assert_eq!(element.send(&never), DONE);
    // Always is brought, the stored expression refuses.
    let always = set_metadata(0xF1D0, &hex("D0 01 00"));
    assert_eq!(element.code(&always), 0x07);
}

#[test]
fn slip_3_the_life_cycle_it_brings_does_not_judge() {
    let mut element = Element::opened();
    // The stored expression wants LcsO below operational.
    let operational = set_metadata(0xF1D0, &hex("C0 01 07"));
    assert_eq!(element.send(&operational), DONE);
    // The stored expression wants LcsO operational, which only the brought one is.
    element.set_expression(0xF1D1, Slot::Change, &hex("E1 FA 07"));
    let operational = set_metadata(0xF1D1, &hex("C0 01 07"));
    assert_eq!(element.code(&operational), 0x07);
}

#[test]
fn slip_4_access_comes_before_the_boundary() {
    let mut element = Element::opened();
    element.set_lcso(0xF1D0, 0x07);
    assert_eq!(element.code(&write(0xF1D0, 140, &[1])), 0x07);
    assert_eq!(element.code(&common::erase_and_write(0xF1D0, 140, &[1])), 7);
    element.set_expression(0xF1D0, Slot::Read, &[0xFF]);
    assert_eq!(element.code(&get_data(0xF1D0, 1, 1)), 0x07);
    assert_eq!(element.code(&write(0xF1C2, 1, &[1])), 0x07);
}

#[test]
fn slip_5_a_lower_error_does_not_replace_a_higher() {
    let mut element = Element::opened();
    element.send(&[0x05, 0, 0, 0]);
    assert_eq!(element.session.error, 0x0A);
    element.send(&get_data(0x0000, 0, 0));
    assert_eq!(element.session.error, 0x0A);
    element.send_in(&get_data(0xF1C0, 0, 1), &mut [0; 4]);
    assert_eq!(element.session.error, 0x0D);
    element.session.error = 0xFF;
    element.send(&[]);
    assert_eq!(element.session.error, 0xFF);
}

#[test]
fn slip_6_nothing_is_stored_if_the_last_tag_is_bad() {
    for last in [
        "D3 01 01",
        "D3 00",
        "D3 03 E1 FC 04",
        "D3 02 00",
        "E0 01 00",
        "D3",
    ] {
        let mut element = Element::opened();
        let mut content = hex("C0 01 03 D0 01 00 D1 01 FF");
        content.extend(hex(last));
        assert_eq!(
            element.code(&set_metadata(0xF1D0, &content)),
            0x05,
            "{last}"
        );
        assert_eq!(element.store, Element::fresh().store);
    }
}
