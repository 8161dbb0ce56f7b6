//! What objects keep: a full one its front, a denied one all, a metadata write all or nothing, life cycles their order.
mod common;

use common::*;
use element::{tag, Element, ObjectNumber, Offset, Refusal};
use element::{CREATION, INITIALISATION, LARGEST_OBJECT, OPERATIONAL, TERMINATION};

/// Seventeen fares of eight bytes and half a fare fill 140 bytes.
fn fill(element: &mut Element) -> Vec<u8> {
    let fares: Vec<u8> = (0..140).map(|at| at as u8 ^ 0xA5).collect();
    for (at, fare) in fares.chunks(8).enumerate() {
        assert_eq!(write(element, FARES, 8 * at as u16, fare), Ok(()));
    }
    fares
}

#[test]
fn a_full_object_refuses_and_keeps_its_front() {
    let mut element = opened();
    let fares = fill(&mut element);
    let before = element.store().to_vec();
    for offset in [133, 140, 141, 65535] {
        let past = write(&mut element, FARES, offset, b"FARE 019");
        assert_eq!(past, refused(Refusal::BoundaryExceeded));
        let past = element.erase_and_write(FARES, Offset(offset), b"FARE 019", &mut [0; 16]);
        assert_eq!(past, refused(Refusal::BoundaryExceeded));
        assert_eq!(element.store(), before);
    }
    assert_eq!(read(&mut element, FARES, 0, 140), Ok(fares));
}

#[test]
fn a_full_object_is_written_over_only_where_asked() {
    let mut element = opened();
    let mut fares = fill(&mut element);
    assert_eq!(write(&mut element, FARES, 132, b"FARE 018"), Ok(()));
    fares[132..].copy_from_slice(b"FARE 018");
    assert_eq!(read(&mut element, FARES, 0, 140), Ok(fares));
}

#[test]
fn the_largest_object_goes_in_one_write_and_one_read() {
    let mut element = opened();
    let data: Vec<u8> = (0..LARGEST_OBJECT).map(|at| at as u8).collect();
    assert_eq!(write(&mut element, LARGE, 0, &data), Ok(()));
    assert_eq!(read(&mut element, LARGE, 0, 1500), Ok(data));
    let past = write(&mut element, LARGE, 0, &[0; LARGEST_OBJECT + 1]);
    assert_eq!(past, refused(Refusal::BoundaryExceeded));
}

#[test]
fn a_write_reaches_no_other_object() {
    let mut element = opened();
    let next = ObjectNumber(0xF1D1);
    assert_eq!(write(&mut element, next, 0, b"NEXT"), Ok(()));
    fill(&mut element);
    assert_eq!(read(&mut element, next, 0, 5), Ok(b"NEXT".to_vec()));
}

#[test]
fn access_comes_before_the_boundary() {
    let mut element = opened();
    let lcso = [tag::LCSO, 1, OPERATIONAL];
    assert_eq!(set_metadata(&mut element, FARES, &lcso), Ok(()));
    let denied = write(&mut element, FARES, 200, &[1]);
    assert_eq!(denied, refused(Refusal::AccessDenied));
}

#[test]
fn metadata_is_stored_whole_or_not_at_all() {
    let mut element = opened();
    let before = element.store().to_vec();
    let bad_last = [tag::LCSO, 1, INITIALISATION, tag::EXECUTE, 1, 0x01];
    let refusal = set_metadata(&mut element, FARES, &bad_last);
    assert_eq!(refusal, refused(Refusal::InvalidData));
    assert_eq!(element.store(), before);
}

#[test]
fn life_cycles_do_not_fall() {
    for object in [ObjectNumber::LCSG, ObjectNumber::LCSA] {
        let mut element = opened();
        assert_eq!(write(&mut element, object, 0, &[OPERATIONAL]), Ok(()));
        assert_eq!(write(&mut element, object, 0, &[OPERATIONAL]), Ok(()));
        for state in [CREATION, INITIALISATION, 0x00, 0x04, 0x0E, 0xFF] {
            let refusal = write(&mut element, object, 0, &[state]);
            assert_eq!(refusal, refused(Refusal::InvalidData));
        }
        assert_eq!(read(&mut element, object, 0, 1), Ok(vec![OPERATIONAL]));
    }
}

#[test]
fn a_terminated_application_answers_no_more() {
    let mut element = opened();
    let ended = write(&mut element, ObjectNumber::LCSA, 0, &[TERMINATION]);
    assert_eq!(ended, Ok(()));
    assert_eq!(element.open(), refused(Refusal::NotAvailable));
    assert_eq!(element.close(), refused(Refusal::NotAvailable));
    let last_error = read(&mut element, ObjectNumber::LAST_ERROR, 0, 1);
    assert_eq!(last_error, refused(Refusal::NotAvailable));
}

#[test]
fn a_closed_application_answers_only_to_open() {
    let mut element = fresh();
    let early = write(&mut element, FARES, 0, &[1]);
    assert_eq!(early, refused(Refusal::NotAvailable));
    let early = read(&mut element, ObjectNumber::LAST_ERROR, 0, 1);
    assert_eq!(early, refused(Refusal::NotAvailable));
    assert_eq!(element.open(), Ok(()));
    assert_eq!(element.open(), Ok(()));
    assert_eq!(take_error(&mut element), 0x0C);
}
