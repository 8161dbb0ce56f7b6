//! The bench sheet of document 01 by typed calls; the expected answers stand here by hand.
mod common;

use common::*;
use element::{ObjectNumber, Offset, Refusal, INITIALISATION, LARGEST_COMMAND, OPERATIONAL};

const P11: [u8; 11] = [
    0x70, 0xFA, 0x07, 0xFE, 0xE1, 0xFC, 0x07, 0xFD, 0xE0, 0xFB, 0x03,
];

#[test]
fn p1_open() {
    let mut element = fresh();
    assert_eq!(element.open(), Ok(()));
    assert_eq!(element.session().opened, 1);
    let mut room = [0xEE; 6];
    assert_eq!(fresh().send(&OPEN, &mut room).response, [0, 0, 0, 0]);
    assert_eq!(room, [0, 0, 0, 0, 0xEE, 0xEE]);
}

#[test]
fn p2_metadata_of_the_factory() {
    let fields = [
        0xC0, 0x01, 0x01, 0xC4, 0x02, 0x00, 0x8C, 0xC5, 0x02, 0x00, 0x00, 0xD0, 0x03, 0xE1, 0xFC,
        0x07, 0xD1, 0x01, 0x00, 0xD3, 0x01, 0x00,
    ];
    let mut room = [0xEE; 30];
    assert_eq!(opened().metadata(FARES, &mut room), Ok(&fields[..]));
    assert_eq!(room[..6], [0x00, 0x00, 0x00, 0x18, 0x20, 0x16]);
    assert_eq!(room[28..], [0xEE, 0xEE]);
}

#[test]
fn p3_p4_a_gap_reads_as_zero() {
    let mut element = opened();
    let bytes = [1, 2, 3, 4, 5, 6, 7, 8];
    assert_eq!(write(&mut element, FARES, 9, &bytes), Ok(()));
    let read_back = [0, 0, 0, 0, 0, 0, 0, 0, 0, 1, 2, 3, 4, 5, 6, 7, 8];
    assert_eq!(read(&mut element, FARES, 0, 0x11), Ok(read_back.to_vec()));
    assert_eq!(read(&mut element, FARES, 0, 0x12), Ok(read_back.to_vec()));
}

#[test]
fn p5_p6_the_boundary_of_a_write() {
    let mut element = opened();
    assert_eq!(write(&mut element, FARES, 132, &[7; 8]), Ok(()));
    let past = write(&mut element, FARES, 133, &[7; 8]);
    assert_eq!(past, refused(Refusal::BoundaryExceeded));
    assert_eq!(write(&mut element, LARGE, 1499, &[7]), Ok(()));
    let past = write(&mut element, LARGE, 1500, &[7]);
    assert_eq!(past, refused(Refusal::BoundaryExceeded));
}

#[test]
fn p7_p8_p9_an_object_in_service() {
    let mut element = opened();
    let lcso = [0xC0, 0x01, OPERATIONAL];
    assert_eq!(set_metadata(&mut element, FARES, &lcso), Ok(()));
    let late = write(&mut element, FARES, 0, &[1]);
    assert_eq!(late, refused(Refusal::AccessDenied));
    assert_eq!(take_error(&mut element), 0x07);
    assert_eq!(take_error(&mut element), 0x00);
}

#[test]
fn p10_the_highest_error_is_kept() {
    let mut element = opened();
    let past = read(&mut element, FARES, 1, 1);
    assert_eq!(past, refused(Refusal::BoundaryExceeded));
    let unknown = read(&mut element, ObjectNumber(0x1234), 0, 1);
    assert_eq!(unknown, refused(Refusal::InvalidObject));
    assert_eq!(take_error(&mut element), 0x08);
}

/// LcsG is 07 or 03, LcsO 07, LcsA 03.
fn p11_write(lcsg: u8) -> Result<(), element::Error> {
    let mut element = opened();
    let fields = [&[0xC0, 0x01, OPERATIONAL, 0xD0, 0x0B], &P11[..]].concat();
    assert_eq!(set_metadata(&mut element, FARES, &fields), Ok(()));
    assert_eq!(write(&mut element, ObjectNumber::LCSG, 0, &[lcsg]), Ok(()));
    let lcsa = write(&mut element, ObjectNumber::LCSA, 0, &[INITIALISATION]);
    assert_eq!(lcsa, Ok(()));
    write(&mut element, FARES, 0, &[1])
}

#[test]
fn p11_and_binds_first() {
    assert_eq!(p11_write(OPERATIONAL), Ok(()));
    assert_eq!(p11_write(INITIALISATION), refused(Refusal::AccessDenied));
}

#[test]
fn p12_the_factory_record() {
    let begin = [
        0xEC, 0x00, 0x01, 0x00, 0xD0, 0xF1, 0x8C, 0x00, 0x00, 0x00, 0x01, 0x00, 0x03, 0xE1, 0xFC,
        0x07,
    ];
    assert_eq!(fresh().store()[..16], begin);
}

/// A read field whose expression has this many conditions, joined by and.
fn read_field(conditions: u8) -> Vec<u8> {
    let joined = [0xE1, 0xFC, 0x07, 0xFD].repeat(conditions.into());
    let expression = &joined[..joined.len() - 1];
    [&[0xD1, 4 * conditions - 1], expression].concat()
}

#[test]
fn seven_conditions_are_taken_and_eight_refused() {
    let mut element = opened();
    let seven = set_metadata(&mut element, FARES, &read_field(7));
    assert_eq!(seven, Ok(()));
    let eight = set_metadata(&mut element, FARES, &read_field(8));
    assert_eq!(eight, refused(Refusal::InvalidData));
}

#[test]
fn metadata_read_back_changes_nothing() {
    let mut element = opened();
    let before = element.store().to_vec();
    let fields = metadata(&mut element, FARES).unwrap();
    let without_c4_c5 = [&fields[..3], &fields[11..]].concat();
    let sent = element.set_metadata(FARES, &without_c4_c5, &mut [0; LARGEST_COMMAND]);
    assert_eq!(sent, Ok(()));
    assert_eq!(element.store(), before);
}

#[test]
fn an_empty_command_is_04() {
    let empty = opened().carry_out(&[], &mut [0; 4]).map(<[u8]>::len);
    assert_eq!(empty, refused(Refusal::InvalidLength));
}

#[test]
fn erase_and_write_keeps_only_what_it_writes() {
    let mut element = opened();
    write(&mut element, FARES, 0, &[9; 140]).unwrap();
    let written = element.erase_and_write(FARES, Offset(2), &[1, 2], &mut [0; 10]);
    assert_eq!(written, Ok(()));
    assert_eq!(read(&mut element, FARES, 0, 5), Ok(vec![0, 0, 1, 2]));
}
