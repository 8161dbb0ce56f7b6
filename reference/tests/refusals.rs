//! Each step of refusal, and the order of the steps.

mod common;

use common::{
    acknowledge, append, command, count, erase_and_write, fare, get_data, get_metadata, hex,
    queue_data, queue_record, set, set_metadata, write, Element, OPEN,
};
use reference::store::Slot;

fn opened_with(change: impl FnOnce(&mut Element)) -> Element {
    let mut element = Element::opened();
    change(&mut element);
    element
}

#[test]
fn step_1_small_rooms_change_nothing() {
    for size in 0..4 {
        // The flush bit is set, and the store is malformed in the second element.
        for mut element in [
            opened_with(|element| element.session.error = 9),
            opened_with(|element| {
                element.session.error = 9;
                element.store.clear();
            }),
        ] {
            let before = element.clone();
            let mut room = vec![0xA5; size];
            let mut sent = write(0xF1D0, 0, &[1]);
            sent[0] |= 0x80;
            assert_eq!(element.send_in(&sent, &mut room), 1);
            assert_eq!(element, before);
            assert_eq!(room, vec![0xA5; size]);
        }
    }
}

#[test]
fn flush_comes_before_step_2() {
    let mut element = Element::fresh();
    element.store.clear();
    element.session.error = 0x0D;
    element.send(&[0x81]);
    assert_eq!(element.session.error, 0x06);
    // Without the bit, and for an empty command, the error stays.
    for sent in [&[0x7F][..], &[]] {
        element.session.error = 0x0D;
        element.send(sent);
        assert_eq!(element.session.error, 0x0D);
    }
}

#[test]
fn flush_bit_is_ignored_afterwards() {
    let mut element = Element::fresh();
    element.session.error = 0x0D;
    let mut open = hex(OPEN);
    open[0] |= 0x80;
    assert_eq!(element.send(&open), common::DONE);
    assert!(element.session.opened);
    assert_eq!(element.session.error, 0);
    element.session.error = 0x0D;
    assert_eq!(
        element.send_hex("81 00 00 06 F1 C2 00 00 00 01"),
        hex("00 00 00 01 00")
    );
    // An unknown Cmd and a command cut short flush as well.
    for (sent, code) in [(&[0x85, 0, 0, 0][..], 0x0A), (&[0x80], 0x04)] {
        element.session.error = 0x0D;
        element.send(sent);
        assert_eq!(element.session.error, code);
    }
}

#[test]
fn step_2_malformed_store_or_life_cycles() {
    for state in 0..=255u8 {
        let allowed = [0x01, 0x03, 0x07, 0x0F].contains(&state);
        let mut element = opened_with(|element| element.session.lcsg = state);
        assert_eq!(
            element.code(&get_metadata(0xF1D0)),
            if allowed { 0 } else { 6 }
        );
        let mut element = opened_with(|element| element.session.lcsa = state);
        let expected = match (allowed, state) {
            (false, _) => 0x06,
            (true, 0x0F) => 0x0C,
            (true, _) => 0,
        };
        assert_eq!(element.code(&get_metadata(0xF1D0)), expected);
    }
    let mut element = opened_with(|element| element.store[11] = 1);
    assert_eq!(element.code_hex(OPEN), 0x06);
}

#[test]
fn step_2_comes_before_step_3() {
    let mut element = opened_with(|element| element.session.lcsg = 0x04);
    assert_eq!(element.code(&[]), 0x06);
    assert_eq!(element.code(&[0x01, 0x00, 0x00]), 0x06);
}

#[test]
fn step_3_lengths_of_the_frame() {
    let mut element = Element::opened();
    let whole = get_metadata(0xF1D0);
    for length in 0..whole.len() {
        assert_eq!(element.code(&whole[..length]), 0x04, "{length}");
    }
    let mut longer = whole.clone();
    longer.push(0);
    assert_eq!(element.code(&longer), 0x04);
    for in_len in [0u16, 1, 3, 0x0200, 0xFFFF] {
        let mut wrong = whole.clone();
        wrong[2..4].copy_from_slice(&in_len.to_be_bytes());
        assert_eq!(element.code(&wrong), 0x04, "{in_len}");
    }
}

#[test]
fn step_3_longest_command() {
    let mut element = Element::opened();
    // 8 bytes before the written ones.
    let longest = write(0xF1E0, 0, &[0; 1_549]);
    assert_eq!(longest.len(), 1_557);
    assert_eq!(element.code(&longest), 0x08);
    assert_eq!(element.code(&write(0xF1E0, 0, &[0; 1_550])), 0x04);
}

#[test]
fn step_3_comes_before_step_4() {
    let mut element = Element::opened();
    assert_eq!(element.code(&[0x05, 0, 0, 1]), 0x04);
    assert_eq!(element.code(&command(0x05, 0, &[0; 1_553])), 0x0A);
    assert_eq!(element.code(&command(0x05, 0, &[0; 1_554])), 0x04);
}

#[test]
fn step_4_unknown_cmd() {
    let mut element = Element::opened();
    for cmd in 0..=255u8 {
        let known = [0x01, 0x02, 0x70, 0x71].contains(&(cmd & 0x7F));
        let code = element.clone().code(&[cmd, 0xEE, 0, 0]);
        assert_eq!(code, if known { 0x03 } else { 0x0A }, "{cmd}");
    }
    element.session.opened = false;
    assert_eq!(element.code(&[0x00, 0, 0, 0]), 0x0A);
    element.session.lcsa = 0x0F;
    assert_eq!(element.code(&[0x72, 0, 0, 0]), 0x0A);
}

#[test]
fn step_5_closed_or_terminated() {
    let mut closed = Element::fresh();
    for sent in [
        get_data(0xF1D0, 0, 0),
        get_metadata(0xF1D0),
        write(0xF1D0, 0, &[1]),
        erase_and_write(0xF1D0, 0, &[1]),
        count(0xF1D0, 0, 1),
        append(0xF1D0, &[1]),
        acknowledge(0xF1D0, 0),
        set_metadata(0xF1D0, &hex("C0 01 01")),
        command(0x71, 0, &[]),
    ] {
        assert_eq!(closed.code(&sent), 0x0C);
    }
    assert_eq!(closed.code_hex(OPEN), 0);
    let mut terminated = opened_with(|element| element.session.lcsa = 0x0F);
    assert_eq!(terminated.code_hex(OPEN), 0x0C);
    assert_eq!(terminated.code(&command(0x71, 0, &[])), 0x0C);
    assert_eq!(terminated.code(&get_data(0xF1C2, 0, 1)), 0x0C);
}

#[test]
fn step_5_comes_before_step_6() {
    let mut closed = Element::fresh();
    assert_eq!(closed.code(&command(0x01, 0x40, &[])), 0x0C);
    // Open is judged further while closed.
    assert_eq!(closed.code(&command(0x70, 0x01, &[])), 0x03);
    let mut terminated = opened_with(|element| element.session.lcsa = 0x0F);
    assert_eq!(terminated.code(&command(0x70, 0x01, &[])), 0x0C);
}

#[test]
fn step_6_unknown_param() {
    for param in 0..=255u8 {
        for (cmd, known) in [
            (0x01, &[0x00, 0x01][..]),
            (0x02, &[0x00, 0x01, 0x02, 0x04, 0x05, 0x40]),
            (0x70, &[0x00]),
            (0x71, &[0x00]),
        ] {
            // InData of 1 byte is wrong for every row.
            let code = Element::opened().code(&command(cmd, param, &[0]));
            let expected = if known.contains(&param) { 0x04 } else { 0x03 };
            assert_eq!(code, expected, "{cmd} {param}");
        }
    }
}

#[test]
fn step_7_lengths_of_each_row() {
    for length in 0..=210usize {
        let in_data = vec![0x55; length];
        let code = |cmd, param| Element::opened().code(&command(cmd, param, &in_data));
        let row = |right: bool, later: u8| if right { later } else { 0x04 };
        assert_eq!(code(0x01, 0x00), row(length == 6, 0x01), "{length}");
        assert_eq!(code(0x01, 0x01), row(length == 2, 0x01), "{length}");
        assert_eq!(code(0x02, 0x00), row(length >= 5, 0x01), "{length}");
        assert_eq!(code(0x02, 0x40), row(length >= 5, 0x01), "{length}");
        assert_eq!(code(0x02, 0x01), row(length >= 4, 0x01), "{length}");
        assert_eq!(code(0x02, 0x02), row(length == 5, 0x01), "{length}");
        let is_append = (3..=202).contains(&length);
        assert_eq!(code(0x02, 0x04), row(is_append, 0x01), "{length}");
        assert_eq!(code(0x02, 0x05), row(length == 6, 0x01), "{length}");
        assert_eq!(code(0x70, 0x00), row(length == 16, 0x05), "{length}");
        assert_eq!(code(0x71, 0x00), row(length == 0, 0x00), "{length}");
    }
}

#[test]
fn step_8_other_identifier() {
    let right = hex(OPEN);
    for place in 4..right.len() {
        for mut element in [Element::fresh(), Element::opened()] {
            let mut wrong = right.clone();
            wrong[place] ^= 0x20;
            assert_eq!(element.code(&wrong), 0x05);
        }
    }
}

#[test]
fn step_9_no_such_object() {
    let mut element = Element::opened();
    for object in [
        0x0000, 0xD0F1, 0xF1CF, 0xF1DC, 0xF1DF, 0xF1E2, 0xF1C1, 0xE0C1, 0xFFFF,
    ] {
        assert_eq!(element.code(&get_data(object, 0, 0)), 0x01);
        assert_eq!(element.code(&get_metadata(object)), 0x01);
        assert_eq!(element.code(&write(object, 0, &[1])), 0x01);
        assert_eq!(element.code(&erase_and_write(object, 0, &[1])), 0x01);
        assert_eq!(element.code(&count(object, 0, 1)), 0x01);
        assert_eq!(element.code(&append(object, &[1])), 0x01);
        assert_eq!(element.code(&acknowledge(object, 0)), 0x01);
        // A wrong 20 waits for step 12.
        assert_eq!(
            element.code(&command(0x02, 0x01, &[0xF1, 0xCF, 0, 0])),
            0x01
        );
    }
}

#[test]
fn step_10_access() {
    let mut element = opened_with(|element| {
        element.set_expression(0xF1D0, Slot::Change, &[0xFF]);
        element.set_expression(0xF1D1, Slot::Read, &[0xFF]);
        element.set_expression(0xF1D2, Slot::Execute, &[0xFF]);
    });
    assert_eq!(element.code(&write(0xF1D0, 0, &[1])), 0x07);
    assert_eq!(element.code(&erase_and_write(0xF1D0, 0, &[1])), 0x07);
    assert_eq!(element.code(&set_metadata(0xF1D0, &hex("C0 01 01"))), 0x07);
    assert_eq!(element.code(&get_data(0xF1D0, 0, 0)), 0);
    assert_eq!(element.code(&get_metadata(0xF1D0)), 0);
    assert_eq!(element.code(&get_data(0xF1D1, 0, 0)), 0x07);
    assert_eq!(element.code(&get_metadata(0xF1D1)), 0);
    assert_eq!(element.code(&write(0xF1D1, 0, &[1])), 0);
    assert_eq!(element.code(&get_data(0xF1D2, 0, 0)), 0);
    assert_eq!(element.code(&write(0xF1D2, 0, &[1])), 0);
}

#[test]
fn step_10_comes_before_steps_11_to_13() {
    let mut element = opened_with(|element| {
        element.set_expression(0xF1D0, Slot::Change, &[0xFF]);
        element.set_expression(0xF1D0, Slot::Read, &[0xFF]);
    });
    element.set_used(0xF1D0, 1);
    assert_eq!(element.code(&get_data(0xF1D0, 2, 1)), 0x07);
    assert_eq!(element.code_in(&get_data(0xF1D0, 0, 1), 4), 0x07);
    assert_eq!(element.code(&write(0xF1D0, 140, &[1])), 0x07);
    assert_eq!(element.code(&set_metadata(0xF1D0, &[])), 0x07);
    assert_eq!(element.code_in(&get_metadata(0xF1C2), 4), 0x07);
}

#[test]
fn step_11_boundaries_of_a_read() {
    let mut element = opened_with(|element| {
        element.send(&write(0xF1D0, 0, &[7; 10]));
    });
    for (offset, length, code) in [
        (0, 10, 0),
        (0, 11, 0),
        (9, 1, 0),
        (9, 2, 0),
        (10, 0, 0),
        (10, 1, 0),
        (11, 0, 8),
        (11, 1, 8),
        (0, 140, 0),
        (140, 0, 8),
        (65_535, 0, 8),
        (65_535, 1, 8),
        (65_535, 11, 8),
        (1, 65_535, 0),
        (65_535, 65_535, 8),
    ] {
        assert_eq!(
            element.code(&get_data(0xF1D0, offset, length)),
            code,
            "{offset} {length}"
        );
    }
}

#[test]
fn step_11_boundaries_of_a_write() {
    for param in [0x00, 0x40] {
        for (offset, length, code) in [
            (0, 140, 0),
            (0, 141, 8),
            (1, 139, 0),
            (1, 140, 8),
            (139, 1, 0),
            (139, 2, 8),
            (140, 1, 8),
            (65_535, 1, 8),
            (65_535, 2, 8),
            (65_500, 140, 8),
        ] {
            let sent = set(param, 0xF1D0, offset, &vec![1; length]);
            assert_eq!(Element::opened().code(&sent), code, "{offset} {length}");
        }
    }
}

#[test]
fn step_11_comes_before_steps_12_and_13() {
    let mut element = Element::opened();
    // A life cycle value that is not allowed, out of bounds.
    assert_eq!(element.code(&write(0xE0C0, 1, &[0x02])), 0x08);
    assert_eq!(element.code(&write(0xF1C0, 0, &[0x02, 0x02])), 0x08);
    assert_eq!(element.code_in(&get_data(0xF1D0, 1, 1), 4), 0x08);
}

#[test]
fn step_12_metadata_content() {
    let mut element = opened_with(|element| element.set_lcso(0xF1D0, 0x03));
    let before = element.store.clone();
    for content in [
        "",
        "C0 01 01",
        "C0 01 00",
        "C0 01 02",
        "C0 01 04",
        "C0 01 FF",
        "C0 00",
        "C0 02 03 03",
        "C0 01",
        "C0",
        "C1 01 03",
        "C4 02 00 8C",
        "C5 02 00 00",
        "C0 01 03 C5 02 00 00",
        "D0 00",
        "D0 01 01",
        "D0 02 00 00",
        "D0 03 E1 FC 04",
        "D0 03 E1 F9 07",
        "D0 03 E2 FC 07",
        "D0 04 E1 FC 07 FD",
        "D0 05 E1 FC 07 FD 00",
        "D0 0F E1 FC 07 FE E1 FC 07 FE E1 FC 07 FE E1 FC 07",
        "D1 01 00 D0 01 00",
        "D0 01 00 D0 01 00",
        "D0 01 00 C0 01 03",
        "D2 01 00",
        "D4 01 00",
        "D0 01 00 D1 01",
        "D0 01 00 D1 02 00",
        "D0 01 00 00",
        "20 03 C0 01 03",
    ] {
        let sent = set_metadata(0xF1D0, &hex(content));
        assert_eq!(element.code(&sent), 0x05, "{content}");
        assert_eq!(element.store, before);
    }
}

#[test]
fn step_12_leading_20_and_length() {
    let mut element = Element::opened();
    let right = set_metadata(0xF1D0, &hex("C0 01 03 D0 01 00"));
    for leading in [0x00, 0x02, 0x21, 0xC0, 0xFF] {
        let mut wrong = right.clone();
        wrong[6] = leading;
        assert_eq!(element.code(&wrong), 0x05);
    }
    for length in [0, 3, 5, 7, 255] {
        let mut wrong = right.clone();
        wrong[7] = length;
        assert_eq!(element.code(&wrong), 0x05, "{length}");
    }
    // The count after L agrees with it in its low byte only.
    let mut in_data = hex("F1 D0 20 03 C0 01 03");
    in_data.resize(in_data.len() + 256, 0);
    assert_eq!(element.code(&command(0x02, 0x01, &in_data)), 0x05);
    assert_eq!(element.code(&right), 0);
}

#[test]
fn step_12_life_cycle_values() {
    for (number, global) in [(0xE0C0, true), (0xF1C0, false)] {
        for present in [0x01, 0x03, 0x07, 0x0F] {
            if !global && present == 0x0F {
                continue;
            }
            for value in 0..=255u8 {
                for param in [0x00, 0x40] {
                    let mut element = Element::opened();
                    match global {
                        true => element.session.lcsg = present,
                        false => element.session.lcsa = present,
                    }
                    let allowed = [0x01, 0x03, 0x07, 0x0F].contains(&value) && value >= present;
                    let code = element.code(&set(param, number, 0, &[value]));
                    assert_eq!(code, if allowed { 0 } else { 5 });
                    let after = match global {
                        true => element.session.lcsg,
                        false => element.session.lcsa,
                    };
                    assert_eq!(after, if allowed { value } else { present });
                }
            }
        }
    }
}

#[test]
fn step_13_room_of_the_response() {
    let mut element = opened_with(|element| {
        element.send(&write(0xF1D0, 0, &[7; 10]));
    });
    for size in 4..20 {
        let expected = if size < 14 { 0x0D } else { 0 };
        assert_eq!(element.code_in(&get_data(0xF1D0, 0, 10), size), expected);
    }
    for size in 4..40 {
        let expected = if size < 28 { 0x0D } else { 0 };
        assert_eq!(element.code_in(&get_metadata(0xF1D0), size), expected);
    }
    assert_eq!(element.code_in(&get_data(0xF1D0, 10, 0), 4), 0);
    assert_eq!(element.code_in(&write(0xF1D0, 0, &[1]), 4), 0);
    assert_eq!(element.code_in(&hex(OPEN), 4), 0);
    assert_eq!(element.code_in(&command(0x71, 0, &[]), 4), 0);
}

#[test]
fn step_13_keeps_the_error_unread() {
    let mut element = opened_with(|element| element.session.error = 0x03);
    let mut room = [0xA5; 4];
    assert_eq!(element.send_in(&get_data(0xF1C2, 0, 1), &mut room), 0);
    assert_eq!(room, common::REFUSED);
    assert_eq!(element.session.error, 0x0D);
}

/// A queue of 22 bytes with one fare of 5 bytes: 5 bytes are left.
fn with_queue(next: u32) -> Element {
    let fares = [fare(next - 1, &[0xAA; 5])];
    Element::with_records(&[queue_record(0x1000, 22, &queue_data(next, &fares))])
}

#[test]
fn steps_10_to_13_at_a_queue() {
    // In this order: 07, 03, 08, 0D for an append; 07, 03, 05 for an acknowledgement.
    let mut full = with_queue(7);
    assert_eq!(full.code(&append(0x1000, &[1])), 0x08);
    assert_eq!(full.code(&acknowledge(0x1000, 7)), 0x05);
    assert_eq!(full.code(&append(0xF1D0, &[1; 200])), 0x03);
    assert_eq!(full.code(&acknowledge(0xF1D0, 0)), 0x03);
    full.set_expression(0x1000, Slot::Change, &[0xFF]);
    assert_eq!(full.code(&append(0x1000, &[1])), 0x07);
    assert_eq!(full.code(&acknowledge(0x1000, 7)), 0x07);
    let mut at_end = with_queue(u32::MAX);
    assert_eq!(at_end.code(&append(0x1000, &[1])), 0x08);
    assert_eq!(at_end.code(&acknowledge(0x1000, u32::MAX - 1)), 0);
    assert_eq!(at_end.code(&append(0x1000, &[1])), 0x0D);
    // Plain writes, in bounds or not.
    let mut element = with_queue(7);
    for (offset, bytes) in [(0, &[7, 0, 0, 0][..]), (21, &[1, 2]), (65_535, &[1])] {
        assert_eq!(element.code(&write(0x1000, offset, bytes)), 0x07);
        assert_eq!(element.code(&erase_and_write(0x1000, offset, bytes)), 0x07);
    }
    assert_eq!(element.code(&count(0x1000, 1, 1)), 0x03);
}
