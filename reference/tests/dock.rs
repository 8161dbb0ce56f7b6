//! The rules of the dock stream, by cases made by hand, for `dock` and `dock_fast`.
//!
//! The checks of the frames here were worked out elsewhere.

mod common;

use common::hex;
use reference::dock::{self, Fed, Frame, Kind, Lent, Stream, WriteRefusal, LONGEST_FRAME};
use reference::dock_fast;

const NO_BODY: &str = "0600 0100 4252";
const NO_BODY_RESPONSE: &str = "0600 0200 2A78";
const ONE_BYTE: &str = "0700 0100 AA 5060";
const TWO_BYTES: &str = "0800 0200 BBCC 88CA";
const FILL: u8 = 0xEE;

fn at(collected: u16, stop: u16) -> Stream {
    Stream { collected, stop }
}

const BETWEEN: Stream = Stream {
    collected: 0,
    stop: 0,
};

/// One call, which both forms answer alike; the lent bytes after it.
fn feed(stream: Stream, lent: &mut Lent, piece: &[u8]) -> Fed {
    let mut other = *lent;
    let fed = dock::feed(stream, lent, piece);
    assert_eq!(dock_fast::feed(stream, &mut other, piece), fed);
    assert_eq!(&other, lent);
    fed
}

fn without_frame(taken: usize, stream: Stream) -> Fed {
    Fed {
        taken,
        stream,
        frame: None,
    }
}

fn with_frame(taken: usize, kind: Kind, size: usize) -> Fed {
    Fed {
        taken,
        stream: BETWEEN,
        frame: Some(Frame { kind, size }),
    }
}

/// Lent bytes with these at the front.
fn lent_with(front: &[u8]) -> Lent {
    let mut lent = [FILL; LONGEST_FRAME];
    lent[..front.len()].copy_from_slice(front);
    lent
}

/// The answer to one piece from these lent bytes, of which `stored` become others.
fn expect(stream: Stream, front: &str, piece: &str, expected: Fed, front_after: &str) {
    let mut lent = lent_with(&hex(front));
    let fed = feed(stream, &mut lent, &hex(piece));
    assert_eq!(fed, expected, "{front} | {piece}");
    assert_eq!(lent, lent_with(&hex(front_after)), "{front} | {piece}");
}

/// A stream between frames that is stopped by the piece after storing `stored` bytes.
fn expect_stop(piece: &str, stop: u16, stored: usize) {
    let bytes = hex(piece);
    let mut lent = [FILL; LONGEST_FRAME];
    let fed = feed(BETWEEN, &mut lent, &bytes);
    assert_eq!(fed, without_frame(bytes.len(), at(0, stop)), "{piece}");
    assert_eq!(lent, lent_with(&bytes[..stored]), "{piece}");
}

/// A frame of the longest length, its body counting up.
fn longest() -> Vec<u8> {
    let mut bytes = hex("1B06 0200");
    bytes.extend((0..1_557).map(|place| place as u8));
    bytes.extend(hex("1204"));
    bytes
}

#[test]
fn whole_frames() {
    for (frame, kind, size) in [
        (NO_BODY, Kind::Command, 0),
        (NO_BODY_RESPONSE, Kind::Response, 0),
        (ONE_BYTE, Kind::Command, 1),
        (TWO_BYTES, Kind::Response, 2),
        ("0F00 0100 313233343536373839 3341", Kind::Command, 9),
        ("0900 0100 00FF80 B531", Kind::Command, 3),
    ] {
        let taken = hex(frame).len();
        expect(BETWEEN, "", frame, with_frame(taken, kind, size), frame);
    }
    let mut lent = lent_with(&hex(TWO_BYTES));
    let fed = feed(BETWEEN, &mut lent, &hex(TWO_BYTES));
    assert_eq!(fed.frame.unwrap().body(&lent), hex("BBCC"));
}

#[test]
fn a_frame_ends_the_call() {
    let two = format!("{ONE_BYTE}{TWO_BYTES}");
    expect(BETWEEN, "", &two, with_frame(7, Kind::Command, 1), ONE_BYTE);
    // What follows is not looked at, be it wrong.
    let wrong = format!("{ONE_BYTE} 0000");
    expect(
        BETWEEN,
        "",
        &wrong,
        with_frame(7, Kind::Command, 1),
        ONE_BYTE,
    );
}

#[test]
fn a_frame_byte_by_byte() {
    let bytes = hex(TWO_BYTES);
    let mut lent = [FILL; LONGEST_FRAME];
    let mut stream = BETWEEN;
    for (place, byte) in bytes.iter().enumerate() {
        let fed = feed(stream, &mut lent, &[*byte]);
        let expected = match place {
            7 => with_frame(1, Kind::Response, 2),
            _ => without_frame(1, at(place as u16 + 1, 0)),
        };
        assert_eq!(fed, expected);
        assert_eq!(lent, lent_with(&bytes[..=place]));
        stream = fed.stream;
    }
}

#[test]
fn an_empty_piece_changes_nothing() {
    for collected in [0, 1, 2, 3, 4, 5, 700, 1_562, 1_563, 1_564, 0xFFFF] {
        let stream = at(collected, 0);
        expect(stream, "00", "", without_frame(0, stream), "00");
    }
    for stop in 1..=3 {
        let stream = at(0, stop);
        expect(stream, "00", "", without_frame(0, stream), "00");
    }
}

#[test]
fn the_longest_frame() {
    let bytes = longest();
    assert_eq!(bytes.len(), LONGEST_FRAME);
    let mut lent = [FILL; LONGEST_FRAME];
    let fed = feed(BETWEEN, &mut lent, &bytes);
    assert_eq!(fed, with_frame(1_563, Kind::Response, 1_557));
    assert_eq!(lent[..], bytes);
    let fed = feed(BETWEEN, &mut lent, &bytes[..1_562]);
    assert_eq!(fed, without_frame(1_562, at(1_562, 0)));
    let fed = feed(fed.stream, &mut lent, &bytes[1_562..]);
    assert_eq!(fed, with_frame(1, Kind::Response, 1_557));
    let mut wrong = bytes.clone();
    wrong[1_562] ^= 1;
    let fed = feed(BETWEEN, &mut lent, &wrong);
    assert_eq!(fed, without_frame(1_563, at(0, 3)));
    assert_eq!(lent[..], wrong);
}

#[test]
fn lengths() {
    for length in [
        0, 1, 2, 3, 4, 5, 1_564, 1_565, 0x0700, 0x1C06, 0x8006, 0xFFFF,
    ] {
        let [low, high] = u16::to_le_bytes(length);
        // With the second byte, not sooner, and before the kind.
        let mut lent = [FILL; LONGEST_FRAME];
        let fed = feed(BETWEEN, &mut lent, &[low]);
        assert_eq!(fed, without_frame(1, at(1, 0)));
        let fed = feed(fed.stream, &mut lent, &[high, 1, 0, 0]);
        assert_eq!(fed, without_frame(4, at(0, 1)));
        assert_eq!(lent, lent_with(&[low, high]));
        expect_stop(&format!("{low:02X}{high:02X}"), 1, 2);
        expect_stop(&format!("{low:02X}{high:02X} 0300 0000"), 1, 2);
        expect_stop(&format!("{low:02X}{high:02X} 0100 0000"), 1, 2);
    }
    for length in [6, 7, 255, 256, 1_536, 1_562, 1_563u16] {
        let mut lent = [FILL; LONGEST_FRAME];
        let fed = feed(BETWEEN, &mut lent, &length.to_le_bytes());
        assert_eq!(fed, without_frame(2, at(2, 0)));
    }
}

#[test]
fn kinds() {
    for kind in [0, 3, 0x0100, 0x0200, 0x0101, 0x0201, 0x8001, 0xFFFFu16] {
        let [low, high] = kind.to_le_bytes();
        let mut lent = [FILL; LONGEST_FRAME];
        let fed = feed(BETWEEN, &mut lent, &[6, 0, low]);
        assert_eq!(fed, without_frame(3, at(3, 0)));
        let fed = feed(fed.stream, &mut lent, &[high, 9, 9]);
        assert_eq!(fed, without_frame(3, at(0, 2)));
        assert_eq!(lent, lent_with(&[6, 0, low, high]));
    }
    // Before the check, be that right or wrong.
    expect_stop("0600 0300 F261", 2, 4);
    expect_stop("0600 0300 0000", 2, 4);
    expect_stop("0600 0300", 2, 4);
}

#[test]
fn checks() {
    expect_stop("0600 0100 4253", 3, 6);
    expect_stop("0600 0100 4352", 3, 6);
    // Most significant byte first.
    expect_stop("0600 0100 5242", 3, 6);
    // Inverted.
    expect_stop("0600 0100 BDAD", 3, 6);
    expect_stop("0600 0100 0000", 3, 6);
    expect_stop("0700 0100 AB 5060", 3, 7);
    expect_stop("0700 0200 AA 5060", 3, 7);
    // Not before its last byte.
    let fed = without_frame(5, at(5, 0));
    expect(BETWEEN, "", "0600 0100 FF", fed, "0600 0100 FF");
    expect_stop("0600 0100 4253 0600 0100 4252", 3, 6);
}

#[test]
fn a_fault_after_whole_frames() {
    let bytes = hex(&format!("{ONE_BYTE} {TWO_BYTES} 0500 0100"));
    let mut lent = [FILL; LONGEST_FRAME];
    let fed = feed(BETWEEN, &mut lent, &bytes);
    assert_eq!(fed, with_frame(7, Kind::Command, 1));
    let fed = feed(fed.stream, &mut lent, &bytes[7..]);
    assert_eq!(fed, with_frame(8, Kind::Response, 2));
    let fed = feed(fed.stream, &mut lent, &bytes[15..]);
    assert_eq!(fed, without_frame(4, at(0, 1)));
    assert_eq!(lent, lent_with(&hex("0500 0200 BBCC 88CA")));
}

#[test]
fn a_stopped_stream_drops_all() {
    for stop in 1..=3 {
        for piece in ["00", NO_BODY, "0600 0100 4252 0600 0200 2A78"] {
            let taken = hex(piece).len();
            let expected = without_frame(taken, at(0, stop));
            expect(at(0, stop), "A1", piece, expected, "A1");
            for collected in [1, 4, 1_562, 1_563, 0xFFFF] {
                expect(at(collected, stop), "A1", piece, expected, "A1");
                let empty = without_frame(0, at(0, stop));
                expect(at(collected, stop), "A1", "", empty, "A1");
            }
        }
    }
}

#[test]
fn a_stop_above_3_counts_as_1() {
    for stop in [4, 5, 255, 256, 257, 0x0103, 0xFFFF] {
        for collected in [0, 1, 6, 1_563, 0xFFFF] {
            let empty = without_frame(0, at(0, 1));
            expect(at(collected, stop), "A1", "", empty, "A1");
            let expected = without_frame(6, at(0, 1));
            expect(at(collected, stop), "A1", NO_BODY, expected, "A1");
        }
    }
}

#[test]
fn all_lent_bytes_collected() {
    for collected in [1_563, 1_564, 0x8000, 0xFFFF] {
        for front in ["", NO_BODY, "1B06 0100", "1B06 0300"] {
            let expected = without_frame(1, at(0, 1));
            expect(at(collected, 0), front, "00", expected, front);
            let expected = without_frame(6, at(0, 1));
            expect(at(collected, 0), front, NO_BODY, expected, front);
        }
    }
}

#[test]
fn held_lengths() {
    let one = |stop| without_frame(2, at(0, stop));
    // Under 6 and over 1,563, with 2, 3 and more bytes.
    expect(at(2, 0), "0500", "0100", one(1), "0500 01");
    expect(at(2, 0), "1C06", "0100", one(1), "1C06 01");
    expect(at(3, 0), "0500 01", "0000", one(1), "0500 0100");
    expect(at(4, 0), "1C06 0100", "AABB", one(1), "1C06 0100 AA");
    // As many bytes as the length, or more, are collected.
    expect(at(6, 0), NO_BODY, "AABB", one(1), "0600 0100 4252 AA");
    let seven = "0600 0100 4252 00";
    expect(at(7, 0), seven, "AABB", one(1), "0600 0100 4252 00 AA");
    // And before the kind.
    expect(
        at(6, 0),
        "0600 0300 4252",
        "AABB",
        one(1),
        "0600 0300 4252 AA",
    );
    expect(at(4, 0), "0500 0300", "AABB", one(1), "0500 0300 AA");
    // One below is the frame's last byte.
    let frame = with_frame(1, Kind::Command, 0);
    expect(at(5, 0), "0600 0100 42", "52 00", frame, NO_BODY);
}

#[test]
fn held_kinds_and_checks() {
    let stopped = |stop| without_frame(2, at(0, stop));
    expect(at(4, 0), "0700 0300", "AABB", stopped(2), "0700 0300 AA");
    // Before the check, at the last byte.
    let wrong = "0600 0300 F2";
    expect(at(5, 0), wrong, "6100", stopped(2), "0600 0300 F261");
    expect(
        at(5, 0),
        "0600 0300 00",
        "0000",
        stopped(2),
        "0600 0300 0000",
    );
    // A byte of the body that the host changed.
    let changed = "0700 0100 AB 50";
    expect(at(6, 0), changed, "6000", stopped(3), "0700 0100 AB 5060");
    let frame = with_frame(1, Kind::Command, 1);
    expect(at(6, 0), "0700 0100 AA 50", "6000", frame, ONE_BYTE);
}

#[test]
fn bytes_of_written_frames() {
    for (kind, body, frame) in [
        (Kind::Command, "", NO_BODY),
        (Kind::Response, "", NO_BODY_RESPONSE),
        (Kind::Command, "AA", ONE_BYTE),
        (Kind::Response, "BBCC", TWO_BYTES),
    ] {
        let (body, frame) = (hex(body), hex(frame));
        for more in [0, 1, 5] {
            let mut room = vec![0xA5; frame.len() + more];
            let expected = [&frame[..], &[0xA5; 5][..more]].concat();
            assert_eq!(dock::write_frame(kind, &body, &mut room), Ok(()));
            assert_eq!(room, expected);
            room.fill(0xA5);
            assert_eq!(dock_fast::write_frame(kind, &body, &mut room), Ok(()));
            assert_eq!(room, expected);
        }
    }
    let longest = longest();
    let mut room = [0; 1_563];
    let body = &longest[4..1_561];
    assert_eq!(dock::write_frame(Kind::Response, body, &mut room), Ok(()));
    assert_eq!(room[..], longest);
}

#[test]
fn refused_writes() {
    assert_eq!(WriteRefusal::Body.number(), 1);
    assert_eq!(WriteRefusal::Room.number(), 2);
    for (body, room, expected) in [
        (0, 0, Err(WriteRefusal::Room)),
        (0, 5, Err(WriteRefusal::Room)),
        (0, 6, Ok(())),
        (1, 6, Err(WriteRefusal::Room)),
        (200, 205, Err(WriteRefusal::Room)),
        (1_557, 1_562, Err(WriteRefusal::Room)),
        (1_557, 1_563, Ok(())),
        (1_558, 1_564, Err(WriteRefusal::Body)),
        (1_558, 1_563, Err(WriteRefusal::Body)),
        (1_558, 0, Err(WriteRefusal::Body)),
        (0x10000, 0, Err(WriteRefusal::Body)),
        (0x10001, 0x10007, Err(WriteRefusal::Body)),
    ] {
        for kind in Kind::ALL {
            let body = vec![0x11; body];
            let mut bytes = vec![0xA5; room];
            assert_eq!(dock::write_frame(kind, &body, &mut bytes), expected);
            let is_untouched = bytes.iter().all(|&byte| byte == 0xA5);
            assert_eq!(is_untouched, expected.is_err());
            let mut bytes = vec![0xA5; room];
            assert_eq!(dock_fast::write_frame(kind, &body, &mut bytes), expected);
            let is_untouched = bytes.iter().all(|&byte| byte == 0xA5);
            assert_eq!(is_untouched, expected.is_err());
        }
    }
}

#[test]
fn numbers_of_the_kinds() {
    for number in 0..=0xFFFF {
        let expected = match number {
            1 => Some(Kind::Command),
            2 => Some(Kind::Response),
            _ => None,
        };
        assert_eq!(Kind::of(number), expected);
    }
}
