//! The dock: streams in pieces of every size, each fault, and the writer, against frames that the test makes for itself.
use element::dock::{write_frame, Fault, Fed, Frame, Kind, Stream, WriteError};
use element::dock::{AROUND, HEAD, LONGEST_BODY, LONGEST_FRAME};

/// The remainder of bytes by 8408 hex, bit by bit.
fn check(bytes: &[u8]) -> u16 {
    bytes.iter().fold(0, |sum, byte| {
        (0..8).fold(sum ^ u16::from(*byte), |sum: u16, _| {
            sum >> 1 ^ if sum & 1 == 1 { 0x8408 } else { 0 }
        })
    })
}

fn framed(kind: u16, body: &[u8]) -> Vec<u8> {
    let length = (AROUND + body.len()) as u16;
    let mut frame = [length, kind].map(u16::to_le_bytes).concat();
    frame.extend(body);
    frame.extend(check(&frame).to_le_bytes());
    frame
}

fn body(size: usize) -> Vec<u8> {
    (0..size).map(|i| (i * 7 + i / 256) as u8).collect()
}

type Bodies = Vec<(Kind, Vec<u8>)>;

/// What comes out of a stream that is handed these pieces: kinds and bodies, why it stopped, and the bytes collected.
fn received<'p>(pieces: impl Iterator<Item = &'p [u8]>) -> (Bodies, Option<Fault>, usize) {
    let mut lent = [0xEE; LONGEST_FRAME];
    let mut stream = Stream::new(&mut lent);
    let mut out = Vec::new();
    for piece in pieces {
        let mut frames = stream.frames(piece);
        while let Ok(Some(frame)) = frames.next_frame() {
            out.push((frame.kind, frame.body.to_vec()));
        }
        assert_eq!(frames.rest(), b"");
    }
    (out, stream.fault(), stream.collected())
}

#[test]
fn the_check_is_that_of_the_order() {
    assert_eq!(check(b"123456789"), 0x2189);
    assert_eq!(
        framed(1, b"\x71\x00\x00\x00"),
        b"\x0A\x00\x01\x00\x71\x00\x00\x00\x06\x64"
    );
}

#[test]
fn pieces_of_every_size_give_the_same() {
    let sent = [
        (Kind::Command, body(9)),
        (Kind::Response, body(0)),
        (Kind::Command, body(LONGEST_BODY)),
        (Kind::Response, body(300)),
    ];
    let mut bytes: Vec<u8> = Vec::new();
    for (kind, body) in &sent {
        bytes.extend(framed(kind.number(), body));
    }
    bytes.extend([0x0A, 0x00, 0x01]);
    for size in (1..50).chain([1562, 1563, 1564, bytes.len()]) {
        let (out, stop, collected) = received(bytes.chunks(size));
        assert_eq!((out.as_slice(), stop), (&sent[..], None), "{size}");
        assert_eq!(collected, 3, "{size}");
    }
}

#[test]
fn a_fault_stops_the_stream_behind_the_frames_before_it() {
    let right = framed(1, b"FARE");
    let faults = [
        (framed(1, b"")[..1].to_vec(), None),
        (vec![0x05, 0x00], Some(Fault::BadLength)),
        (vec![0x1C, 0x06], Some(Fault::BadLength)),
        (vec![0x1B, 0x06, 0x03, 0x00], Some(Fault::UnknownKind)),
        (framed(0, b""), Some(Fault::UnknownKind)),
        (framed(0x0101, b"FARE"), Some(Fault::UnknownKind)),
        (vec![6, 0, 1, 0, 0x42, 0x53], Some(Fault::BadCheck)),
    ];
    for (bad, fault) in faults {
        let bytes = [right.clone(), right.clone(), bad.clone()].concat();
        for size in [1, 2, 7, bytes.len()] {
            let (out, stop, _) = received(bytes.chunks(size));
            assert_eq!((out.len(), stop), (2, fault), "{bad:02X?} by {size}");
        }
    }
}

#[test]
fn a_stopped_stream_answers_its_fault_until_a_reset() {
    let mut lent = [0; LONGEST_FRAME];
    let mut stream = Stream::new(&mut lent);
    let right = framed(2, b"FARE");
    let frame = Frame {
        kind: Kind::Response,
        body: b"FARE",
    };
    assert_eq!(
        stream.feed(b"\x0A\x00\x03\x00"),
        Fed::Stopped(Fault::UnknownKind)
    );
    for piece in [&right[..], b"", &[0; 70_000]] {
        assert_eq!(stream.feed(piece), Fed::Stopped(Fault::UnknownKind));
        assert_eq!(stream.frames(piece).next_frame(), Err(Fault::UnknownKind));
    }
    assert_eq!(
        (stream.fault(), stream.collected()),
        (Some(Fault::UnknownKind), 0)
    );
    stream.reset();
    assert_eq!(stream.fault(), None);
    assert_eq!(stream.feed(&right), Fed::Whole { frame, taken: 10 });
}

#[test]
fn a_reset_forgets_a_frame_that_is_not_whole() {
    let mut lent = [0; LONGEST_FRAME];
    let mut stream = Stream::new(&mut lent);
    let right = framed(1, b"FARE");
    assert_eq!(stream.feed(&right[..7]), Fed::NotYet);
    assert_eq!(stream.collected(), 7);
    stream.reset();
    assert_eq!(stream.collected(), 0);
    assert!(matches!(stream.feed(&right), Fed::Whole { taken: 10, .. }));
}

#[test]
fn an_empty_piece_changes_nothing() {
    let mut lent = [0; LONGEST_FRAME];
    let mut stream = Stream::new(&mut lent);
    assert_eq!(stream.feed(b""), Fed::NotYet);
    assert_eq!(stream.feed(b"\x0A\x00\x01"), Fed::NotYet);
    assert_eq!(stream.feed(b""), Fed::NotYet);
    assert_eq!(stream.collected(), 3);
    assert_eq!(stream.frames(b"").next_frame(), Ok(None));
}

#[test]
fn what_is_not_asked_for_is_the_rest() {
    let mut lent = [0; LONGEST_FRAME];
    let mut stream = Stream::new(&mut lent);
    let two = framed(1, b"FARE").repeat(2);
    let mut frames = stream.frames(&two);
    assert_eq!(frames.rest(), two);
    assert!(frames.next_frame().unwrap().is_some());
    let rest = frames.rest();
    assert_eq!(rest, &two[10..]);
    assert!(matches!(stream.feed(rest), Fed::Whole { taken: 10, .. }));
}

#[test]
fn frames_are_written_in_rooms_that_hold_them() {
    for kind in [Kind::Command, Kind::Response] {
        for size in [0, 1, 9, 250, 256, LONGEST_BODY] {
            let due = framed(kind.number(), &body(size));
            let mut room = vec![0xEE; due.len() + 3];
            let written = write_frame(kind, &body(size), &mut room);
            assert_eq!(written, Ok(&due[..]), "{size}");
            assert_eq!(room[due.len()..], [0xEE; 3]);
            let exact = &mut room[..due.len()];
            assert_eq!(
                write_frame(kind, &body(size), exact),
                Ok(&due[..]),
                "{size}"
            );
        }
    }
}

#[test]
fn a_refused_write_leaves_the_room() {
    let mut room = vec![0xEE; LONGEST_FRAME + 10];
    let long = body(LONGEST_BODY + 1);
    let too_long = Err(WriteError::BodyTooLong { size: long.len() });
    assert_eq!(write_frame(Kind::Command, &long, &mut room), too_long);
    assert_eq!(write_frame(Kind::Response, &long, &mut []), too_long);
    for size in [0, 1, 9, LONGEST_BODY] {
        let needed = size + AROUND;
        let small = &mut room[..needed - 1];
        let too_small = Err(WriteError::RoomTooSmall {
            size: needed - 1,
            needed,
        });
        assert_eq!(write_frame(Kind::Command, &body(size), small), too_small);
        assert_eq!(write_frame(Kind::Response, &body(size), small), too_small);
    }
    assert!(room.iter().all(|byte| *byte == 0xEE));
}

#[test]
fn numbers_and_texts() {
    for (number, kind) in [(1, Kind::Command), (2, Kind::Response)] {
        assert_eq!(
            (Kind::from_number(number), kind.number()),
            (Some(kind), number)
        );
    }
    let faults = [Fault::BadLength, Fault::UnknownKind, Fault::BadCheck];
    for (number, fault) in (1..).zip(faults) {
        assert_eq!(
            (Fault::from_number(number), fault.number()),
            (Some(fault), number)
        );
        assert!(fault.to_string().starts_with(&format!("{number}: the ")));
        assert!(fault.to_string().contains(": expected "));
    }
    for number in [0, 3, 4, 0x0100, 0x0101, 0xFFFF] {
        assert_eq!(Kind::from_number(number), None);
        assert_eq!(Fault::from_number(number).is_some(), number == 3);
    }
    let long = WriteError::BodyTooLong { size: 1558 };
    assert_eq!(long.number(), 1);
    assert_eq!(
        long.to_string(),
        "1: the body has 1558 bytes: expected at most 1557"
    );
    let small = WriteError::RoomTooSmall { size: 3, needed: 6 };
    assert_eq!(small.number(), 2);
    assert_eq!(
        small.to_string(),
        "2: the room has 3 bytes: expected at least 6"
    );
    assert_eq!(LONGEST_FRAME, LONGEST_BODY + AROUND);
    assert_eq!(AROUND, HEAD + 2);
}
