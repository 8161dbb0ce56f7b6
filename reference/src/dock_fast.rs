//! The dock stream once more, for speed: a lookup for each byte in a table of 256
//! remainders, and pieces taken by runs of bytes. The answers are those of `dock`.

use crate::dock::{
    remainder_after, Fault, Fed, Frame, Kind, Lent, Stream, WriteRefusal, CHECK, HEAD,
    LONGEST_BODY, LONGEST_FRAME, SHORTEST_FRAME,
};

/// The remainder of each byte.
static REMAINDERS: [u16; 256] = remainders();

const fn remainders() -> [u16; 256] {
    let mut table = [0; 256];
    let mut byte = 0;
    while byte < table.len() {
        table[byte] = remainder_after(0, byte as u8);
        byte += 1;
    }
    table
}

/// The remainder of all bytes; on its way it is kept in 32 bits, which is a little faster.
#[inline]
fn remainder(bytes: &[u8]) -> u16 {
    let remainder = bytes.iter().fold(0, |remainder: u32, &byte| {
        let entry = REMAINDERS[usize::from(remainder as u8 ^ byte)];
        remainder >> 8 ^ u32::from(entry)
    });
    remainder as u16
}

/// Feeds a piece to a stream, up to the end of the first whole frame.
pub fn feed(stream: Stream, lent: &mut Lent, piece: &[u8]) -> Fed {
    match stream {
        Stream::BETWEEN_FRAMES => begin(lent, piece),
        Stream { collected, stop: 0 } => go_on(usize::from(collected), lent, piece),
        _ => without_frame(stream.settled(), piece),
    }
}

fn without_frame(stream: Stream, piece: &[u8]) -> Fed {
    Fed {
        taken: piece.len(),
        stream,
        frame: None,
    }
}

fn stopped(fault: Fault, piece: &[u8]) -> Fed {
    without_frame(Stream::stopped(fault), piece)
}

/// A piece that begins with a frame.
#[inline]
fn begin(lent: &mut Lent, piece: &[u8]) -> Fed {
    let Some(head) = piece.first_chunk::<HEAD>() else {
        return collect_head(0, lent, piece);
    };
    match judge_head(head, HEAD) {
        Ok((length, kind)) => match piece.get(..length) {
            Some(frame) => {
                lent[..length].copy_from_slice(frame);
                finish(kind, frame, length, piece)
            }
            None => {
                lent[..piece.len()].copy_from_slice(piece);
                without_frame(collecting(piece.len()), piece)
            }
        },
        Err(fault) => {
            let seen = bytes_seen(fault);
            lent[..seen].copy_from_slice(&head[..seen]);
            stopped(fault, piece)
        }
    }
}

/// A piece behind the bytes collected, at least one.
fn go_on(collected: usize, lent: &mut Lent, piece: &[u8]) -> Fed {
    if collected < HEAD - 1 {
        return collect_head(collected, lent, piece);
    }
    let Some(&first) = piece.first() else {
        return without_frame(collecting(collected), piece);
    };
    let Some(place) = lent.get_mut(collected) else {
        return stopped(Fault::Length, piece);
    };
    // The last byte of the kind may be this one.
    *place = first;
    let [l0, l1, k0, k1, ..] = *lent;
    let (length, kind) = match judge_head(&[l0, l1, k0, k1], collected + 1) {
        Ok(judged) => judged,
        Err(fault) => return stopped(fault, piece),
    };
    let lacking = length - collected;
    match piece.get(..lacking) {
        Some(rest) => {
            lent[collected..length].copy_from_slice(rest);
            finish(kind, &lent[..length], lacking, piece)
        }
        None => {
            let end = collected + piece.len();
            lent[collected..end].copy_from_slice(piece);
            without_frame(collecting(end), piece)
        }
    }
}

/// Takes bytes of the head one by one, and what comes behind it by `go_on`.
fn collect_head(mut collected: usize, lent: &mut Lent, piece: &[u8]) -> Fed {
    let mut taken = 0;
    while collected < HEAD - 1 {
        let Some(&byte) = piece.get(taken) else {
            return without_frame(collecting(collected), piece);
        };
        lent[collected] = byte;
        collected += 1;
        taken += 1;
        let length = usize::from(u16::from_le_bytes([lent[0], lent[1]]));
        if collected >= 2 && !is_length(length, collected) {
            return stopped(Fault::Length, piece);
        }
    }
    let fed = go_on(collected, lent, &piece[taken..]);
    Fed {
        taken: taken + fed.taken,
        ..fed
    }
}

/// Judges the last two bytes of a frame that has all its bytes.
#[inline]
fn finish(kind: Kind, frame: &[u8], taken: usize, piece: &[u8]) -> Fed {
    let Some((checked, check)) = frame.split_last_chunk::<CHECK>() else {
        return stopped(Fault::Length, piece);
    };
    if remainder(checked) != u16::from_le_bytes(*check) {
        return stopped(Fault::Check, piece);
    }
    let size = checked.len() - HEAD;
    Fed {
        taken,
        stream: Stream::BETWEEN_FRAMES,
        frame: Some(Frame { kind, size }),
    }
}

/// Length and kind of a head with so many bytes collected.
#[inline]
fn judge_head(&[l0, l1, k0, k1]: &[u8; HEAD], collected: usize) -> Result<(usize, Kind), Fault> {
    let length = usize::from(u16::from_le_bytes([l0, l1]));
    if !is_length(length, collected) {
        return Err(Fault::Length);
    }
    let kind = match u16::from_le_bytes([k0, k1]) {
        1 => Kind::Command,
        2 => Kind::Response,
        _ => return Err(Fault::Kind),
    };
    Ok((length, kind))
}

#[inline]
fn is_length(length: usize, collected: usize) -> bool {
    (collected.max(SHORTEST_FRAME)..=LONGEST_FRAME).contains(&length)
}

/// Bytes of a head that are collected when a fault of it is seen.
fn bytes_seen(fault: Fault) -> usize {
    match fault {
        Fault::Length => 2,
        _ => HEAD,
    }
}

#[inline]
fn collecting(collected: usize) -> Stream {
    Stream {
        collected: collected as u16,
        stop: 0,
    }
}

/// Writes a frame to the front of the room, which is untouched where it is refused.
pub fn write_frame(kind: Kind, body: &[u8], room: &mut [u8]) -> Result<(), WriteRefusal> {
    if body.len() > LONGEST_BODY {
        return Err(WriteRefusal::Body);
    }
    let length = SHORTEST_FRAME + body.len();
    let frame = room.get_mut(..length).ok_or(WriteRefusal::Room)?;
    let (checked, check) = frame.split_at_mut(length - CHECK);
    let [l0, l1] = (length as u16).to_le_bytes();
    let [k0, k1] = kind.number().to_le_bytes();
    checked[..HEAD].copy_from_slice(&[l0, l1, k0, k1]);
    checked[HEAD..].copy_from_slice(body);
    check.copy_from_slice(&remainder(checked).to_le_bytes());
    Ok(())
}

#[cfg(test)]
mod tests {
    use super::*;
    use crate::dock;

    #[test]
    fn every_entry_follows_the_rule() {
        for byte in 0..=255 {
            assert_eq!(REMAINDERS[usize::from(byte)], dock::remainder(&[byte]));
        }
    }

    #[test]
    fn remainders_of_all_sizes() {
        assert_eq!(remainder(b"123456789"), 0x2189);
        let bytes: Vec<u8> = (0..1_561u32)
            .map(|place| (place * 7_919 / 8) as u8)
            .collect();
        for size in 0..=bytes.len() {
            let expected = dock::remainder(&bytes[..size]);
            assert_eq!(remainder(&bytes[..size]), expected, "{size}");
        }
    }
}
