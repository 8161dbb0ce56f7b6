//! The dock stream: frames collected from pieces of any size, and the frame writer.
//! A frame is length 2, kind 2, body, check 2, least significant byte first.

/// Bytes of a frame before its body.
pub const HEAD: usize = 4;
/// Bytes of the check behind the body.
pub const CHECK: usize = 2;
pub const SHORTEST_FRAME: usize = HEAD + CHECK;
pub const LONGEST_FRAME: usize = 1_563;
pub const LONGEST_BODY: usize = LONGEST_FRAME - SHORTEST_FRAME;

/// What a remainder is taken by, lowest bit first.
pub const DIVISOR: u16 = 0x8408;

/// The bytes that the host lends, the present frame's at their front.
pub type Lent = [u8; LONGEST_FRAME];

#[derive(Clone, Copy, Debug, PartialEq, Eq)]
pub enum Kind {
    Command,
    Response,
}

impl Kind {
    pub const ALL: [Kind; 2] = [Kind::Command, Kind::Response];

    /// The kind of this number, if it is known.
    pub fn of(number: u16) -> Option<Kind> {
        Self::ALL.into_iter().find(|kind| kind.number() == number)
    }

    pub fn number(self) -> u16 {
        match self {
            Kind::Command => 0x0001,
            Kind::Response => 0x0002,
        }
    }
}

/// What stops a stream, in the order in which it is judged.
#[derive(Clone, Copy, Debug, PartialEq, Eq)]
pub enum Fault {
    Length,
    Kind,
    Check,
}

impl Fault {
    pub const ALL: [Fault; 3] = [Fault::Length, Fault::Kind, Fault::Check];

    pub fn number(self) -> u16 {
        match self {
            Fault::Length => 1,
            Fault::Kind => 2,
            Fault::Check => 3,
        }
    }
}

/// A stream as the host keeps it, which may be any value.
#[derive(Clone, Copy, Debug, PartialEq, Eq)]
pub struct Stream {
    /// Bytes of the present frame.
    pub collected: u16,
    /// 0 while it runs, else the number of the fault.
    pub stop: u16,
}

impl Stream {
    /// Also what a reset makes.
    pub const BETWEEN_FRAMES: Stream = Stream {
        collected: 0,
        stop: 0,
    };

    pub fn stopped(fault: Fault) -> Stream {
        Stream {
            collected: 0,
            stop: fault.number(),
        }
    }

    /// The value that a held one counts as.
    pub fn settled(self) -> Stream {
        match self.stop {
            0 => self,
            1..=3 => Stream {
                collected: 0,
                ..self
            },
            _ => Stream::stopped(Fault::Length),
        }
    }
}

/// A whole frame; its body stands in the lent bytes behind the head.
#[derive(Clone, Copy, Debug, PartialEq, Eq)]
pub struct Frame {
    pub kind: Kind,
    /// Bytes of the body.
    pub size: usize,
}

impl Frame {
    pub fn body(self, lent: &Lent) -> &[u8] {
        &lent[HEAD..HEAD + self.size]
    }
}

/// The answer to a piece.
#[derive(Clone, Copy, Debug, PartialEq, Eq)]
pub struct Fed {
    /// Bytes taken of the piece: all of them unless a frame came.
    pub taken: usize,
    pub stream: Stream,
    pub frame: Option<Frame>,
}

/// Feeds a piece to a stream, up to the end of the first whole frame.
pub fn feed(stream: Stream, lent: &mut Lent, piece: &[u8]) -> Fed {
    let mut stream = stream.settled();
    for (&byte, taken) in piece.iter().zip(1..) {
        if stream.stop != 0 {
            break;
        }
        match take(stream.collected, lent, byte) {
            Ok(None) => stream.collected += 1,
            Ok(frame) => {
                let stream = Stream::BETWEEN_FRAMES;
                return Fed {
                    taken,
                    stream,
                    frame,
                };
            }
            Err(fault) => stream = Stream::stopped(fault),
        }
    }
    Fed {
        taken: piece.len(),
        stream,
        frame: None,
    }
}

/// Puts a byte behind those collected, if it has a place, and judges them.
fn take(collected: u16, lent: &mut Lent, byte: u8) -> Result<Option<Frame>, Fault> {
    let collected = usize::from(collected);
    *lent.get_mut(collected).ok_or(Fault::Length)? = byte;
    judge(&lent[..=collected])
}

/// Judges the bytes of a frame so far: the frame if it is whole.
fn judge(collected: &[u8]) -> Result<Option<Frame>, Fault> {
    let Some(length) = number_at(collected, 0) else {
        return Ok(None);
    };
    let length = usize::from(length);
    let due = collected.len().max(SHORTEST_FRAME)..=LONGEST_FRAME;
    if !due.contains(&length) {
        return Err(Fault::Length);
    }
    let Some(kind) = number_at(collected, 2) else {
        return Ok(None);
    };
    let kind = Kind::of(kind).ok_or(Fault::Kind)?;
    if collected.len() < length {
        return Ok(None);
    }
    let checked = length - CHECK;
    if number_at(collected, checked) != Some(remainder(&collected[..checked])) {
        return Err(Fault::Check);
    }
    let size = checked - HEAD;
    Ok(Some(Frame { kind, size }))
}

/// The number of the two bytes at a place, if both are there.
fn number_at(bytes: &[u8], place: usize) -> Option<u16> {
    let bytes = bytes.get(place..)?.first_chunk()?;
    Some(u16::from_le_bytes(*bytes))
}

/// The remainder of all bytes, bit by bit.
pub fn remainder(bytes: &[u8]) -> u16 {
    let step = |remainder, &byte| remainder_after(remainder, byte);
    bytes.iter().fold(0, step)
}

/// The remainder after one byte more.
pub const fn remainder_after(remainder: u16, byte: u8) -> u16 {
    let mut remainder = remainder ^ byte as u16;
    let mut bit = 0;
    while bit < u8::BITS {
        let low = remainder & 1;
        remainder >>= 1;
        if low == 1 {
            remainder ^= DIVISOR;
        }
        bit += 1;
    }
    remainder
}

/// What the frame writer refuses, in the order in which it is judged.
#[derive(Clone, Copy, Debug, PartialEq, Eq)]
pub enum WriteRefusal {
    Body,
    Room,
}

impl WriteRefusal {
    pub fn number(self) -> u8 {
        match self {
            WriteRefusal::Body => 1,
            WriteRefusal::Room => 2,
        }
    }
}

/// Writes a frame to the front of the room, which is untouched where it is refused.
pub fn write_frame(kind: Kind, body: &[u8], room: &mut [u8]) -> Result<(), WriteRefusal> {
    if body.len() > LONGEST_BODY {
        return Err(WriteRefusal::Body);
    }
    let length = SHORTEST_FRAME + body.len();
    let frame = room.get_mut(..length).ok_or(WriteRefusal::Room)?;
    let (checked, check) = frame.split_at_mut(length - CHECK);
    checked[..2].copy_from_slice(&(length as u16).to_le_bytes());
    checked[2..HEAD].copy_from_slice(&kind.number().to_le_bytes());
    checked[HEAD..].copy_from_slice(body);
    check.copy_from_slice(&remainder(checked).to_le_bytes());
    Ok(())
}

#[cfg(test)]
mod tests {
    use super::*;

    #[test]
    fn remainder_of_the_outside_vector() {
        assert_eq!(remainder(b"123456789"), 0x2189);
        assert_eq!(remainder(b""), 0);
    }

    #[test]
    fn remainder_of_single_bits() {
        // The highest bit of a byte is the last to be divided.
        assert_eq!(remainder(&[0x80]), 0x8408);
        // One further zero step each: 8408 has no low bit.
        assert_eq!(remainder(&[0x40]), 0x4204);
        assert_eq!(remainder(&[0x20]), 0x2102);
        assert_eq!(remainder(&[0x10]), 0x1081);
        // And then 1081 has one.
        assert_eq!(remainder(&[0x08]), 0x0840 ^ 0x8408);
    }

    #[test]
    fn judged_by_the_bytes_there() {
        assert_eq!(judge(&[]), Ok(None));
        assert_eq!(judge(&[0x00]), Ok(None));
        assert_eq!(judge(&[0x05, 0x00]), Err(Fault::Length));
        assert_eq!(judge(&[0x06, 0x00]), Ok(None));
        assert_eq!(judge(&[0x1B, 0x06]), Ok(None));
        assert_eq!(judge(&[0x1C, 0x06]), Err(Fault::Length));
        assert_eq!(judge(&[0x06, 0x00, 0x03]), Ok(None));
        assert_eq!(judge(&[0x06, 0x00, 0x03, 0x00]), Err(Fault::Kind));
        assert_eq!(judge(&[0x06, 0x00, 0x02, 0x00]), Ok(None));
    }
}
