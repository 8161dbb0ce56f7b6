//! Frames for dock streams, right ones and ones damaged in one way or two.

use crate::dock::{remainder, Fault, Kind, HEAD, LONGEST_BODY, LONGEST_FRAME, SHORTEST_FRAME};
use crate::generator::random::Random;

/// Body sizes at the edges, and one that is ordinary.
pub const EDGE_SIZES: [usize; 7] = [0, 1, 2, 200, 1_555, 1_556, 1_557];

/// Lengths below the shortest frame's, then above the longest's, the last of them
/// 1,564 in the other order.
pub const BAD_LENGTHS: [u16; 9] = [0, 1, 2, 3, 4, 5, 1_564, 0xFFFF, 0x1C06];
pub const BAD_KINDS: [u16; 6] = [0x0000, 0x0003, 0x0100, 0x0200, 0x0201, 0xFFFF];

/// A frame as its bytes have it, right or not.
#[derive(Clone, Debug, PartialEq, Eq)]
pub struct RawFrame {
    pub length: u16,
    pub kind: u16,
    pub body: Vec<u8>,
    pub check: u16,
}

impl RawFrame {
    /// A right frame.
    pub fn new(kind: Kind, body: Vec<u8>) -> RawFrame {
        let frame = RawFrame {
            length: (SHORTEST_FRAME + body.len()) as u16,
            kind: kind.number(),
            body,
            check: 0,
        };
        frame.checked()
    }

    /// The frame with the check of its other bytes.
    fn checked(mut self) -> RawFrame {
        self.check = remainder(&self.before_check());
        self
    }

    fn before_check(&self) -> Vec<u8> {
        let mut bytes = self.length.to_le_bytes().to_vec();
        bytes.extend_from_slice(&self.kind.to_le_bytes());
        bytes.extend_from_slice(&self.body);
        bytes
    }

    pub fn bytes(&self) -> Vec<u8> {
        let mut bytes = self.before_check();
        bytes.extend_from_slice(&self.check.to_le_bytes());
        bytes
    }
}

/// How large the bodies of a stream are.
#[derive(Clone, Copy, Debug, PartialEq, Eq)]
pub enum Sizes {
    /// At most 4 bytes.
    Short,
    Any,
}

/// The size of a body that the writer takes.
pub fn body_size(sizes: Sizes, random: &mut Random) -> usize {
    if sizes == Sizes::Short {
        return random.below(5);
    }
    match random.below(100) {
        0..=24 => random.pick(&EDGE_SIZES[..3]),
        25..=30 => 200,
        31..=41 => random.pick(&EDGE_SIZES[4..]),
        42..=83 => random.between(3, 60),
        // Next to where the length's second byte changes.
        84..=87 => random.between(245, 255),
        _ => random.between(0, LONGEST_BODY),
    }
}

/// Bytes of a body: any, at times all alike.
pub fn body(size: usize, random: &mut Random) -> Vec<u8> {
    match random.chance(10) {
        true => vec![random.pick(&[0x00, 0x01, 0x80, 0xFF]); size],
        false => random.bytes(size),
    }
}

pub fn right_frame(sizes: Sizes, random: &mut Random) -> RawFrame {
    let size = body_size(sizes, random);
    RawFrame::new(random.pick(&Kind::ALL), body(size, random))
}

/// The ways in which a frame is damaged.
#[derive(Clone, Copy, Debug, PartialEq, Eq)]
pub enum Damage {
    Length(u16),
    LengthAny,
    LengthSwapped,
    LengthOneMore,
    LengthOneLess,
    LengthBit,
    Kind(u16),
    KindAny,
    /// The two bytes of a kind in the other order.
    KindSwapped,
    BodyBit,
    CheckBit,
    CheckSwapped,
    CheckInverted,
    /// The check begun with FFFF.
    CheckBegun,
    CheckWithoutLength,
    CheckWithoutHead,
    CheckWithoutLastByte,
    LengthAndKind,
    LengthAndCheck,
    KindAndCheck,
}

impl Damage {
    pub fn all() -> Vec<Damage> {
        let mut all = BAD_LENGTHS.map(Damage::Length).to_vec();
        all.extend(BAD_KINDS.map(Damage::Kind));
        all.extend([
            Damage::LengthAny,
            Damage::LengthSwapped,
            Damage::LengthOneMore,
            Damage::LengthOneLess,
            Damage::LengthBit,
            Damage::KindAny,
            Damage::KindSwapped,
            Damage::BodyBit,
            Damage::CheckBit,
            Damage::CheckSwapped,
            Damage::CheckInverted,
            Damage::CheckBegun,
            Damage::CheckWithoutLength,
            Damage::CheckWithoutHead,
            Damage::CheckWithoutLastByte,
            Damage::LengthAndKind,
            Damage::LengthAndCheck,
            Damage::KindAndCheck,
        ]);
        all
    }

    /// What stops the stream, unless that depends on the bytes behind the frame.
    pub fn fault(self) -> Option<Fault> {
        match self {
            Damage::Length(_)
            | Damage::LengthAny
            | Damage::LengthAndKind
            | Damage::LengthAndCheck => Some(Fault::Length),
            Damage::LengthSwapped
            | Damage::LengthOneMore
            | Damage::LengthOneLess
            | Damage::LengthBit => None,
            Damage::Kind(_) | Damage::KindAny | Damage::KindSwapped | Damage::KindAndCheck => {
                Some(Fault::Kind)
            }
            _ => Some(Fault::Check),
        }
    }

    /// A frame that is damaged so, and not right by chance.
    pub fn make(self, sizes: Sizes, random: &mut Random) -> RawFrame {
        loop {
            let size = body_size(sizes, random).max(1);
            let right = RawFrame::new(random.pick(&Kind::ALL), body(size, random));
            let damaged = self.damage(right.clone(), random);
            if damaged != right {
                return damaged;
            }
        }
    }

    fn damage(self, mut frame: RawFrame, random: &mut Random) -> RawFrame {
        match self {
            Damage::Length(length) => frame.length = length,
            Damage::LengthAny | Damage::LengthAndKind | Damage::LengthAndCheck => {
                frame.length = bad_length(random);
            }
            Damage::LengthSwapped => frame.length = frame.length.swap_bytes(),
            Damage::LengthOneMore => frame.length += 1,
            Damage::LengthOneLess => frame.length -= 1,
            Damage::LengthBit => frame.length ^= 1 << random.below(16),
            Damage::Kind(kind) => frame.kind = kind,
            Damage::KindAny | Damage::KindAndCheck => frame.kind = bad_kind(random),
            Damage::KindSwapped => frame.kind = frame.kind.swap_bytes(),
            _ => return self.damage_check(frame, random),
        }
        if self == Damage::LengthAndKind {
            frame.kind = bad_kind(random);
        }
        match self {
            Damage::LengthAndCheck | Damage::KindAndCheck => {
                frame = frame.checked();
                frame.check ^= 1 << random.below(16);
                frame
            }
            // The check of the damaged bytes, or the one from before.
            _ if random.chance(70) => frame.checked(),
            _ => frame,
        }
    }

    fn damage_check(self, mut frame: RawFrame, random: &mut Random) -> RawFrame {
        let bytes = frame.before_check();
        match self {
            Damage::BodyBit => {
                let place = random.below(frame.body.len());
                frame.body[place] ^= 1 << random.below(8);
            }
            Damage::CheckBit => frame.check ^= 1 << random.below(16),
            Damage::CheckSwapped => frame.check = frame.check.swap_bytes(),
            Damage::CheckInverted => frame.check = !frame.check,
            Damage::CheckBegun => {
                // FFFF at the start inverts the first 16 bits.
                let mut begun = bytes;
                begun[0] ^= 0xFF;
                begun[1] ^= 0xFF;
                frame.check = remainder(&begun);
            }
            Damage::CheckWithoutLength => frame.check = remainder(&bytes[2..]),
            Damage::CheckWithoutHead => frame.check = remainder(&bytes[HEAD..]),
            Damage::CheckWithoutLastByte => {
                frame.check = remainder(&bytes[..bytes.len() - 1]);
            }
            _ => {}
        }
        frame
    }
}

/// A length that no frame has, mostly above the longest.
pub fn bad_length(random: &mut Random) -> u16 {
    match random.below(4) {
        0 => random.pick(&BAD_LENGTHS),
        1 => random.between(LONGEST_FRAME + 1, LONGEST_FRAME + 600) as u16,
        _ => random.between(LONGEST_FRAME + 1, 0xFFFF) as u16,
    }
}

pub fn bad_kind(random: &mut Random) -> u16 {
    match random.below(3) {
        0 => random.pick(&BAD_KINDS),
        1 => random.between(4, 0xFF) as u16,
        _ => random.between(3, 0xFFFF) as u16,
    }
}
