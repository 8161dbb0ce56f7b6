//! Values and lent bytes as a host may hold them, those that no stream comes to as well.

use crate::dock::{Kind, Lent, Stream, HEAD, LONGEST_FRAME, SHORTEST_FRAME};
use crate::generator::frames::{bad_kind, bad_length, body, right_frame, RawFrame, Sizes};
use crate::generator::random::Random;

/// The sorts of held values.
#[derive(Clone, Copy, Debug, PartialEq, Eq)]
pub enum HeldSort {
    /// Between frames, with any lent bytes.
    Between,
    Stopped(u16),
    /// Stopped, though bytes are said to be collected.
    StoppedCollected(u16),
    /// A number that stops no stream.
    StopAbove(u16),
    StopAboveCollected,
    /// As many bytes as the longest frame has, or more.
    CollectedAll(u16),
    /// All but the last byte of the longest frame.
    CollectedAllButOne,
    /// The beginning of a right frame.
    InFrame,
    /// All but the check's last byte, or but the check.
    BeforeCheck,
    /// So many bytes of a frame.
    InHead(u16),
    /// Two bytes or more, with a length that no frame has.
    LengthBad,
    LengthAndKindBad,
    /// As many bytes as the length, or more.
    LengthReached,
    LengthPassed,
    LengthPassedAndKindBad,
    KindBad,
    /// All but the last byte, with a wrong kind and a wrong check.
    KindAndCheckBad,
    /// A byte of the body is not the one that came.
    BodyChanged,
    Noise,
}

const STOPS_ABOVE: [u16; 6] = [4, 5, 0x00FF, 0x0100, 0x0103, 0xFFFF];

impl HeldSort {
    pub fn all() -> Vec<HeldSort> {
        let mut all = vec![HeldSort::Between];
        all.extend([1, 2, 3].map(HeldSort::Stopped));
        all.extend([1, 2, 3].map(HeldSort::StoppedCollected));
        all.extend(STOPS_ABOVE.map(HeldSort::StopAbove));
        all.extend([1_563, 1_564, 0x8000, 0xFFFF].map(HeldSort::CollectedAll));
        all.extend([1, 2, 3, 4].map(HeldSort::InHead));
        all.extend([
            HeldSort::StopAboveCollected,
            HeldSort::CollectedAllButOne,
            HeldSort::InFrame,
            HeldSort::BeforeCheck,
            HeldSort::LengthBad,
            HeldSort::LengthAndKindBad,
            HeldSort::LengthReached,
            HeldSort::LengthPassed,
            HeldSort::LengthPassedAndKindBad,
            HeldSort::KindBad,
            HeldSort::KindAndCheckBad,
            HeldSort::BodyChanged,
            HeldSort::Noise,
        ]);
        all
    }

    /// A value of this sort, and the bytes to feed to it.
    pub fn make(self, random: &mut Random) -> Held {
        match self {
            HeldSort::Between => Held::new(0, 0, random),
            HeldSort::Stopped(stop) | HeldSort::StopAbove(stop) => Held::new(0, stop, random),
            HeldSort::StoppedCollected(stop) => Held::new(any_collected(random), stop, random),
            HeldSort::StopAboveCollected => {
                let stop = random.pick(&STOPS_ABOVE);
                Held::new(any_collected(random), stop, random)
            }
            HeldSort::CollectedAll(collected) => Held::full(collected, random),
            HeldSort::Noise => {
                let collected = random.below(LONGEST_FRAME) as u16;
                Held::new(collected, 0, random)
            }
            _ => self.make_within(random),
        }
    }

    /// A value that says that some bytes of a frame are collected.
    fn make_within(self, random: &mut Random) -> Held {
        let mut frame = self.frame(random);
        let whole = usize::from(frame.length);
        let collected = match self {
            HeldSort::CollectedAllButOne | HeldSort::KindAndCheckBad => whole - 1,
            HeldSort::BeforeCheck => whole - random.between(1, 2),
            HeldSort::InHead(count) => usize::from(count),
            HeldSort::KindBad => random.between(HEAD, whole - 1),
            HeldSort::BodyChanged => random.between(HEAD + 1, whole - 1),
            HeldSort::LengthReached => whole,
            HeldSort::LengthPassed | HeldSort::LengthPassedAndKindBad => {
                random.between(whole + 1, (whole + 40).min(LONGEST_FRAME - 1))
            }
            HeldSort::LengthBad | HeldSort::LengthAndKindBad => {
                frame.length = bad_length(random);
                random.between(2, 12)
            }
            _ => random.between(1, whole - 1),
        };
        if matches!(
            self,
            HeldSort::LengthAndKindBad
                | HeldSort::LengthPassedAndKindBad
                | HeldSort::KindBad
                | HeldSort::KindAndCheckBad
        ) {
            frame.kind = bad_kind(random);
        }
        let mut held = Held::within(&frame, collected, random);
        if self == HeldSort::BodyChanged {
            held.lent[HEAD] ^= random.nonzero_byte();
        }
        held
    }

    /// The frame of which bytes are collected.
    fn frame(self, random: &mut Random) -> RawFrame {
        loop {
            let frame = right_frame(Sizes::Any, random);
            let length = usize::from(frame.length);
            let fits = match self {
                HeldSort::CollectedAllButOne => length == LONGEST_FRAME,
                HeldSort::LengthBad | HeldSort::LengthAndKindBad => length > 12,
                HeldSort::LengthReached
                | HeldSort::LengthPassed
                | HeldSort::LengthPassedAndKindBad => length + 1 < LONGEST_FRAME,
                _ => length > SHORTEST_FRAME,
            };
            if fits {
                return frame;
            }
        }
    }
}

/// Any count, most of them of a frame.
fn any_collected(random: &mut Random) -> u16 {
    match random.below(3) {
        0 => random.pick(&[1, 2, 4, 1_562, 1_563, 0xFFFF]),
        _ => random.between(1, LONGEST_FRAME) as u16,
    }
}

/// A held value with its lent bytes, and what to feed to it.
#[derive(Clone, Debug)]
pub struct Held {
    pub stream: Stream,
    pub lent: Box<Lent>,
    pub fed: Vec<u8>,
}

impl Held {
    /// With any lent bytes; a right frame or any bytes are fed.
    fn new(collected: u16, stop: u16, random: &mut Random) -> Held {
        let fed = match random.chance(70) {
            true => right_frame(Sizes::Any, random).bytes(),
            false => {
                let size = random.below(40);
                random.bytes(size)
            }
        };
        Held {
            stream: Stream { collected, stop },
            lent: noise(random),
            fed,
        }
    }

    /// With a whole frame in the lent bytes, at times.
    fn full(collected: u16, random: &mut Random) -> Held {
        let mut held = Held::new(collected, 0, random);
        if random.chance(50) {
            let longest = body(LONGEST_FRAME - SHORTEST_FRAME, random);
            let kind = random.pick(&Kind::ALL);
            held.lent
                .copy_from_slice(&RawFrame::new(kind, longest).bytes());
        }
        held
    }

    /// With the first bytes of a frame; the others are fed, and at times more.
    fn within(frame: &RawFrame, collected: usize, random: &mut Random) -> Held {
        let bytes = frame.bytes();
        let mut lent = noise(random);
        lent[..bytes.len()].copy_from_slice(&bytes);
        let mut fed = bytes.get(collected..).unwrap_or(&[]).to_vec();
        if fed.is_empty() || random.chance(40) {
            fed.extend(right_frame(Sizes::Any, random).bytes());
        }
        // The bytes behind those collected are not yet the frame's.
        for byte in lent.iter_mut().skip(collected) {
            *byte = random.byte();
        }
        Held {
            stream: Stream {
                collected: collected as u16,
                stop: 0,
            },
            lent,
            fed,
        }
    }
}

fn noise(random: &mut Random) -> Box<Lent> {
    let mut lent = Box::new([0; LONGEST_FRAME]);
    lent.copy_from_slice(&random.bytes(LONGEST_FRAME));
    lent
}
