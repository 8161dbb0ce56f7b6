//! The stream of frames at the dock: commands come in frames, in pieces of any size, and responses go out in frames.
//!
//! A frame is its length in 2 bytes (of the whole frame, so [`AROUND`] more than its body has), its [`Kind`] in 2, its body, and its check in 2, all
//! least significant byte first. The check is the 16-bit remainder with 8408 hex, bits taken from the least significant on, started at 0 and not
//! inverted, of all bytes of the frame before it: of "123456789" it is 2189 hex.
//!
//! A [`Stream`] receives: however the bytes are cut into pieces, the same bodies come out with their kinds. [`write_frame`] sends. This receives a
//! piece at the validator and answers each command:
//!
//! ```
//! use element::dock::{self, Fault, Kind, Stream, AROUND, LONGEST_FRAME};
//! use element::{Element, LARGEST_ROOM};
//!
//! fn receive(
//!     stream: &mut Stream,
//!     piece: &[u8],
//!     element: &mut Element,
//!     mut send: impl FnMut(&[u8]),
//! ) -> Result<(), Fault> {
//!     let mut room = [0; LARGEST_ROOM];
//!     let mut answer = [0; LARGEST_ROOM + AROUND];
//!     let mut frames = stream.frames(piece);
//!     while let Some(frame) = frames.next_frame()? {
//!         if frame.kind == Kind::Command {
//!             let response = element.send(frame.body, &mut room).response;
//!             if let Ok(framed) = dock::write_frame(Kind::Response, response, &mut answer) {
//!                 send(framed); // after the store is kept, where it is to survive a reset
//!             }
//!         }
//!     }
//!     Ok(())
//! }
//!
//! # use element::{Session, FACTORY_STORE_SIZE};
//! # let (mut store, mut session) = ([0; FACTORY_STORE_SIZE], Session::fresh());
//! # let mut element = Element::factory(&mut store, &mut session)?;
//! # element.open()?;
//! # let mut lent = [0; LONGEST_FRAME];
//! # let mut stream = Stream::new(&mut lent);
//! let close = b"\x0A\x00\x01\x00\x71\x00\x00\x00\x06\x64"; // the command 71 00 00 00
//! let mut sent = Vec::new();
//! for piece in [&close[..3], &close[3..]] {
//!     receive(&mut stream, piece, &mut element, |bytes| sent.extend_from_slice(bytes))?;
//! }
//! assert_eq!(sent, b"\x0A\x00\x02\x00\x00\x00\x00\x00\x85\x2E"); // the response 00 00 00 00
//! # Ok::<(), Box<dyn std::error::Error>>(())
//! ```

use crate::library::{self, DockStream};
use core::fmt;

/// The bytes before the body in a frame.
pub const HEAD: usize = 4;
/// The bytes that a frame has more than its body.
pub const AROUND: usize = 6;
/// The most bytes of a frame, and what a [`Stream`] is lent.
pub const LONGEST_FRAME: usize = 1563;
/// The most bytes of a body.
pub const LONGEST_BODY: usize = 1557;

/// What a frame is.
#[derive(Clone, Copy, Debug, PartialEq, Eq, Hash)]
#[repr(u16)]
pub enum Kind {
    /// For the validator.
    Command = 0x0001,
    /// For the dock.
    Response = 0x0002,
}

impl Kind {
    /// The number that stands in a frame.
    pub const fn number(self) -> u16 {
        self as u16
    }

    /// The kind of a number, if it is one of the two.
    pub const fn from_number(number: u16) -> Option<Kind> {
        match number {
            0x0001 => Some(Kind::Command),
            0x0002 => Some(Kind::Response),
            _ => None,
        }
    }
}

/// Why a stream has stopped. A frame's length is judged at its second byte, then its kind at its fourth, then its check at its last.
///
/// ```
/// use element::dock::Fault;
///
/// assert_eq!(Fault::BadCheck.number(), 3);
/// assert_eq!(Fault::BadLength.to_string(), "1: the length of a frame is out of range: expected 6 to 1563");
/// ```
#[derive(Clone, Copy, Debug, PartialEq, Eq, Hash)]
#[repr(u16)]
pub enum Fault {
    /// A length under [`AROUND`] or over [`LONGEST_FRAME`].
    BadLength = 1,
    /// A kind that is neither of the two.
    UnknownKind = 2,
    /// A check that is not that of the bytes before it.
    BadCheck = 3,
}

impl Fault {
    /// Its number.
    pub const fn number(self) -> u16 {
        self as u16
    }

    /// The fault of a number, if it is one of the three.
    pub const fn from_number(number: u16) -> Option<Fault> {
        match number {
            1 => Some(Fault::BadLength),
            2 => Some(Fault::UnknownKind),
            3 => Some(Fault::BadCheck),
            _ => None,
        }
    }

    const fn text(self) -> &'static str {
        match self {
            Fault::BadLength => "the length of a frame is out of range: expected 6 to 1563",
            Fault::UnknownKind => {
                "the kind of a frame is unknown: expected 0001 (command) or 0002 (response)"
            }
            Fault::BadCheck => {
                "the check of a frame is wrong: expected that of the bytes before it"
            }
        }
    }
}

impl fmt::Display for Fault {
    fn fmt(&self, out: &mut fmt::Formatter<'_>) -> fmt::Result {
        write!(out, "{}: {}", self.number(), self.text())
    }
}

impl core::error::Error for Fault {}

/// A whole frame, right in all its parts.
#[derive(Clone, Copy, Debug, PartialEq, Eq, Hash)]
pub struct Frame<'s> {
    /// What it is.
    pub kind: Kind,
    /// What it carries: up to [`LONGEST_BODY`] bytes, in those that the stream is lent.
    pub body: &'s [u8],
}

/// What came of a piece.
#[derive(Clone, Copy, Debug, PartialEq, Eq, Hash)]
#[must_use]
pub enum Fed<'s> {
    /// A frame has become whole with the last byte taken. The rest of the piece is for the next call.
    Whole {
        /// The frame.
        frame: Frame<'s>,
        /// The bytes taken of the piece: at least one.
        taken: usize,
    },
    /// All bytes are taken, and no frame is whole yet. No fault: the next piece goes on with it.
    NotYet,
    /// All bytes are taken, and the stream has stopped, by this piece or one before. It answers this until a [`reset`](Stream::reset).
    Stopped(Fault),
}

/// The receiving end of a stream, over lent bytes in which a frame is collected.
///
/// ```
/// use element::dock::{Fault, Fed, Frame, Kind, Stream, LONGEST_FRAME};
///
/// let mut lent = [0; LONGEST_FRAME];
/// let mut stream = Stream::new(&mut lent);
/// let close = b"\x0A\x00\x01\x00\x71\x00\x00\x00\x06\x64"; // the command 71 00 00 00
///
/// assert_eq!(stream.feed(&close[..7]), Fed::NotYet);
/// let frame = Frame { kind: Kind::Command, body: b"\x71\x00\x00\x00" };
/// assert_eq!(stream.feed(&close[7..]), Fed::Whole { frame, taken: 3 });
///
/// assert_eq!(stream.feed(b"\x05\x00"), Fed::Stopped(Fault::BadLength));
/// assert_eq!(stream.feed(close), Fed::Stopped(Fault::BadLength));
/// stream.reset();
/// assert_eq!(stream.feed(close), Fed::Whole { frame, taken: 10 });
/// ```
#[derive(Debug)]
pub struct Stream<'a> {
    place: DockStream,
    lent: &'a mut [u8; LONGEST_FRAME],
}

impl<'a> Stream<'a> {
    /// A stream between frames. What stands in the lent bytes is of no account.
    pub fn new(lent: &'a mut [u8; LONGEST_FRAME]) -> Stream<'a> {
        let place = library::start_stream();
        Stream { place, lent }
    }

    /// Takes the bytes of a piece up to the end of a frame. [`frames`](Stream::frames) goes through a whole piece.
    pub fn feed(&mut self, piece: &[u8]) -> Fed<'_> {
        let fed = library::feed(self.place, self.lent, piece);
        self.place = fed.stream;
        match (Kind::from_number(fed.kind), self.fault()) {
            (Some(kind), _) => Fed::Whole {
                frame: Frame {
                    kind,
                    body: self.body(fed.size),
                },
                taken: fed.taken,
            },
            (None, Some(fault)) => Fed::Stopped(fault),
            (None, None) => Fed::NotYet,
        }
    }

    /// All frames of a piece, one after another.
    ///
    /// ```
    /// use element::dock::{Fault, Stream, LONGEST_FRAME};
    ///
    /// let mut lent = [0; LONGEST_FRAME];
    /// let mut stream = Stream::new(&mut lent);
    /// let mut bodies = Vec::new();
    /// let mut frames = stream.frames(b"\x06\x00\x01\x00\x42\x52\x0A\x00\x02\x00\x00\x00\x00\x00\x85\x2E\x0A");
    /// while let Some(frame) = frames.next_frame()? {
    ///     bodies.push((frame.kind.number(), frame.body.to_vec()));
    /// }
    /// assert_eq!(bodies, [(1, vec![]), (2, vec![0; 4])]);
    /// assert_eq!(stream.collected(), 1); // of the next frame
    /// # Ok::<(), Fault>(())
    /// ```
    pub fn frames<'s, 'p>(&'s mut self, piece: &'p [u8]) -> Frames<'s, 'a, 'p> {
        Frames {
            stream: self,
            rest: piece,
        }
    }

    /// Why it has stopped, if it has.
    pub fn fault(&self) -> Option<Fault> {
        Fault::from_number(self.place.stop)
    }

    /// The bytes collected of the frame that is not yet whole; none between frames.
    pub fn collected(&self) -> usize {
        self.place.collected.into()
    }

    /// Begins anew, between frames: also after a stop.
    pub fn reset(&mut self) {
        self.place = library::start_stream();
    }

    fn body(&self, size: u16) -> &[u8] {
        let (_, body) = self.lent.split_at_checked(HEAD).unwrap_or_default();
        body.get(..size.into()).unwrap_or_default()
    }
}

/// The frames of a piece, one after another: [`Stream::frames`]. Each is lent by the stream, so the one before is gone when the next is asked for.
///
/// Where the frames are not all asked for, the stream has not taken [`rest`](Frames::rest).
///
/// ```compile_fail,E0499
/// # use element::dock::{Fault, Stream, LONGEST_FRAME};
/// # let mut lent = [0; LONGEST_FRAME];
/// # let mut stream = Stream::new(&mut lent);
/// let mut frames = stream.frames(b"\x06\x00\x01\x00\x42\x52\x06\x00\x01\x00\x42\x52");
/// let first = frames.next_frame()?;
/// let second = frames.next_frame()?; // the bytes of the first are lent to the second
/// assert_eq!(first, second);
/// # Ok::<(), Fault>(())
/// ```
#[derive(Debug)]
#[must_use]
pub struct Frames<'s, 'a, 'p> {
    stream: &'s mut Stream<'a>,
    rest: &'p [u8],
}

impl<'p> Frames<'_, '_, 'p> {
    /// The next frame that is whole in the piece; none where the piece has no more; or why the stream has stopped.
    pub fn next_frame(&mut self) -> Result<Option<Frame<'_>>, Fault> {
        let piece = core::mem::take(&mut self.rest);
        match self.stream.feed(piece) {
            Fed::Whole { frame, taken } => {
                self.rest = piece.get(taken..).unwrap_or_default();
                Ok(Some(frame))
            }
            Fed::NotYet => Ok(None),
            Fed::Stopped(fault) => Err(fault),
        }
    }

    /// The bytes of the piece that the stream has not taken yet.
    pub fn rest(&self) -> &'p [u8] {
        self.rest
    }
}

/// Why no frame was written; the room is untouched.
///
/// ```
/// use element::dock::WriteError;
///
/// let error = WriteError::RoomTooSmall { size: 5, needed: 6 };
/// assert_eq!(error.to_string(), "2: the room has 5 bytes: expected at least 6");
/// ```
#[derive(Clone, Copy, Debug, PartialEq, Eq, Hash)]
pub enum WriteError {
    /// The body is over [`LONGEST_BODY`] bytes.
    BodyTooLong {
        /// The bytes that it has.
        size: usize,
    },
    /// The room is too small for the frame.
    RoomTooSmall {
        /// The bytes that it has.
        size: usize,
        /// The bytes of the frame.
        needed: usize,
    },
}

impl WriteError {
    /// Its number.
    pub const fn number(self) -> u8 {
        match self {
            WriteError::BodyTooLong { .. } => 1,
            WriteError::RoomTooSmall { .. } => 2,
        }
    }
}

impl fmt::Display for WriteError {
    fn fmt(&self, out: &mut fmt::Formatter<'_>) -> fmt::Result {
        write!(out, "{}: ", self.number())?;
        match self {
            WriteError::BodyTooLong { size } => {
                write!(
                    out,
                    "the body has {size} bytes: expected at most {LONGEST_BODY}"
                )
            }
            WriteError::RoomTooSmall { size, needed } => {
                write!(out, "the room has {size} bytes: expected at least {needed}")
            }
        }
    }
}

impl core::error::Error for WriteError {}

/// Puts the body as a frame of its kind at the front of the room, and gives it. The frame has [`AROUND`] bytes more than the body; the rest of the
/// room stays as it was. A [`Stream`] between frames reads it back.
///
/// ```
/// use element::dock::{write_frame, Kind, WriteError};
///
/// let mut room = [0; 16];
/// let frame = write_frame(Kind::Command, b"123456789", &mut room)?;
/// assert_eq!(frame, b"\x0F\x00\x01\x00123456789\x33\x41");
///
/// let error = write_frame(Kind::Command, b"12345678901", &mut room).unwrap_err();
/// assert_eq!(error, WriteError::RoomTooSmall { size: 16, needed: 17 });
/// # Ok::<(), WriteError>(())
/// ```
pub fn write_frame<'r>(
    kind: Kind,
    body: &[u8],
    room: &'r mut [u8],
) -> Result<&'r [u8], WriteError> {
    let size = body.len();
    let needed = size.saturating_add(AROUND);
    match library::write_frame(kind, body, room) {
        0 => Ok(room.get(..needed).unwrap_or_default()),
        1 => Err(WriteError::BodyTooLong { size }),
        _ => Err(WriteError::RoomTooSmall {
            size: room.len(),
            needed,
        }),
    }
}
