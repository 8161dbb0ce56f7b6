//! Dock streams in, piece by piece, and frames to write: what came of each out.

use std::io::{self, ErrorKind, Read, Write};

use crate::dock::{feed, write_frame, Fed, Kind, Lent, Stream, LONGEST_FRAME};
use crate::replay::{is_bad_input, read_bytes, read_letter, read_number};
use crate::text::{adler32, write_hex};

pub const LARGEST_ROOM: usize = 4_096;
pub const LARGEST_BODY: usize = 4_096;
pub const LARGEST_PIECE: usize = 0xFFFF;

/// One item of the input.
#[derive(Clone, Debug, PartialEq, Eq)]
pub enum Item {
    /// A reset, with all lent bytes set to one.
    New {
        fill: u8,
    },
    /// A value as a host may hold it.
    Held {
        stream: Stream,
        lent: Box<Lent>,
    },
    Piece(Vec<u8>),
    Write {
        kind: Kind,
        room: Vec<u8>,
        body: Vec<u8>,
    },
}

impl Item {
    /// Writes the item in the form that `run` reads.
    pub fn write(&self, output: &mut impl Write) -> io::Result<()> {
        match self {
            Item::New { fill } => output.write_all(&[b'N', *fill]),
            Item::Held { stream, lent } => {
                output.write_all(b"H")?;
                output.write_all(&stream.collected.to_be_bytes())?;
                output.write_all(&stream.stop.to_be_bytes())?;
                output.write_all(&lent[..])
            }
            Item::Piece(piece) => {
                output.write_all(b"P")?;
                write_counted(output, piece)
            }
            Item::Write { kind, room, body } => {
                output.write_all(&[b'W', kind.number() as u8])?;
                write_counted(output, room)?;
                write_counted(output, body)
            }
        }
    }

    /// The next item, none at the end of the input.
    /// An unknown letter or kind, a size too large or an item cut short is an error.
    fn read(input: &mut impl Read) -> io::Result<Option<Item>> {
        let Some(letter) = read_letter(input)? else {
            return Ok(None);
        };
        let item = match letter {
            b'N' => Item::New {
                fill: read_number(input, 1)? as u8,
            },
            b'H' => read_held(input)?,
            b'P' => Item::Piece(read_counted(input, LARGEST_PIECE)?),
            b'W' => {
                let kind = Kind::of(read_number(input, 1)? as u16);
                Item::Write {
                    kind: kind.ok_or(ErrorKind::InvalidData)?,
                    room: read_counted(input, LARGEST_ROOM)?,
                    body: read_counted(input, LARGEST_BODY)?,
                }
            }
            _ => return Err(ErrorKind::InvalidData.into()),
        };
        Ok(Some(item))
    }
}

/// Bytes behind their count in 2 bytes.
fn write_counted(output: &mut impl Write, bytes: &[u8]) -> io::Result<()> {
    output.write_all(&(bytes.len() as u16).to_be_bytes())?;
    output.write_all(bytes)
}

fn read_counted(input: &mut impl Read, limit: usize) -> io::Result<Vec<u8>> {
    let length = read_number(input, 2)?;
    read_bytes(input, length, limit)
}

fn read_held(input: &mut impl Read) -> io::Result<Item> {
    let stream = Stream {
        collected: read_number(input, 2)? as u16,
        stop: read_number(input, 2)? as u16,
    };
    let mut lent = Box::new([0; LONGEST_FRAME]);
    input.read_exact(&mut lent[..])?;
    Ok(Item::Held { stream, lent })
}

/// What came of an item, or of one call of `feed`.
#[derive(Clone, Copy, Debug, PartialEq, Eq)]
pub enum Came<'a> {
    New,
    Held,
    /// With the lent bytes after the call.
    Fed(Fed, &'a Lent),
    /// With the number of the frame writer and the room after it.
    Written(u8, &'a [u8]),
}

/// The present stream of a replay and the bytes lent to it.
#[derive(Clone, Debug, PartialEq, Eq)]
pub struct State {
    pub stream: Stream,
    pub lent: Box<Lent>,
}

impl State {
    /// Between frames, all lent bytes alike.
    pub fn new(fill: u8) -> State {
        State {
            stream: Stream::BETWEEN_FRAMES,
            lent: Box::new([fill; LONGEST_FRAME]),
        }
    }

    /// One call of `feed`.
    pub fn feed(&mut self, piece: &[u8]) -> Fed {
        let fed = feed(self.stream, &mut self.lent, piece);
        self.stream = fed.stream;
        fed
    }

    /// Feeds until all bytes are taken, at least once; `see` gets what came of each call.
    pub fn feed_all<E>(
        &mut self,
        piece: &[u8],
        mut see: impl FnMut(Fed, &Lent) -> Result<(), E>,
    ) -> Result<(), E> {
        let mut rest = piece;
        loop {
            let fed = self.feed(rest);
            see(fed, &self.lent)?;
            rest = &rest[fed.taken..];
            if rest.is_empty() {
                return Ok(());
            }
        }
    }

    /// Takes one item; `see` gets what came of it, of a piece once for each call of `feed`.
    pub fn take<E>(
        &mut self,
        item: Item,
        mut see: impl FnMut(Came) -> Result<(), E>,
    ) -> Result<(), E> {
        match item {
            Item::New { fill } => {
                *self = State::new(fill);
                see(Came::New)
            }
            Item::Held { stream, lent } => {
                *self = State { stream, lent };
                see(Came::Held)
            }
            Item::Piece(piece) => self.feed_all(&piece, |fed, lent| see(Came::Fed(fed, lent))),
            Item::Write {
                kind,
                mut room,
                body,
            } => {
                let number = write_number(kind, &body, &mut room);
                see(Came::Written(number, &room))
            }
        }
    }
}

/// The number that the frame writer answers.
pub fn write_number(kind: Kind, body: &[u8], room: &mut [u8]) -> u8 {
    match write_frame(kind, body, room) {
        Ok(()) => 0,
        Err(refusal) => refusal.number(),
    }
}

/// Prints the line of an item or of one call of `feed`.
fn print(output: &mut impl Write, came: Came) -> io::Result<()> {
    match came {
        Came::New => output.write_all(b"N\n"),
        Came::Held => output.write_all(b"H\n"),
        Came::Fed(fed, lent) => print_fed(output, fed, lent),
        Came::Written(number, room) => {
            write!(output, "W {number} ")?;
            write_hex(output, room)?;
            output.write_all(b"\n")
        }
    }
}

fn print_fed(output: &mut impl Write, fed: Fed, lent: &Lent) -> io::Result<()> {
    let Stream { collected, stop } = fed.stream;
    write!(output, "P {} {collected} {stop} ", fed.taken)?;
    let body = match fed.frame {
        Some(frame) => {
            write!(output, "{} {}", frame.kind.number(), frame.size)?;
            frame.body(lent)
        }
        None => {
            output.write_all(b"0 0")?;
            &[]
        }
    };
    write!(output, " {:08X} ", adler32(lent))?;
    write_hex(output, body)?;
    output.write_all(b"\n")
}

/// Replays all items of the input.
pub fn run(input: &mut impl Read, output: &mut impl Write) -> io::Result<()> {
    let mut state = State::new(0);
    loop {
        match Item::read(input) {
            Ok(Some(item)) => state.take(item, |came| print(output, came))?,
            Ok(None) => return Ok(()),
            Err(error) if is_bad_input(&error) => return output.write_all(b"bad\n"),
            Err(error) => return Err(error),
        }
    }
}
