//! Whole cases: stores, sessions and commands in, what came of each out.

use std::io::{self, ErrorKind, Read, Write};

use crate::engine::execute;
use crate::factory::make_factory_store;
use crate::session::{fresh_session, Session};
use crate::store::check_store;
use crate::text::{adler32, write_hex};

pub const LARGEST_STORE: usize = 20_000;
pub const LARGEST_ROOM: usize = 4_096;
pub const LONGEST_COMMAND: usize = 4_096;

/// The byte of a buffer given to the factory maker.
pub const FACTORY_FILL: u8 = 0xEE;

/// One item of the input.
#[derive(Clone, Debug, PartialEq, Eq)]
pub enum Item {
    Store { store: Vec<u8>, session: Session },
    Command { room: Vec<u8>, command: Vec<u8> },
    Bytes,
    Factory { length: usize },
}

impl Item {
    /// Writes the item in the form that `run` reads.
    pub fn write(&self, output: &mut impl Write) -> io::Result<()> {
        match self {
            Item::Store { store, session } => {
                output.write_all(b"S")?;
                output.write_all(&(store.len() as u32).to_be_bytes())?;
                output.write_all(store)?;
                output.write_all(&session_bytes(*session))
            }
            Item::Command { room, command } => {
                output.write_all(b"C")?;
                output.write_all(&(room.len() as u16).to_be_bytes())?;
                output.write_all(room)?;
                output.write_all(&(command.len() as u16).to_be_bytes())?;
                output.write_all(command)
            }
            Item::Bytes => output.write_all(b"B"),
            Item::Factory { length } => {
                output.write_all(b"F")?;
                output.write_all(&(*length as u32).to_be_bytes())
            }
        }
    }

    /// The next item, none at the end of the input.
    /// An unknown letter, a size too large or an item cut short is an error.
    fn read(input: &mut impl Read) -> io::Result<Option<Item>> {
        let Some(letter) = read_letter(input)? else {
            return Ok(None);
        };
        let item = match letter {
            b'S' => {
                let length = read_number(input, 4)?;
                let store = read_bytes(input, length, LARGEST_STORE)?;
                let session = read_session(input)?;
                Item::Store { store, session }
            }
            b'C' => {
                let length = read_number(input, 2)?;
                let room = read_bytes(input, length, LARGEST_ROOM)?;
                let length = read_number(input, 2)?;
                let command = read_bytes(input, length, LONGEST_COMMAND)?;
                Item::Command { room, command }
            }
            b'B' => Item::Bytes,
            b'F' => {
                let length = read_number(input, 4)?;
                require_at_most(length, LARGEST_STORE)?;
                Item::Factory { length }
            }
            _ => return Err(ErrorKind::InvalidData.into()),
        };
        Ok(Some(item))
    }
}

/// The session as items and answers have it.
pub(crate) fn session_bytes(session: Session) -> [u8; 4] {
    [
        u8::from(session.opened),
        session.lcsg,
        session.lcsa,
        session.error,
    ]
}

pub(crate) fn read_letter(input: &mut impl Read) -> io::Result<Option<u8>> {
    let mut letter = [0];
    match input.read_exact(&mut letter) {
        Ok(()) => Ok(Some(letter[0])),
        Err(error) if error.kind() == ErrorKind::UnexpectedEof => Ok(None),
        Err(error) => Err(error),
    }
}

/// A number of `size` bytes, most significant first.
pub(crate) fn read_number(input: &mut impl Read, size: usize) -> io::Result<usize> {
    let mut bytes = [0; 4];
    input.read_exact(&mut bytes[..size])?;
    let number = bytes[..size]
        .iter()
        .fold(0u32, |number, &byte| number << 8 | u32::from(byte));
    Ok(number as usize)
}

fn require_at_most(length: usize, limit: usize) -> io::Result<()> {
    if length > limit {
        return Err(ErrorKind::InvalidData.into());
    }
    Ok(())
}

pub(crate) fn read_bytes(
    input: &mut impl Read,
    length: usize,
    limit: usize,
) -> io::Result<Vec<u8>> {
    require_at_most(length, limit)?;
    let mut bytes = vec![0; length];
    input.read_exact(&mut bytes)?;
    Ok(bytes)
}

fn read_session(input: &mut impl Read) -> io::Result<Session> {
    let mut bytes = [0; 4];
    input.read_exact(&mut bytes)?;
    let [opened, lcsg, lcsa, error] = bytes;
    Ok(Session {
        opened: opened != 0,
        lcsg,
        lcsa,
        error,
    })
}

/// What came of an item.
#[derive(Clone, Debug, PartialEq, Eq)]
pub enum Came {
    Store {
        is_sound: bool,
    },
    /// With the room after the command.
    Command {
        outcome: u8,
        room: Vec<u8>,
    },
    Bytes,
    /// With the buffer after the factory maker.
    Factory {
        outcome: u8,
        buffer: Vec<u8>,
    },
}

/// The present store and session of a replay.
#[derive(Clone, Debug, PartialEq, Eq)]
pub struct State {
    pub store: Vec<u8>,
    pub session: Session,
}

impl State {
    /// No store and the fresh session.
    pub fn empty() -> State {
        State {
            store: Vec::new(),
            session: fresh_session(),
        }
    }

    /// Executes a command on the present store and session.
    pub fn execute(&mut self, command: &[u8], room: &mut [u8]) -> u8 {
        let answer = execute(command, &mut self.store, self.session, room);
        self.session = answer.session;
        answer.outcome
    }

    /// Runs the factory maker; its store becomes the present one if it makes one.
    /// Gives the outcome and the buffer after it.
    pub fn factory(&mut self, length: usize) -> (u8, Vec<u8>) {
        let mut buffer = vec![FACTORY_FILL; length];
        let outcome = make_factory_store(&mut buffer);
        if outcome == 0 {
            self.store.clone_from(&buffer);
            self.session = fresh_session();
        }
        (outcome, buffer)
    }

    /// Takes one item: the store and session are then those after it.
    pub fn take(&mut self, item: Item) -> Came {
        match item {
            Item::Store { store, session } => {
                *self = State { store, session };
                let is_sound = check_store(&self.store);
                Came::Store { is_sound }
            }
            Item::Command { mut room, command } => {
                let outcome = self.execute(&command, &mut room);
                Came::Command { outcome, room }
            }
            Item::Bytes => Came::Bytes,
            Item::Factory { length } => {
                let (outcome, buffer) = self.factory(length);
                Came::Factory { outcome, buffer }
            }
        }
    }

    /// Prints the line of an item that was just taken.
    fn print(&self, came: &Came, output: &mut impl Write) -> io::Result<()> {
        match came {
            Came::Store { is_sound } => write!(output, "S {}", u8::from(*is_sound))?,
            Came::Command { outcome, room } => {
                write!(output, "C {outcome} ")?;
                write_hex(output, &session_bytes(self.session))?;
                write!(output, " {:08X} ", adler32(&self.store))?;
                write_hex(output, room)?;
            }
            Came::Bytes => {
                output.write_all(b"B ")?;
                write_hex(output, &self.store)?;
            }
            Came::Factory { outcome, buffer } => {
                write!(output, "F {outcome} {:08X}", adler32(buffer))?;
            }
        }
        output.write_all(b"\n")
    }
}

/// Replays all items of the input.
pub fn run(input: &mut impl Read, output: &mut impl Write) -> io::Result<()> {
    let mut state = State::empty();
    loop {
        match Item::read(input) {
            Ok(Some(item)) => {
                let came = state.take(item);
                state.print(&came, output)?;
            }
            Ok(None) => return Ok(()),
            Err(error) if is_bad_input(&error) => return output.write_all(b"bad\n"),
            Err(error) => return Err(error),
        }
    }
}

pub(crate) fn is_bad_input(error: &io::Error) -> bool {
    matches!(
        error.kind(),
        ErrorKind::InvalidData | ErrorKind::UnexpectedEof
    )
}
