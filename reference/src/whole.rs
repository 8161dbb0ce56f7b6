//! Items, each followed by what must come of it, in one stream of bytes: for a reader
//! that compares bytes by itself. Numbers are most significant byte first.

use std::io::{self, Write};

use crate::dock::{Fed, Lent};
use crate::dock_replay;
use crate::generator::cases::{cases, Case};
use crate::generator::streams::{self, streams};
use crate::replay::{self, session_bytes};

/// The letter after the last item.
const END: u8 = b'E';

/// Writes the cases of a seed, with at least `count` commands, and the end.
pub fn write_cases(seed: u64, count: usize, output: &mut impl Write) -> io::Result<()> {
    let mut whole = Cases::new(output);
    cases(seed, count, &mut |case: Case| whole.take(case.item))?;
    whole.end()
}

/// Writes the dock streams of a seed, with at least `count` pieces, and the end.
pub fn write_streams(seed: u64, count: usize, output: &mut impl Write) -> io::Result<()> {
    let mut whole = Streams::new(output);
    streams(seed, count, &mut |case: streams::Case| {
        whole.take(case.item)
    })?;
    whole.end()
}

/// Writes items of `replay`.
pub struct Cases<W> {
    output: W,
    state: replay::State,
    /// The store before the present item.
    before: Vec<u8>,
    commands: u64,
}

impl<W: Write> Cases<W> {
    pub fn new(output: W) -> Cases<W> {
        Cases {
            output,
            state: replay::State::empty(),
            before: Vec::new(),
            commands: 0,
        }
    }

    /// Writes an item and what must come of it.
    pub fn take(&mut self, item: replay::Item) -> io::Result<()> {
        item.write(&mut self.output)?;
        self.before.clone_from(&self.state.store);
        match self.state.take(item) {
            replay::Came::Store { is_sound } => self.output.write_all(&[u8::from(is_sound)]),
            replay::Came::Command { outcome, room } => self.write_executed(outcome, &room),
            replay::Came::Bytes => self.output.write_all(&self.state.store),
            replay::Came::Factory { outcome, buffer } => {
                self.output.write_all(&[outcome])?;
                self.output.write_all(&buffer)
            }
        }
    }

    /// What came of a command: the store only where it has changed.
    fn write_executed(&mut self, outcome: u8, room: &[u8]) -> io::Result<()> {
        self.commands += 1;
        self.output.write_all(&[outcome])?;
        self.output.write_all(&session_bytes(self.state.session))?;
        self.output.write_all(room)?;
        let is_changed = self.state.store != self.before;
        self.output.write_all(&[u8::from(is_changed)])?;
        match is_changed {
            true => self.output.write_all(&self.state.store),
            false => Ok(()),
        }
    }

    /// Writes the end, with the number of commands.
    pub fn end(mut self) -> io::Result<()> {
        write_end(&mut self.output, self.commands)
    }
}

/// Writes items of `dock_replay`.
pub struct Streams<W> {
    output: W,
    state: dock_replay::State,
    pieces: u64,
}

impl<W: Write> Streams<W> {
    pub fn new(output: W) -> Streams<W> {
        Streams {
            output,
            state: dock_replay::State::new(0),
            pieces: 0,
        }
    }

    /// Writes an item and what must come of it.
    pub fn take(&mut self, item: dock_replay::Item) -> io::Result<()> {
        item.write(&mut self.output)?;
        let is_piece = matches!(item, dock_replay::Item::Piece(_));
        let (mut calls, mut came) = (0, Vec::new());
        self.state.take(item, |what| {
            calls += 1;
            write_came(&mut came, what)
        })?;
        if is_piece {
            self.pieces += 1;
            write_u16(&mut self.output, calls)?;
        }
        self.output.write_all(&came)
    }

    /// Writes the end, with the number of pieces.
    pub fn end(mut self) -> io::Result<()> {
        write_end(&mut self.output, self.pieces)
    }
}

fn write_came(output: &mut impl Write, came: dock_replay::Came) -> io::Result<()> {
    match came {
        dock_replay::Came::New | dock_replay::Came::Held => Ok(()),
        dock_replay::Came::Fed(fed, lent) => write_fed(output, fed, lent),
        dock_replay::Came::Written(number, room) => {
            output.write_all(&[number])?;
            output.write_all(room)
        }
    }
}

/// One call of `feed`: its numbers and all lent bytes after it.
fn write_fed(output: &mut impl Write, fed: Fed, lent: &Lent) -> io::Result<()> {
    let (kind, size) = match fed.frame {
        Some(frame) => (usize::from(frame.kind.number()), frame.size),
        None => (0, 0),
    };
    let collected = usize::from(fed.stream.collected);
    let stop = usize::from(fed.stream.stop);
    for number in [fed.taken, collected, stop, kind, size] {
        write_u16(output, number)?;
    }
    output.write_all(lent)
}

/// A number in 2 bytes: none of a piece, of at most 65,535 bytes, is larger.
fn write_u16(output: &mut impl Write, number: usize) -> io::Result<()> {
    output.write_all(&(number as u16).to_be_bytes())
}

fn write_end(output: &mut impl Write, count: u64) -> io::Result<()> {
    let count = u32::try_from(count).map_err(io::Error::other)?;
    output.write_all(&[END])?;
    output.write_all(&count.to_be_bytes())
}
