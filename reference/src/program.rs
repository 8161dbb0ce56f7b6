//! The program: a list of commands in, a line for each out.

use std::io::{self, Write};

use crate::engine::{execute, HEADER};
use crate::factory::{make_factory_store, FACTORY_SIZE};
use crate::session::fresh_session;
use crate::text::write_hex;

/// The most bytes of input.
pub const LONGEST_INPUT: usize = 16_384;
/// The room of each response.
pub const ROOM: usize = 1_504;

/// Runs a list of commands, each led by its length, from the fresh state.
pub fn run(input: &[u8], output: &mut impl Write) -> io::Result<()> {
    if input.len() > LONGEST_INPUT {
        return output.write_all(b"too long\n");
    }
    let mut store = [0; FACTORY_SIZE];
    make_factory_store(&mut store);
    let mut session = fresh_session();
    let mut rest = input;
    while !rest.is_empty() {
        let Some((command, after)) = split_command(rest) else {
            return output.write_all(b"cut\n");
        };
        let mut room = [0; ROOM];
        let answer = execute(command, &mut store, session, &mut room);
        session = answer.session;
        write!(output, "{} ", answer.outcome)?;
        write_hex(output, response(answer.outcome, &room))?;
        output.write_all(b"\n")?;
        rest = after;
    }
    Ok(())
}

/// The first command and the bytes after it, unless its length or it is cut short.
fn split_command(bytes: &[u8]) -> Option<(&[u8], &[u8])> {
    let [high, low, rest @ ..] = bytes else {
        return None;
    };
    rest.split_at_checked(usize::from(u16::from_be_bytes([*high, *low])))
}

/// The response at the front of a room, empty where none stands.
pub fn response(outcome: u8, room: &[u8]) -> &[u8] {
    if outcome != 0 {
        return &[];
    }
    let out_len = usize::from(u16::from_be_bytes([room[2], room[3]]));
    &room[..HEADER + out_len]
}
