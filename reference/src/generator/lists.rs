//! Lists of commands in the form that `bench` reads.

use crate::factory::FACTORY_SIZE;
use crate::generator::commands::{right_open, Commands};
use crate::generator::random::Random;
use crate::program::{LONGEST_INPUT, ROOM};
use crate::replay::State;

/// The kinds of lists; the index of a list chooses one in turn.
#[derive(Clone, Copy, Debug, PartialEq, Eq)]
pub enum ListKind {
    Short,
    Long,
    Full,
    Closed,
    EmptyCommands,
    CutLength,
    CutCommand,
    OneTooMany,
    TooLong,
    Empty,
}

impl ListKind {
    pub const ALL: [ListKind; 10] = [
        ListKind::Short,
        ListKind::Long,
        ListKind::Full,
        ListKind::Closed,
        ListKind::EmptyCommands,
        ListKind::CutLength,
        ListKind::CutCommand,
        ListKind::OneTooMany,
        ListKind::TooLong,
        ListKind::Empty,
    ];

    pub fn of_index(index: u64) -> ListKind {
        Self::ALL[(index % Self::ALL.len() as u64) as usize]
    }
}

/// The list of a seed and an index.
pub fn list(seed: u64, index: u64) -> Vec<u8> {
    let mut mixer = Random::new(seed);
    let mut random = Random::new(mixer.number() ^ index);
    match ListKind::of_index(index) {
        ListKind::Short => commands(600, true, &mut random),
        ListKind::Long => {
            let limit = random.between(8_000, LONGEST_INPUT);
            commands(limit, true, &mut random)
        }
        ListKind::Full => filled(LONGEST_INPUT, &mut random),
        ListKind::Closed => commands(400, false, &mut random),
        ListKind::EmptyCommands => {
            let mut list = commands(200, true, &mut random);
            list.extend_from_slice(&[0; 6]);
            list
        }
        ListKind::CutLength => {
            let mut list = commands(1_000, true, &mut random);
            list.push(random.pick(&[0x00, 0x01, 0xFF]));
            list
        }
        ListKind::CutCommand => {
            let mut list = commands(1_000, true, &mut random);
            let present = random.below(30);
            let lacking = random.between(1, 3_000);
            list.extend_from_slice(&((present + lacking) as u16).to_be_bytes());
            list.extend(random.bytes(present));
            list
        }
        ListKind::OneTooMany => filled(LONGEST_INPUT + 1, &mut random),
        ListKind::TooLong => {
            let length = random.between(LONGEST_INPUT + 1, 40_000);
            filled(length, &mut random)
        }
        ListKind::Empty => Vec::new(),
    }
}

/// Commands in at most `limit` bytes, the first of them open if `opened`.
fn commands(limit: usize, opened: bool, random: &mut Random) -> Vec<u8> {
    let mut state = State::empty();
    state.factory(FACTORY_SIZE);
    let mut maker = Commands::new();
    let mut list = Vec::new();
    let mut next = match opened {
        true => right_open(),
        false => maker.make(&state, random).command,
    };
    while list.len() + 2 + next.len() <= limit {
        put_command(&mut list, &next);
        state.execute(&next, &mut [0; ROOM]);
        next = maker.make(&state, random).command;
    }
    list
}

/// Commands of exactly `length` bytes, the last one of random bytes.
fn filled(length: usize, random: &mut Random) -> Vec<u8> {
    let mut list = commands(length - 2, true, random);
    let last = random.bytes(length - 2 - list.len());
    put_command(&mut list, &last);
    list
}

fn put_command(list: &mut Vec<u8>, command: &[u8]) {
    list.extend_from_slice(&(command.len() as u16).to_be_bytes());
    list.extend_from_slice(command);
}
