//! An element with a store and a session, and a way to run programs, for tests.
#![allow(dead_code)]

use std::io::Write;
use std::process::{Command, Output, Stdio};
use std::thread;

use reference::factory::FACTORY_SIZE;
use reference::store::{find, Slot, DATA, LCSO, USED};
use reference::{execute, fresh_session, make_factory_store, Session};

pub const REFUSED: [u8; 4] = [0xFF, 0, 0, 0];
pub const DONE: [u8; 4] = [0, 0, 0, 0];
pub const OPEN: &str = "70 00 00 10 D2 76 00 00 04 47 65 6E 41 75 74 68 41 70 70 6C";

/// The bytes of hex digits, spaces aside.
pub fn hex(text: &str) -> Vec<u8> {
    let digits: Vec<u8> = text
        .chars()
        .filter(|digit| !digit.is_whitespace())
        .map(|digit| digit.to_digit(16).unwrap() as u8)
        .collect();
    assert_eq!(digits.len() % 2, 0);
    digits
        .chunks(2)
        .map(|pair| pair[0] << 4 | pair[1])
        .collect()
}

/// Runs a program with this input.
pub fn run(program: &str, arguments: &[&str], input: &[u8]) -> Output {
    let mut child = Command::new(program)
        .args(arguments)
        .stdin(Stdio::piped())
        .stdout(Stdio::piped())
        .stderr(Stdio::piped())
        .spawn()
        .unwrap();
    let mut stdin = child.stdin.take().unwrap();
    // Written while the output is read, so that neither waits for the other.
    thread::scope(|scope| {
        scope.spawn(move || {
            // A program may end before it has read all.
            let _ = stdin.write_all(input);
        });
        child.wait_with_output().unwrap()
    })
}

pub fn factory_store() -> Vec<u8> {
    let mut store = vec![0xEE; FACTORY_SIZE];
    assert_eq!(make_factory_store(&mut store), 0);
    store
}

/// The factory store, put together by document 01.
pub fn factory_of_the_paper() -> Vec<u8> {
    let mut store = Vec::new();
    let numbers = (0xF1D0..=0xF1DB).chain(0xF1E0..=0xF1E1u16);
    for number in numbers {
        let maximum: u16 = if number < 0xF1E0 { 140 } else { 1_500 };
        let start = store.len();
        store.extend_from_slice(&(96 + maximum).to_le_bytes());
        store.extend_from_slice(&[0x01, 0x00]);
        store.extend_from_slice(&number.to_le_bytes());
        store.extend_from_slice(&maximum.to_le_bytes());
        store.extend_from_slice(&[0, 0, 1, 0]);
        store.extend_from_slice(&[3, 0xE1, 0xFC, 0x07]);
        store.resize(start + 12 + 28, 0);
        store.push(1);
        store.resize(start + 12 + 56, 0);
        store.push(1);
        store.resize(start + 96 + usize::from(maximum), 0);
    }
    store
}

/// The record of a counter with always in each slot: kind 2 counts up, kind 4 down.
pub fn counter_record(kind: u8, object: u16, value: u32, threshold: u32) -> Vec<u8> {
    let mut bytes = vec![104, 0, kind, 0];
    bytes.extend_from_slice(&object.to_le_bytes());
    bytes.extend_from_slice(&[8, 0, 8, 0, 1, 0]);
    for _ in 0..3 {
        let start = bytes.len();
        bytes.push(1);
        bytes.resize(start + 28, 0);
    }
    bytes.extend_from_slice(&value.to_be_bytes());
    bytes.extend_from_slice(&threshold.to_be_bytes());
    bytes
}

/// The bytes of a fare.
pub fn fare(number: u32, body: &[u8]) -> Vec<u8> {
    let mut bytes = (8 + body.len() as u16).to_le_bytes().to_vec();
    bytes.extend_from_slice(&[1, 0]);
    bytes.extend_from_slice(&number.to_le_bytes());
    bytes.extend_from_slice(body);
    bytes
}

/// The used bytes of a queue: the next number, then the fares.
pub fn queue_data(next: u32, fares: &[Vec<u8>]) -> Vec<u8> {
    [&next.to_le_bytes()[..], &fares.concat()].concat()
}

/// The record of a queue with always in each slot and these used bytes.
pub fn queue_record(object: u16, maximum: u16, used: &[u8]) -> Vec<u8> {
    let mut bytes = Vec::new();
    for number in [96 + maximum, 3, object, maximum, used.len() as u16] {
        bytes.extend_from_slice(&number.to_le_bytes());
    }
    bytes.extend_from_slice(&[1, 0]);
    for _ in 0..3 {
        let start = bytes.len();
        bytes.push(1);
        bytes.resize(start + 28, 0);
    }
    bytes.extend_from_slice(used);
    bytes.resize(96 + usize::from(maximum), 0);
    bytes
}

#[derive(Clone, Debug, PartialEq, Eq)]
pub struct Element {
    pub store: Vec<u8>,
    pub session: Session,
}

impl Element {
    pub fn fresh() -> Element {
        Element {
            store: factory_store(),
            session: fresh_session(),
        }
    }

    pub fn opened() -> Element {
        let mut element = Element::fresh();
        element.session.opened = true;
        element
    }

    /// The opened factory store with these records before its own.
    pub fn with_records(records: &[Vec<u8>]) -> Element {
        let mut element = Element::opened();
        element.store.splice(0..0, records.concat());
        element
    }

    /// Outcome and room after a command with this room.
    pub fn send_in(&mut self, command: &[u8], room: &mut [u8]) -> u8 {
        let answer = execute(command, &mut self.store, self.session, room);
        self.session = answer.session;
        answer.outcome
    }

    /// The response to a command; the room after it keeps its bytes.
    pub fn send(&mut self, command: &[u8]) -> Vec<u8> {
        let mut room = vec![0xA5; 1_504];
        assert_eq!(self.send_in(command, &mut room), 0);
        let length = 4 + usize::from(u16::from_be_bytes([room[2], room[3]]));
        assert!(room[length..].iter().all(|&byte| byte == 0xA5));
        assert_eq!(room[1], 0);
        room.truncate(length);
        room
    }

    pub fn send_hex(&mut self, command: &str) -> Vec<u8> {
        self.send(&hex(command))
    }

    /// Sends a command that must be done, and gives its OutData.
    pub fn done(&mut self, command: &str) -> Vec<u8> {
        let response = self.send_hex(command);
        assert_eq!(response[0], 0, "{command} is refused");
        response[4..].to_vec()
    }

    /// The code by which a command is refused, the store unchanged; 0 if it is done.
    pub fn code(&mut self, command: &[u8]) -> u8 {
        self.code_in(command, 1_504)
    }

    pub fn code_hex(&mut self, command: &str) -> u8 {
        self.code(&hex(command))
    }

    /// As `code`, in a room of the given size.
    pub fn code_in(&mut self, command: &[u8], size: usize) -> u8 {
        let before = self.clone();
        self.session.error = 0;
        let mut room = vec![0xA5; size];
        assert_eq!(self.send_in(command, &mut room), 0);
        if room[0] == 0 {
            return 0;
        }
        assert_eq!(room[..4], REFUSED);
        assert!(room[4..].iter().all(|&byte| byte == 0xA5));
        assert_eq!(self.store, before.store);
        let code = self.session.error;
        assert_ne!(code, 0);
        let mut expected = before.session;
        expected.error = code;
        assert_eq!(self.session, expected);
        self.session.error = before.session.error.max(code);
        code
    }

    fn record(&mut self, object: u16) -> &mut [u8] {
        let place = find(&self.store, reference::kinds::ObjectNumber(object)).unwrap();
        &mut self.store[place]
    }

    pub fn set_lcso(&mut self, object: u16, state: u8) {
        self.record(object)[LCSO] = state;
    }

    pub fn lcso(&mut self, object: u16) -> u8 {
        self.record(object)[LCSO]
    }

    pub fn used(&mut self, object: u16) -> usize {
        let record = self.record(object);
        usize::from(u16::from_le_bytes([record[USED], record[USED + 1]]))
    }

    pub fn set_used(&mut self, object: u16, used: u16) {
        self.record(object)[USED..USED + 2].copy_from_slice(&used.to_le_bytes());
    }

    pub fn data(&mut self, object: u16) -> Vec<u8> {
        self.record(object)[DATA..].to_vec()
    }

    pub fn slot(&mut self, object: u16, slot: Slot) -> Vec<u8> {
        self.record(object)[slot.place()].to_vec()
    }

    pub fn set_expression(&mut self, object: u16, slot: Slot, expression: &[u8]) {
        let bytes = &mut self.record(object)[slot.place()];
        bytes.fill(0);
        bytes[0] = expression.len() as u8;
        bytes[1..1 + expression.len()].copy_from_slice(expression);
    }
}

/// A command whose InLen counts its InData.
pub fn command(cmd: u8, param: u8, in_data: &[u8]) -> Vec<u8> {
    let mut bytes = vec![cmd, param];
    bytes.extend_from_slice(&(in_data.len() as u16).to_be_bytes());
    bytes.extend_from_slice(in_data);
    bytes
}

pub fn get_data(object: u16, offset: u16, length: u16) -> Vec<u8> {
    let mut in_data = object.to_be_bytes().to_vec();
    in_data.extend_from_slice(&offset.to_be_bytes());
    in_data.extend_from_slice(&length.to_be_bytes());
    command(0x01, 0x00, &in_data)
}

pub fn get_metadata(object: u16) -> Vec<u8> {
    command(0x01, 0x01, &object.to_be_bytes())
}

pub fn set(param: u8, object: u16, offset: u16, bytes: &[u8]) -> Vec<u8> {
    let mut in_data = object.to_be_bytes().to_vec();
    in_data.extend_from_slice(&offset.to_be_bytes());
    in_data.extend_from_slice(bytes);
    command(0x02, param, &in_data)
}

pub fn write(object: u16, offset: u16, bytes: &[u8]) -> Vec<u8> {
    set(0x00, object, offset, bytes)
}

pub fn erase_and_write(object: u16, offset: u16, bytes: &[u8]) -> Vec<u8> {
    set(0x40, object, offset, bytes)
}

pub fn count(object: u16, offset: u16, step: u8) -> Vec<u8> {
    set(0x02, object, offset, &[step])
}

pub fn append(object: u16, body: &[u8]) -> Vec<u8> {
    let mut in_data = object.to_be_bytes().to_vec();
    in_data.extend_from_slice(body);
    command(0x02, 0x04, &in_data)
}

pub fn acknowledge(object: u16, number: u32) -> Vec<u8> {
    let mut in_data = object.to_be_bytes().to_vec();
    in_data.extend_from_slice(&number.to_be_bytes());
    command(0x02, 0x05, &in_data)
}

/// A metadata write of this content, led by 20 and its length.
pub fn set_metadata(object: u16, content: &[u8]) -> Vec<u8> {
    let mut in_data = object.to_be_bytes().to_vec();
    in_data.extend_from_slice(&[0x20, content.len() as u8]);
    in_data.extend_from_slice(content);
    command(0x02, 0x01, &in_data)
}

/// A chain of conditions that all hold while LcsO is below operational.
pub fn chain(conditions: usize) -> Vec<u8> {
    let mut bytes = vec![0xE1, 0xFC, 0x07];
    for _ in 1..conditions {
        bytes.extend_from_slice(&[0xFD, 0xE1, 0xFC, 0x07]);
    }
    bytes
}
