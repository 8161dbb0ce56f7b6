//! Items with what must come of each: read back, and compared with what the replays
//! print for the same items.

mod common;

use std::process::{Command, Output, Stdio};

use common::{counter_record, factory_of_the_paper, hex, run, OPEN};
use reference::dock::{Kind, Lent, Stream, LONGEST_FRAME};
use reference::dock_replay;
use reference::generator::{cases, streams};
use reference::replay::{self, Item};
use reference::text::{adler32, write_hex};
use reference::whole::{self, Cases, Streams};
use reference::{dock_fast, Session};

/// Bytes taken from the front.
struct Reader<'a> {
    all: &'a [u8],
    place: usize,
}

impl<'a> Reader<'a> {
    fn new(all: &'a [u8]) -> Reader<'a> {
        Reader { all, place: 0 }
    }

    fn bytes(&mut self, size: usize) -> Vec<u8> {
        let start = self.place;
        self.place += size;
        self.all[start..self.place].to_vec()
    }

    fn number(&mut self, size: usize) -> usize {
        let digits = self.bytes(size);
        digits
            .iter()
            .fold(0, |number, &byte| 256 * number + usize::from(byte))
    }

    fn byte(&mut self) -> u8 {
        self.number(1) as u8
    }

    /// Bytes behind their count in so many bytes.
    fn counted(&mut self, size: usize) -> Vec<u8> {
        let count = self.number(size);
        self.bytes(count)
    }

    /// The bytes from a place to the present one.
    fn since(&self, start: usize) -> Vec<u8> {
        self.all[start..self.place].to_vec()
    }

    /// The count behind the `E`, after which nothing stands.
    fn end(&mut self) -> usize {
        let count = self.number(4);
        assert_eq!(self.place, self.all.len());
        count
    }
}

fn hex_text(bytes: &[u8]) -> String {
    let mut text = Vec::new();
    write_hex(&mut text, bytes).unwrap();
    String::from_utf8(text).unwrap()
}

fn lines(output: Vec<u8>) -> Vec<String> {
    let text = String::from_utf8(output).unwrap();
    text.lines().map(str::to_string).collect()
}

/// What must come of a command.
#[derive(Clone, Debug, PartialEq, Eq)]
struct Executed {
    /// As the item has it.
    room_before: Vec<u8>,
    outcome: u8,
    session: Vec<u8>,
    room: Vec<u8>,
    /// The store, if it has changed.
    changed: Option<Vec<u8>>,
}

/// What must come of an item of `replay`.
#[derive(Clone, Debug, PartialEq, Eq)]
enum Due {
    /// With the store that the item has.
    Store {
        store: Vec<u8>,
        accepted: u8,
    },
    Command(Executed),
    Factory {
        outcome: u8,
        buffer: Vec<u8>,
    },
    Bytes {
        store: Vec<u8>,
    },
}

#[derive(Clone, Debug, PartialEq, Eq)]
struct Read {
    item: Vec<u8>,
    due: Due,
}

/// All items, and the count at the end.
fn read_cases(stream: &[u8]) -> (Vec<Read>, usize) {
    let mut reader = Reader::new(stream);
    let mut read = Vec::new();
    // The size of the present store.
    let mut size = 0;
    loop {
        let start = reader.place;
        let (item, due) = match reader.byte() {
            b'S' => read_store(&mut reader, start, &mut size),
            b'C' => read_command(&mut reader, start, size),
            b'F' => read_factory(&mut reader, start, &mut size),
            b'B' => {
                let item = reader.since(start);
                let store = reader.bytes(size);
                (item, Due::Bytes { store })
            }
            b'E' => return (read, reader.end()),
            letter => panic!("{letter} at {start}"),
        };
        read.push(Read { item, due });
    }
}

fn read_store(reader: &mut Reader, start: usize, size: &mut usize) -> (Vec<u8>, Due) {
    let store = reader.counted(4);
    *size = store.len();
    reader.bytes(4);
    let item = reader.since(start);
    let accepted = reader.byte();
    (item, Due::Store { store, accepted })
}

fn read_command(reader: &mut Reader, start: usize, size: usize) -> (Vec<u8>, Due) {
    let room_before = reader.counted(2);
    reader.counted(2);
    let item = reader.since(start);
    let due = Executed {
        outcome: reader.byte(),
        session: reader.bytes(4),
        room: reader.bytes(room_before.len()),
        room_before,
        changed: match reader.byte() {
            0 => None,
            1 => Some(reader.bytes(size)),
            flag => panic!("{flag} as a flag"),
        },
    };
    (item, Due::Command(due))
}

fn read_factory(reader: &mut Reader, start: usize, size: &mut usize) -> (Vec<u8>, Due) {
    let length = reader.number(4);
    let item = reader.since(start);
    let outcome = reader.byte();
    if outcome == 0 {
        *size = length;
    }
    let buffer = reader.bytes(length);
    (item, Due::Factory { outcome, buffer })
}

impl Due {
    /// The store after the item, from the one before it.
    fn store_after(&self, before: &[u8]) -> Vec<u8> {
        let after = match self {
            Due::Store { store, .. } | Due::Bytes { store } => Some(store),
            Due::Command(executed) => executed.changed.as_ref(),
            Due::Factory { outcome, buffer } => (*outcome == 0).then_some(buffer),
        };
        after.map_or(before.to_vec(), Vec::clone)
    }

    /// The line that `replay` prints if it is so, the store after it being this.
    fn line(&self, store: &[u8]) -> String {
        match self {
            Due::Store { accepted, .. } => format!("S {accepted}"),
            Due::Command(executed) => {
                let session = hex_text(&executed.session);
                let room = hex_text(&executed.room);
                let adler = adler32(store);
                format!("C {} {session} {adler:08X} {room}", executed.outcome)
            }
            Due::Factory { outcome, buffer } => format!("F {outcome} {:08X}", adler32(buffer)),
            Due::Bytes { store } => format!("B {}", hex_text(store)),
        }
    }

    /// Whether a store said to have changed is another one.
    fn has_right_flag(&self, before: &[u8]) -> bool {
        match self {
            Due::Command(executed) => executed.changed.as_deref() != Some(before),
            _ => true,
        }
    }
}

/// The first item whose line, or whole store after it, is another one in `replay`.
fn first_difference(read: &[Read]) -> Option<usize> {
    let mut input = Vec::new();
    for Read { item, .. } in read {
        input.extend(item);
        input.push(b'B');
    }
    let mut output = Vec::new();
    replay::run(&mut &input[..], &mut output).unwrap();
    let lines = lines(output);
    assert_eq!(lines.len(), 2 * read.len());
    let mut before = Vec::new();
    read.iter().zip(lines.chunks(2)).position(|(read, lines)| {
        let store = read.due.store_after(&before);
        let line = read.due.line(&store);
        let bytes = format!("B {}", hex_text(&store));
        let is_right = read.due.has_right_flag(&before) && *lines == [line, bytes];
        before = store;
        !is_right
    })
}

fn whole_cases(seed: u64, count: usize) -> Vec<u8> {
    let mut stream = Vec::new();
    whole::write_cases(seed, count, &mut stream).unwrap();
    stream
}

#[test]
fn cases_are_as_replay_prints_them() {
    for seed in 1..=6 {
        let (read, _) = read_cases(&whole_cases(seed, 3_000));
        assert_eq!(first_difference(&read), None, "seed {seed}");
    }
}

#[test]
fn cases_hold_the_same_items() {
    for seed in [1, 2, 3, 99] {
        let mut expected = Vec::new();
        let mut take = |case: cases::Case| case.item.write(&mut expected);
        cases::cases(seed, 2_000, &mut take).unwrap();
        let (read, count) = read_cases(&whole_cases(seed, 2_000));
        let items: Vec<u8> = read.iter().flat_map(|read| read.item.clone()).collect();
        assert_eq!(items, expected);
        let is_command = |read: &&Read| read.item[0] == b'C';
        assert_eq!(read.iter().filter(is_command).count(), count);
        assert!(count >= 2_000);
    }
}

#[test]
fn fewer_cases_are_the_beginning_of_more() {
    for seed in [1, 2, 77] {
        let many = whole_cases(seed, 2_000);
        assert_eq!(many, whole_cases(seed, 2_000));
        for count in [0, 1, 10, 500, 1_999] {
            let few = whole_cases(seed, count);
            // Without the end.
            let (items, end) = few.split_at(few.len() - 5);
            assert!(many.starts_with(items));
            assert_eq!(end[0], b'E');
        }
        assert_ne!(whole_cases(seed + 1, 100), whole_cases(seed, 100));
    }
}

/// The first command that the change makes another one is the first that differs.
fn assert_found(read: &[Read], change: impl Fn(&mut Executed, &[u8])) {
    let mut spoiled = read.to_vec();
    let mut before = Vec::new();
    for read in &mut spoiled {
        let after = read.due.store_after(&before);
        if let Due::Command(executed) = &mut read.due {
            change(executed, &before);
        }
        before = after;
    }
    let first = spoiled
        .iter()
        .zip(read)
        .position(|(one, other)| one != other);
    assert!(first.is_some());
    assert_eq!(first_difference(&spoiled), first);
}

#[test]
fn a_wrong_stream_is_found() {
    for seed in 1..=3 {
        let (read, _) = read_cases(&whole_cases(seed, 1_000));
        // The flag always 01.
        assert_found(&read, |executed, before| {
            executed.changed.get_or_insert(before.to_vec());
        });
        // The flag always 00.
        assert_found(&read, |executed, _| executed.changed = None);
        // The room as it was before.
        assert_found(&read, |executed, _| {
            executed.room.clone_from(&executed.room_before);
        });
        // The store as it was before.
        assert_found(&read, |executed, before| {
            let changed = executed.changed.take();
            executed.changed = changed.map(|_| before.to_vec());
        });
    }
}

#[test]
fn commands_of_every_kind_come() {
    let (read, _) = read_cases(&whole_cases(4, 5_000));
    let some = |wanted: &dyn Fn(&Executed) -> bool| {
        let is_wanted =
            |read: &&Read| matches!(&read.due, Due::Command(executed) if wanted(executed));
        read.iter().filter(is_wanted).count()
    };
    let is_done = |one: &Executed| one.room.starts_with(&[0]) && one.outcome == 0;
    let is_refused = |one: &Executed| one.room.starts_with(&[0xFF, 0, 0, 0]) && one.outcome == 0;
    assert!(some(&|one| is_done(one) && one.changed.is_some()) > 100);
    assert!(some(&|one| is_done(one) && one.changed.is_none()) > 100);
    assert!(some(&is_refused) > 100);
    assert_eq!(some(&|one| is_refused(one) && one.changed.is_some()), 0);
    // No response.
    assert!(some(&|one| one.outcome == 1 && one.room == one.room_before) > 10);
    assert_eq!(some(&|one| one.outcome == 1 && one.changed.is_some()), 0);
    for (letter, least) in [(b'S', 100), (b'F', 10), (b'B', 10)] {
        let count = read.iter().filter(|read| read.item[0] == letter).count();
        assert!(count >= least, "{letter}: {count}");
    }
}

fn whole_of(items: &[Item]) -> Vec<u8> {
    let mut stream = Vec::new();
    let mut whole = Cases::new(&mut stream);
    for item in items {
        whole.take(item.clone()).unwrap();
    }
    whole.end().unwrap();
    stream
}

fn command(room: &str, command: &str) -> Item {
    Item::Command {
        room: hex(room),
        command: hex(command),
    }
}

const FACTORY: Item = Item::Factory { length: 6_024 };

#[test]
fn p1_by_hand() {
    let stream = whole_of(&[FACTORY, command("A5A5A5A5A5A5", OPEN)]);
    let mut expected = hex("46 00001788 00");
    expected.extend(factory_of_the_paper());
    expected.extend(hex("43 0006 A5A5A5A5A5A5 0014"));
    expected.extend(hex(OPEN));
    expected.extend(hex("00 01010100 00000000A5A5 00 45 00000001"));
    assert_eq!(stream, expected);
}

#[test]
fn writes_by_hand() {
    let p3 = "02 00 00 0C F1 D0 00 09 01 02 03 04 05 06 07 08";
    // At 133, as P6.
    let p6 = "02 00 00 0C F1 D0 00 85 01 02 03 04 05 06 07 08";
    let items = [
        FACTORY,
        command("EEEEEEEE", OPEN),
        command("EEEEEEEE77", p3),
        command("EEEEEEEE", p3),
        command("EEEEEEEE77", p6),
        Item::Bytes,
    ];
    let mut store = factory_of_the_paper();
    let mut expected = [hex("46 00001788 00"), store.clone()].concat();
    expected.extend(hex("43 0004 EEEEEEEE 0014"));
    expected.extend(hex(OPEN));
    expected.extend(hex("00 01010100 00000000 00"));
    // Used is 17, the bytes stand at 9 of the data.
    store[8] = 0x11;
    store[96 + 9..96 + 17].copy_from_slice(&[1, 2, 3, 4, 5, 6, 7, 8]);
    expected.extend([hex("43 0005 EEEEEEEE77 0010"), hex(p3)].concat());
    expected.extend(hex("00 01010100 0000000077 01"));
    expected.extend(&store);
    // The same once more is done and changes nothing.
    expected.extend([hex("43 0004 EEEEEEEE 0010"), hex(p3)].concat());
    expected.extend(hex("00 01010100 00000000 00"));
    expected.extend([hex("43 0005 EEEEEEEE77 0010"), hex(p6)].concat());
    expected.extend(hex("00 01010108 FF00000077 00 42"));
    expected.extend(&store);
    expected.extend(hex("45 00000004"));
    assert_eq!(whole_of(&items), expected);
}

/// An item with this store and an open session, last error 55.
fn store_item(store: &[u8]) -> Item {
    Item::Store {
        store: store.to_vec(),
        session: Session {
            opened: true,
            lcsg: 0x07,
            lcsa: 0x03,
            error: 0x55,
        },
    }
}

#[test]
fn stores_by_hand() {
    let before = counter_record(2, 0x1234, 7, 100);
    let after = counter_record(2, 0x1234, 12, 100);
    let items = [
        Item::Bytes,
        command("EEEEEEEE", OPEN),
        store_item(&[0x99]),
        store_item(&before),
        command("EEEEEEEE", "02 02 00 05 12 34 00 00 05"),
        Item::Factory { length: 3 },
        Item::Bytes,
    ];
    let mut expected = hex("42 43 0004 EEEEEEEE 0014");
    expected.extend(hex(OPEN));
    // No store is malformed: 06.
    expected.extend(hex("00 00010106 FF000000 00"));
    expected.extend(hex("53 00000001 99 01070355 00"));
    expected.extend([hex("53 00000068"), before, hex("01070355 01")].concat());
    expected.extend(hex("43 0004 EEEEEEEE 0009 020200051234000005"));
    expected.extend(hex("00 01070355 00000000 01"));
    expected.extend(&after);
    // The store stays.
    expected.extend(hex("46 00000003 02 EEEEEE 42"));
    expected.extend(&after);
    expected.extend(hex("45 00000002"));
    assert_eq!(whole_of(&items), expected);
}

#[test]
fn a_flush_by_hand() {
    let store = counter_record(4, 0x1234, 7, 0);
    let read_error = "81 00 00 06 F1 C2 00 00 00 01";
    let items = [
        store_item(&store),
        command("EEEEEE", read_error),
        command("EEEEEEEEEEEE", read_error),
    ];
    let mut expected = [hex("53 00000068"), store, hex("01070355 01")].concat();
    // No room for a response: nothing changes.
    expected.extend([hex("43 0003 EEEEEE 000A"), hex(read_error)].concat());
    expected.extend(hex("01 01070355 EEEEEE 00"));
    // The session changes, the store does not.
    expected.extend([hex("43 0006 EEEEEEEEEEEE 000A"), hex(read_error)].concat());
    expected.extend(hex("00 01070300 0000000100EE 00"));
    expected.extend(hex("45 00000002"));
    assert_eq!(whole_of(&items), expected);
}

#[test]
fn nothing_by_hand() {
    assert_eq!(whole_of(&[]), hex("45 00000000"));
    let mut stream = Vec::new();
    Streams::new(&mut stream).end().unwrap();
    assert_eq!(stream, hex("45 00000000"));
}

/// One call of `feed`.
#[derive(Clone, Debug, PartialEq, Eq)]
struct Call {
    taken: usize,
    collected: usize,
    stop: usize,
    kind: usize,
    size: usize,
    lent: Vec<u8>,
}

/// What must come of an item of `dock_replay`.
#[derive(Clone, Debug, PartialEq, Eq)]
enum DockDue {
    Nothing,
    Calls(Vec<Call>),
    Written { number: u8, room: Vec<u8> },
}

#[derive(Clone, Debug, PartialEq, Eq)]
struct DockRead {
    item: Vec<u8>,
    due: DockDue,
}

fn read_call(reader: &mut Reader) -> Call {
    Call {
        taken: reader.number(2),
        collected: reader.number(2),
        stop: reader.number(2),
        kind: reader.number(2),
        size: reader.number(2),
        lent: reader.bytes(LONGEST_FRAME),
    }
}

/// All items, and the count at the end.
fn read_streams(stream: &[u8]) -> (Vec<DockRead>, usize) {
    let mut reader = Reader::new(stream);
    let mut read = Vec::new();
    loop {
        let start = reader.place;
        let letter = reader.byte();
        let room = match letter {
            b'N' => reader.bytes(1),
            b'H' => reader.bytes(4 + 1_563),
            b'P' => reader.counted(2),
            b'W' => {
                reader.byte();
                let room = reader.counted(2);
                reader.counted(2);
                room
            }
            b'E' => return (read, reader.end()),
            letter => panic!("{letter} at {start}"),
        };
        let item = reader.since(start);
        let due = match letter {
            b'P' => {
                let calls = reader.number(2);
                DockDue::Calls((0..calls).map(|_| read_call(&mut reader)).collect())
            }
            b'W' => DockDue::Written {
                number: reader.byte(),
                room: reader.bytes(room.len()),
            },
            _ => DockDue::Nothing,
        };
        read.push(DockRead { item, due });
    }
}

impl Call {
    fn line(&self) -> String {
        let Call {
            taken,
            collected,
            stop,
            kind,
            size,
            ref lent,
        } = *self;
        let body = hex_text(&lent[4..4 + size]);
        let adler = adler32(lent);
        format!("P {taken} {collected} {stop} {kind} {size} {adler:08X} {body}")
    }
}

impl DockRead {
    /// The lines that `dock_replay` prints if it is so.
    fn lines(&self) -> Vec<String> {
        match &self.due {
            DockDue::Nothing => vec![char::from(self.item[0]).to_string()],
            DockDue::Calls(calls) => calls.iter().map(Call::line).collect(),
            DockDue::Written { number, room } => vec![format!("W {number} {}", hex_text(room))],
        }
    }
}

fn whole_streams(seed: u64, count: usize) -> Vec<u8> {
    let mut stream = Vec::new();
    whole::write_streams(seed, count, &mut stream).unwrap();
    stream
}

#[test]
fn streams_are_as_dock_replay_prints_them() {
    for seed in 1..=6 {
        let (read, count) = read_streams(&whole_streams(seed, 5_000));
        let items: Vec<u8> = read.iter().flat_map(|read| read.item.clone()).collect();
        let mut expected = Vec::new();
        let mut take = |case: streams::Case| case.item.write(&mut expected);
        streams::streams(seed, 5_000, &mut take).unwrap();
        assert_eq!(items, expected);
        let mut output = Vec::new();
        dock_replay::run(&mut &items[..], &mut output).unwrap();
        let written: Vec<String> = read.iter().flat_map(DockRead::lines).collect();
        assert_eq!(written, lines(output), "seed {seed}");
        let is_piece = |read: &&DockRead| read.item[0] == b'P';
        assert_eq!(read.iter().filter(is_piece).count(), count);
        assert!(count >= 5_000);
    }
}

/// The calls for a piece, by the fast form.
fn fast_calls(stream: &mut Stream, lent: &mut Lent, piece: &[u8]) -> Vec<Call> {
    let mut calls = Vec::new();
    let mut rest = piece;
    loop {
        let fed = dock_fast::feed(*stream, lent, rest);
        *stream = fed.stream;
        rest = &rest[fed.taken..];
        let frame = fed.frame;
        calls.push(Call {
            taken: fed.taken,
            collected: usize::from(stream.collected),
            stop: usize::from(stream.stop),
            kind: frame.map_or(0, |frame| usize::from(frame.kind.number())),
            size: frame.map_or(0, |frame| frame.size),
            lent: lent.to_vec(),
        });
        if rest.is_empty() {
            return calls;
        }
    }
}

#[test]
fn all_lent_bytes_are_those_of_the_fast_form() {
    for seed in 1..=6 {
        let (read, _) = read_streams(&whole_streams(seed, 5_000));
        let (mut stream, mut lent) = (Stream::BETWEEN_FRAMES, [0; LONGEST_FRAME]);
        for DockRead { item, due } in read {
            let number_at = |place| u16::from_be_bytes([item[place], item[place + 1]]);
            match item[0] {
                b'N' => {
                    stream = Stream::BETWEEN_FRAMES;
                    lent = [item[1]; LONGEST_FRAME];
                }
                b'H' => {
                    let (collected, stop) = (number_at(1), number_at(3));
                    stream = Stream { collected, stop };
                    lent.copy_from_slice(&item[5..]);
                }
                b'P' => {
                    let calls = fast_calls(&mut stream, &mut lent, &item[3..]);
                    assert_eq!(due, DockDue::Calls(calls));
                }
                _ => {}
            }
        }
    }
}

#[test]
fn fewer_streams_are_the_beginning_of_more() {
    for seed in [1, 2, 77] {
        let many = whole_streams(seed, 2_000);
        assert_eq!(many, whole_streams(seed, 2_000));
        for count in [0, 1, 10, 500, 1_999] {
            let few = whole_streams(seed, count);
            // Without the end.
            let (items, end) = few.split_at(few.len() - 5);
            assert!(many.starts_with(items));
            assert_eq!(end[0], b'E');
        }
        assert_ne!(whole_streams(seed + 1, 100), whole_streams(seed, 100));
    }
}

fn whole_streams_of(items: &[dock_replay::Item]) -> Vec<u8> {
    let mut stream = Vec::new();
    let mut whole = Streams::new(&mut stream);
    for item in items {
        whole.take(item.clone()).unwrap();
    }
    whole.end().unwrap();
    stream
}

/// All lent bytes, with these at the front.
fn lent(front: &str, fill: u8) -> Vec<u8> {
    let mut bytes = hex(front);
    bytes.resize(LONGEST_FRAME, fill);
    bytes
}

fn piece(text: &str) -> dock_replay::Item {
    dock_replay::Item::Piece(hex(text))
}

/// The check of 07 00 01 00 AA is 6050, by another program for CRC-16/KERMIT.
#[test]
fn pieces_by_hand() {
    let items = [
        piece(""),
        dock_replay::Item::New { fill: 0xEE },
        piece("070001"),
        piece(""),
        piece("00AA50600500"),
        piece("0600"),
    ];
    let mut expected = hex("50 0000 0001 0000 0000 0000 0000 0000");
    expected.extend(lent("", 0));
    expected.extend(hex("4E EE 50 0003 070001 0001 0003 0003 0000 0000 0000"));
    expected.extend(lent("070001", 0xEE));
    expected.extend(hex("50 0000 0001 0000 0003 0000 0000 0000"));
    expected.extend(lent("070001", 0xEE));
    expected.extend(hex("50 0006 00AA50600500 0002"));
    expected.extend(hex("0004 0000 0000 0001 0001"));
    expected.extend(lent("07000100AA5060", 0xEE));
    // A length of 5 stops the stream with 1.
    expected.extend(hex("0002 0000 0001 0000 0000"));
    expected.extend(lent("05000100AA5060", 0xEE));
    expected.extend(hex("50 0002 0600 0001 0002 0000 0001 0000 0000"));
    expected.extend(lent("05000100AA5060", 0xEE));
    expected.extend(hex("45 00000005"));
    assert_eq!(whole_streams_of(&items), expected);
}

/// The check of 06 00 01 00 is 5242, by the same program.
#[test]
fn a_held_value_by_hand() {
    let mut held = Box::new([0x77; LONGEST_FRAME]);
    held[..5].copy_from_slice(&hex("0600010042"));
    let stream = Stream {
        collected: 5,
        stop: 0,
    };
    let item = dock_replay::Item::Held {
        stream,
        lent: held.clone(),
    };
    let mut expected = hex("48 0005 0000");
    expected.extend(&held[..]);
    // A whole frame with no body.
    expected.extend(hex("50 0001 52 0001 0001 0000 0000 0001 0000"));
    expected.extend(lent("060001004252", 0x77));
    expected.extend(hex("45 00000001"));
    assert_eq!(whole_streams_of(&[item, piece("52")]), expected);
}

#[test]
fn frames_written_by_hand() {
    let write = |kind, room: &str, body: Vec<u8>| dock_replay::Item::Write {
        kind,
        room: hex(room),
        body,
    };
    let items = [
        write(Kind::Command, "A5A5A5A5A5A5A5A5", vec![0xAA]),
        write(Kind::Response, "A5A5A5A5A5A5", vec![0xAA]),
        write(Kind::Response, "A5", vec![0; 1_558]),
    ];
    let mut expected = hex("57 01 0008 A5A5A5A5A5A5A5A5 0001 AA 00 07000100AA5060A5");
    expected.extend(hex("57 02 0006 A5A5A5A5A5A5 0001 AA 02 A5A5A5A5A5A5"));
    expected.extend(hex("57 02 0001 A5 0616"));
    expected.extend([0; 1_558]);
    expected.extend(hex("01 A5 45 00000000"));
    assert_eq!(whole_streams_of(&items), expected);
}

fn generate(arguments: &[&str]) -> Output {
    run(env!("CARGO_BIN_EXE_generate"), arguments, &[])
}

#[test]
fn the_programs_write_the_same() {
    let output = generate(&["whole", "5", "300"]);
    assert!(output.status.success() && output.stderr.is_empty());
    let (read, _) = read_cases(&output.stdout);
    let items: Vec<u8> = read.iter().flat_map(|read| read.item.clone()).collect();
    assert_eq!(items, generate(&["cases", "5", "300"]).stdout);
    assert_eq!(output.stdout, whole_cases(5, 300));

    let output = generate(&["whole-streams", "5", "300"]);
    assert!(output.status.success() && output.stderr.is_empty());
    let (read, _) = read_streams(&output.stdout);
    let items: Vec<u8> = read.iter().flat_map(|read| read.item.clone()).collect();
    assert_eq!(items, generate(&["streams", "5", "300"]).stdout);
    assert_eq!(output.stdout, whole_streams(5, 300));
}

#[test]
fn bad_arguments() {
    let usage = generate(&[]).stderr;
    let text = String::from_utf8(usage.clone()).unwrap();
    for mode in ["whole", "whole-streams"] {
        assert!(text.contains(&format!("generate {mode} SEED COUNT\n")));
        for bad in [
            &[mode][..],
            &[mode, "1"],
            &[mode, "x", "1"],
            &[mode, "1", "-1"],
            &[mode, "1", "1", "1"],
        ] {
            let output = generate(bad);
            assert_eq!(output.status.code(), Some(2));
            assert_eq!(output.stderr, usage);
            assert!(output.stdout.is_empty());
        }
    }
}

/// Runs it with an output that nobody reads.
fn generate_unread(mode: &str) -> Output {
    let mut child = Command::new(env!("CARGO_BIN_EXE_generate"))
        .args([mode, "1", "20000"])
        .stdout(Stdio::piped())
        .stderr(Stdio::piped())
        .spawn()
        .unwrap();
    drop(child.stdout.take());
    child.wait_with_output().unwrap()
}

#[test]
fn a_broken_pipe() {
    for (mode, other) in [("whole", "cases"), ("whole-streams", "streams")] {
        let (output, other) = (generate_unread(mode), generate_unread(other));
        assert_eq!(output.status.code(), Some(1));
        assert!(output.stderr.starts_with(b"generate: "));
        assert_eq!(output.status, other.status);
        assert_eq!(output.stderr, other.stderr);
    }
}
