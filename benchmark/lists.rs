//! Lists of commands of every kind, aimed at a beginning.

use reference::counter::{self, Counter};
use reference::engine::{FLUSH, IDENTIFIER};
use reference::generator::random::Random;

use crate::queues::{Queue, FARE_HEAD, HEAD, LONGEST_BODY};
use crate::sides::{Reference, Side};
use crate::stores::{Beginning, Object, ALWAYS, HALF_FULL, LARGEST};

pub const COMMANDS: usize = 10_000;
pub const ROOM: usize = LARGEST + 4;

/// Commands with the sizes of their rooms.
pub type List = Vec<(Vec<u8>, usize)>;

/// The kinds of commands: the rows of the command table, then the refusals by their codes.
#[derive(Clone, Copy, Debug, PartialEq, Eq)]
pub enum Kind {
    Get(usize, usize),
    GetShortened,
    GetQueue,
    GetSession,
    GetMetadata,
    Write(u8, usize, usize),
    WriteState,
    WriteCounter(u8),
    Count,
    Append(usize, usize),
    Acknowledge,
    SetState,
    SetAll,
    Open,
    CloseOpen,
    NoRoom,
    BadStore,
    BadSession,
    BadFrame,
    UnknownCmd,
    Closed,
    UnknownParam,
    BadLength,
    OtherIdentifier,
    NoObject,
    Denied,
    DeniedSession,
    WriteQueue,
    CountData,
    CountState,
    NoQueue,
    PastUsed,
    PastMaximum,
    PartOfCounter,
    CountAtOffset,
    CountReached,
    AppendPastMaximum,
    AcknowledgeAbsent,
    BadContent,
    BadState,
    SmallRoom,
    AppendEnded,
}

/// A kind with its name, and the code of the refusal that each of its commands gets.
pub struct Row {
    pub name: &'static str,
    pub kind: Kind,
    pub code: Option<u8>,
}

const fn done(name: &'static str, kind: Kind) -> Row {
    let code = None;
    Row { name, kind, code }
}

const fn refusal(name: &'static str, kind: Kind, code: u8) -> Row {
    let code = Some(code);
    Row { name, kind, code }
}

pub const ROWS: [Row; 51] = [
    done("get data, 0 to 16 bytes", Kind::Get(0, 16)),
    done("get data, 17 to 140 bytes", Kind::Get(17, 140)),
    done("get data, 141 to 1,500 bytes", Kind::Get(141, LARGEST)),
    done("get data, length past used", Kind::GetShortened),
    done("get data, queue", Kind::GetQueue),
    done("get data, object of the session", Kind::GetSession),
    done("get metadata", Kind::GetMetadata),
    done("write, 1 to 16 bytes", Kind::Write(0x00, 1, 16)),
    done("write, 17 to 140 bytes", Kind::Write(0x00, 17, 140)),
    done("write, 141 to 1,500 bytes", Kind::Write(0x00, 141, LARGEST)),
    done("write, life cycle", Kind::WriteState),
    done("write, counter", Kind::WriteCounter(0x00)),
    done("erase and write, 1 to 16 bytes", Kind::Write(0x40, 1, 16)),
    done(
        "erase and write, 17 to 140 bytes",
        Kind::Write(0x40, 17, 140),
    ),
    done(
        "erase and write, 141 to 1,500 bytes",
        Kind::Write(0x40, 141, LARGEST),
    ),
    done("erase and write, counter", Kind::WriteCounter(0x40)),
    done("count", Kind::Count),
    done("append, 1 to 16 bytes", Kind::Append(1, 16)),
    done("append, 17 to 200 bytes", Kind::Append(17, LONGEST_BODY)),
    done("acknowledge", Kind::Acknowledge),
    done("set metadata, LcsO", Kind::SetState),
    done("set metadata, LcsO and three expressions", Kind::SetAll),
    done("open", Kind::Open),
    done("close and open by turns", Kind::CloseOpen),
    refusal("06, last byte of the store", Kind::BadStore, 0x06),
    refusal("06, LcsG", Kind::BadSession, 0x06),
    refusal("04, step 3", Kind::BadFrame, 0x04),
    refusal("0A", Kind::UnknownCmd, 0x0A),
    refusal("0C, closed", Kind::Closed, 0x0C),
    refusal("03", Kind::UnknownParam, 0x03),
    refusal("04, step 7", Kind::BadLength, 0x04),
    refusal("05, step 8", Kind::OtherIdentifier, 0x05),
    refusal("01", Kind::NoObject, 0x01),
    refusal("07, stored object", Kind::Denied, 0x07),
    refusal("07, object of the session", Kind::DeniedSession, 0x07),
    refusal("07, write, queue", Kind::WriteQueue, 0x07),
    refusal("03, count, data or queue", Kind::CountData, 0x03),
    refusal("03, count, life cycle", Kind::CountState, 0x03),
    refusal("03, append or acknowledge, no queue", Kind::NoQueue, 0x03),
    refusal("08, get", Kind::PastUsed, 0x08),
    refusal("08, write", Kind::PastMaximum, 0x08),
    refusal("08, write, part of a counter", Kind::PartOfCounter, 0x08),
    refusal("08, count, offset", Kind::CountAtOffset, 0x08),
    refusal("08, count, threshold reached", Kind::CountReached, 0x08),
    refusal("08, append", Kind::AppendPastMaximum, 0x08),
    refusal("05, acknowledge", Kind::AcknowledgeAbsent, 0x05),
    refusal("05, last field of metadata", Kind::BadContent, 0x05),
    refusal("05, life cycle", Kind::BadState, 0x05),
    refusal("0D, get", Kind::SmallRoom, 0x0D),
    refusal("0D, append", Kind::AppendEnded, 0x0D),
    done("outcome 1", Kind::NoRoom),
];

impl Kind {
    /// The beginning as this kind needs it: malformed store, malformed session, closed, a queue that is put back before each command.
    pub fn begin(self, from: &Beginning) -> Beginning {
        let mut begin = from.clone();
        match self {
            Kind::BadStore => {
                let last = begin.store.len() - 1;
                begin.store[last] = 1;
            }
            Kind::BadSession => begin.session.lcsg = 2,
            Kind::Closed => begin.session.opened = false,
            Kind::Append(..) | Kind::Acknowledge => {
                let queue = begin.queues[HALF_FULL];
                begin.queues = vec![queue];
                begin.put_back = queue.record();
            }
            _ => {}
        }
        begin
    }

    /// Whether the beginning has the objects of this kind: the factory store has no counter and no queue.
    pub fn has_objects(self, begin: &Beginning) -> bool {
        match self {
            Kind::WriteCounter(_) | Kind::Count | Kind::PartOfCounter | Kind::CountAtOffset => {
                !begin.counted.is_empty()
            }
            Kind::CountReached => !begin.reached.is_empty(),
            _ => !self.is_of_queue() || !begin.queues.is_empty(),
        }
    }

    /// Whether its commands are aimed at queues.
    fn is_of_queue(self) -> bool {
        matches!(
            self,
            Kind::GetQueue
                | Kind::Append(..)
                | Kind::Acknowledge
                | Kind::WriteQueue
                | Kind::AppendPastMaximum
                | Kind::AcknowledgeAbsent
                | Kind::AppendEnded
        )
    }

    /// Whether a mixed list may hold it: its refusal does not rest on the beginning.
    fn mixes(self) -> bool {
        !matches!(self, Kind::BadStore | Kind::BadSession | Kind::Closed)
    }
}

/// A list of one kind.
pub fn of_kind(kind: Kind, begin: &Beginning, random: &mut Random) -> List {
    let mut list = List::new();
    while list.len() < COMMANDS {
        push(kind, begin, random, &mut list);
    }
    list.truncate(COMMANDS);
    list
}

/// A list of all kinds, chosen evenly; after a close come a refused get and an open.
/// The commands to queues are aimed at the queues as those before leave them.
pub fn mixed(begin: &Beginning, random: &mut Random) -> List {
    let mut kinds: Vec<Kind> = ROWS.iter().map(|row| row.kind).collect();
    kinds.retain(|kind| kind.has_objects(begin));
    let mut now = begin.clone();
    let mut list = List::new();
    while list.len() < COMMANDS {
        let behind = list.len();
        match random.pick(&kinds) {
            Kind::Closed => {
                list.push((framed(0x71, 0x00, &[]), ROOM));
                push(Kind::Get(0, 16), &now, random, &mut list);
                push(Kind::Open, &now, random, &mut list);
            }
            kind if kind.mixes() => push(kind, &now, random, &mut list),
            _ => {}
        }
        follow(&mut now, &list[behind..]);
    }
    list.truncate(COMMANDS);
    list
}

/// The kinds of a day's commands with their weights: rides, whose fares go to a queue, and now and then an upload.
const DAY: [(usize, Kind); 9] = [
    (6, Kind::Get(17, 140)),
    (6, Kind::Count),
    (6, Kind::Append(17, 60)),
    (3, Kind::Acknowledge),
    (2, Kind::GetQueue),
    (1, Kind::GetMetadata),
    (1, Kind::GetSession),
    (1, Kind::Write(0x00, 17, 140)),
    (1, Kind::Open),
];
const DAY_COMMANDS: usize = 2_000;

/// A list of the kinds that a day has, aimed as in a mixed list.
pub fn day(begin: &Beginning, random: &mut Random) -> List {
    let mut now = begin.clone();
    let mut list = List::new();
    while list.len() < DAY_COMMANDS {
        push(random.pick_weighted(&DAY), &now, random, &mut list);
        follow(&mut now, &list[list.len() - 1..]);
    }
    list
}

/// Store and session as these commands leave them.
fn follow(now: &mut Beginning, commands: &[(Vec<u8>, usize)]) {
    let mut room = [0; ROOM];
    for (command, size) in commands {
        Reference::execute(
            command,
            &mut now.store,
            &mut now.session,
            &mut room[..*size],
        );
    }
}

fn framed(cmd: u8, param: u8, in_data: &[u8]) -> Vec<u8> {
    let mut command = vec![cmd, param];
    command.extend_from_slice(&(in_data.len() as u16).to_be_bytes());
    command.extend_from_slice(in_data);
    command
}

fn get(number: u16, offset: usize, length: usize) -> Vec<u8> {
    let numbers = [number, offset as u16, length as u16];
    framed(0x01, 0x00, &numbers.map(u16::to_be_bytes).concat())
}

pub fn get_data(object: Object, length: usize, random: &mut Random) -> Vec<u8> {
    let offset = random.between(0, object.used - length);
    get(object.number, offset, length)
}

fn set(param: u8, number: u16, offset: usize, bytes: &[u8]) -> Vec<u8> {
    let mut in_data = [number, offset as u16].map(u16::to_be_bytes).concat();
    in_data.extend_from_slice(bytes);
    framed(0x02, param, &in_data)
}

pub fn write(param: u8, object: Object, length: usize, random: &mut Random) -> Vec<u8> {
    let offset = random.between(0, object.maximum - length);
    set(param, object.number, offset, &random.bytes(length))
}

fn set_metadata(number: u16, fields: &[(u8, &[u8])]) -> Vec<u8> {
    let mut content = Vec::new();
    for (tag, value) in fields {
        content.extend_from_slice(&[*tag, value.len() as u8]);
        content.extend_from_slice(value);
    }
    let mut in_data = number.to_be_bytes().to_vec();
    in_data.extend_from_slice(&[0x20, content.len() as u8]);
    in_data.extend_from_slice(&content);
    framed(0x02, 0x01, &in_data)
}

fn set_all(number: u16, expression: &[u8], last: &[u8]) -> Vec<u8> {
    set_metadata(
        number,
        &[
            (0xC0, &[0x01]),
            (0xD0, expression),
            (0xD1, ALWAYS),
            (0xD3, last),
        ],
    )
}

/// One of the objects that hold as many bytes.
fn holding(objects: &[Object], length: usize, random: &mut Random) -> Object {
    let mut able = objects.to_vec();
    able.retain(|object| object.maximum >= length);
    random.pick(&able)
}

/// A write to all of a counter that leaves it far from its threshold.
fn write_counter(param: u8, begin: &Beginning, random: &mut Random) -> Vec<u8> {
    let (number, counter) = random.pick(&begin.counted);
    let value = counter.value ^ random.below(0x10000) as u32;
    let data = Counter { value, ..counter }.to_data();
    set(param, number, 0, &data)
}

fn count(number: u16, offset: usize, random: &mut Random) -> Vec<u8> {
    set(0x02, number, offset, &[random.byte()])
}

/// A set that names an object and then brings bytes.
fn set_bytes(param: u8, number: u16, bytes: &[u8]) -> Vec<u8> {
    let mut in_data = number.to_be_bytes().to_vec();
    in_data.extend_from_slice(bytes);
    framed(0x02, param, &in_data)
}

pub fn append(number: u16, length: usize, random: &mut Random) -> Vec<u8> {
    set_bytes(0x04, number, &random.bytes(length))
}

pub fn acknowledge(number: u16, fare: u32) -> Vec<u8> {
    set_bytes(0x05, number, &fare.to_be_bytes())
}

/// One of the queues that are such, or of all where none is.
fn queue_that(is: impl Fn(&Queue) -> bool, begin: &Beginning, random: &mut Random) -> Queue {
    let mut such = begin.queues.to_vec();
    such.retain(is);
    match such.is_empty() {
        true => random.pick(&begin.queues),
        false => random.pick(&such),
    }
}

/// The number of a fare of a queue that has some: most often the first.
fn present(queue: Queue, store: &[u8], random: &mut Random) -> u32 {
    let (first, next) = (queue.first(store), queue.next(store));
    match random.below(4) {
        0 if first < next => first + random.below((next - first) as usize) as u32,
        _ => first,
    }
}

/// A number that no fare of a queue has: of a fare before the first, the next one, a later one.
fn absent(queue: Queue, store: &[u8], random: &mut Random) -> u32 {
    let (first, next) = (queue.first(store), queue.next(store));
    random.pick(&[first.wrapping_sub(1), next, next + 1_000])
}

/// Commands to queues.
fn on_queue(kind: Kind, begin: &Beginning, random: &mut Random) -> Vec<u8> {
    let store = &begin.store;
    let queue = random.pick(&begin.queues);
    match kind {
        Kind::GetQueue => get(queue.number, 0, random.pick(&[HEAD, LARGEST])),
        Kind::Append(low, high) => {
            let length = random.between(low, high);
            let fits = |queue: &Queue| queue.left(store) >= FARE_HEAD + length;
            append(queue_that(fits, begin, random).number, length, random)
        }
        Kind::Acknowledge => {
            let has_fares = |queue: &Queue| queue.first(store) < queue.next(store);
            let queue = queue_that(has_fares, begin, random);
            acknowledge(queue.number, present(queue, store, random))
        }
        Kind::AppendPastMaximum => {
            let is_short = |queue: &Queue| queue.left(store) < FARE_HEAD + LONGEST_BODY;
            let queue = queue_that(is_short, begin, random);
            let least = (queue.left(store) + 1).saturating_sub(FARE_HEAD);
            let length = random.between(least.clamp(1, LONGEST_BODY), LONGEST_BODY);
            append(queue.number, length, random)
        }
        Kind::AcknowledgeAbsent => acknowledge(queue.number, absent(queue, store, random)),
        Kind::AppendEnded => append(random.pick(&begin.ended).number, 1, random),
        _ => set(
            random.pick(&[0x00, 0x40]),
            queue.number,
            0,
            &[random.byte()],
        ),
    }
}

/// An append or an acknowledgement to data, to a counter or to a life cycle object.
fn to_no_queue(begin: &Beginning, random: &mut Random) -> Vec<u8> {
    let mut numbers = vec![0xE0C0, 0xF1C0];
    numbers.extend(begin.written.iter().map(|object| object.number));
    numbers.extend(begin.counted.iter().map(|counter| counter.0));
    let number = random.pick(&numbers);
    match random.below(2) {
        0 => append(number, 1, random),
        _ => acknowledge(number, 0),
    }
}

/// An InData of a wrong size: of a get, an append or an acknowledgement.
fn of_wrong_size(random: &mut Random) -> Vec<u8> {
    match random.below(4) {
        0 => framed(0x01, 0x00, &[0xF1, 0xD0, 0x00]),
        1 => append(0xF1D0, 0, random),
        2 => append(0xF1D0, LONGEST_BODY + 1, random),
        _ => set_bytes(0x05, 0xF1D0, &[0x00; 3]),
    }
}

/// An object whose metadata can be set: one that takes writes, or a queue.
fn settable(begin: &Beginning, random: &mut Random) -> u16 {
    let mut numbers: Vec<u16> = begin.written.iter().map(|object| object.number).collect();
    numbers.extend(begin.queues.iter().map(|queue| queue.number));
    random.pick(&numbers)
}

/// One of the three objects of the session.
fn session_number(random: &mut Random) -> u16 {
    random.pick(&[0xE0C0, 0xF1C0, 0xF1C2])
}

/// Adds a command of the kind; some have the flush bit.
fn push(kind: Kind, begin: &Beginning, random: &mut Random, list: &mut List) {
    let (mut command, room) = make(kind, begin, random, list.len());
    if kind != Kind::UnknownCmd && kind != Kind::BadFrame && random.below(8) == 0 {
        command[0] |= FLUSH;
    }
    list.push((command, room));
}

fn make(kind: Kind, begin: &Beginning, random: &mut Random, turn: usize) -> (Vec<u8>, usize) {
    let settable = settable(begin, random);
    let command = match kind {
        Kind::Get(low, high) => {
            let length = random.between(low, high);
            get_data(holding(&begin.read, length, random), length, random)
        }
        Kind::GetShortened => {
            let read = random.pick(&begin.read);
            get(read.number, random.between(0, read.used), read.used + 1)
        }
        Kind::GetSession => get(session_number(random), 0, 1),
        Kind::GetMetadata => framed(0x01, 0x01, &settable.to_be_bytes()),
        Kind::Write(param, low, high) => {
            let length = random.between(low, high);
            write(
                param,
                holding(&begin.written, length, random),
                length,
                random,
            )
        }
        Kind::WriteState => set(0x00, random.pick(&[0xE0C0, 0xF1C0]), 0, &[0x01]),
        Kind::WriteCounter(param) => write_counter(param, begin, random),
        Kind::Count => count(random.pick(&begin.counted).0, 0, random),
        Kind::SetState => set_metadata(settable, &[(0xC0, &[0x01])]),
        Kind::SetAll => set_all(settable, &begin.sent, &begin.sent),
        Kind::CloseOpen if turn % 2 == 0 => framed(0x71, 0x00, &[]),
        Kind::Open | Kind::CloseOpen => framed(0x70, 0x00, &IDENTIFIER),
        Kind::SmallRoom => {
            let length = random.between(1, 140);
            let command = get_data(holding(&begin.read, length, random), length, random);
            return (command, 4 + random.below(length));
        }
        Kind::NoRoom => return (framed(0x01, 0x01, &settable.to_be_bytes()), random.below(4)),
        kind if kind.is_of_queue() => on_queue(kind, begin, random),
        _ => refused(kind, begin, random),
    };
    (command, ROOM)
}

/// Commands that a step refuses.
fn refused(kind: Kind, begin: &Beginning, random: &mut Random) -> Vec<u8> {
    let read = random.pick(&begin.read);
    let written = random.pick(&begin.written);
    let locked = begin.locked.number;
    match kind {
        Kind::BadFrame => {
            framed(0x01, 0x01, &read.number.to_be_bytes())[..random.below(6)].to_vec()
        }
        Kind::UnknownCmd => framed(random.pick(&[0x00, 0x03, 0x6F, 0x72]), 0x00, &[]),
        Kind::UnknownParam => framed(random.pick(&[0x01, 0x02, 0x70, 0x71]), 0x03, &[0xF1, 0xD0]),
        Kind::BadLength => of_wrong_size(random),
        Kind::OtherIdentifier => framed(0x70, 0x00, b"\xD2\x76\x00\x00\x04GenAuthAppL"),
        Kind::NoObject => get(random.between(0xF300, 0xF3FF) as u16, 0, 1),
        Kind::Denied => match random.below(3) {
            0 => get(locked, 0, 0),
            1 => set(0x00, locked, 0, &[0x00]),
            _ => set_metadata(locked, &[(0xC0, &[0x01])]),
        },
        Kind::DeniedSession => match random.below(4) {
            0 => set(0x00, 0xF1C2, 0, &[0x00]),
            1 => append(0xF1C2, 1, random),
            2 => framed(0x01, 0x01, &session_number(random).to_be_bytes()),
            _ => set_metadata(session_number(random), &[(0xC0, &[0x01])]),
        },
        Kind::CountData => count(settable(begin, random), 0, random),
        Kind::NoQueue => to_no_queue(begin, random),
        Kind::CountState => count(random.pick(&[0xE0C0, 0xF1C0]), 0, random),
        Kind::PastUsed => get(read.number, read.used + 1, random.below(17)),
        Kind::PastMaximum => set(0x00, written.number, written.maximum, &[0x00]),
        Kind::PartOfCounter => {
            let part = random.bytes(counter::SIZE - 1);
            set(0x00, random.pick(&begin.counted).0, random.below(2), &part)
        }
        Kind::CountAtOffset => count(random.pick(&begin.counted).0, 1, random),
        Kind::CountReached => count(random.pick(&begin.reached).0, 0, random),
        Kind::BadContent => set_all(written.number, &begin.sent, &[0xE1, 0xFC, 0x04]),
        Kind::BadState => set(0x00, random.pick(&[0xE0C0, 0xF1C0]), 0, &[0x02]),
        _ => get_data(read, read.used.min(16), random),
    }
}
