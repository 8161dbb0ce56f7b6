//! The stores that are measured, with what the lists need to know of them.

use std::ops::Range;

use reference::counter::{self, Counter, Direction};
use reference::factory::{FACTORY_OBJECTS, FACTORY_SIZE};
use reference::generator::random::Random;
use reference::store::{RecordKind, DATA, LARGEST_STORE, SLOT_SIZE};
use reference::{fresh_session, make_factory_store, Session};

use crate::queues::{Fares, Queue, LONGEST_BODY, NO_MORE};

pub const LARGEST: usize = 1_500;

/// The first object of a store that is not the factory's.
const FIRST: u16 = 0xF200;

/// Where a record has its kind.
const KIND: usize = 2;

/// An object: its number, its maximum, its bytes in use.
#[derive(Clone, Copy)]
pub struct Object {
    pub number: u16,
    pub maximum: usize,
    pub used: usize,
}

/// A store and a session to begin from, and the parts that its objects play.
#[derive(Clone)]
pub struct Beginning {
    pub store: Vec<u8>,
    pub session: Session,
    /// Full objects, never written to.
    pub read: Vec<Object>,
    /// Objects that take writes.
    pub written: Vec<Object>,
    /// Counters of both directions, as they begin: far from their thresholds.
    pub counted: Vec<(u16, Counter)>,
    /// Counters of both directions, at their thresholds or past them, never written to.
    pub reached: Vec<(u16, Counter)>,
    /// Queues that take fares and have them acknowledged.
    pub queues: Vec<Queue>,
    /// Queues that have given their last number, never changed.
    pub ended: Vec<Queue>,
    /// The bytes of the store that are put back before each command, so that all meet the same queue.
    pub put_back: Range<usize>,
    /// An object that grants nothing.
    pub locked: Object,
    /// The expression that a metadata write brings.
    pub sent: Vec<u8>,
}

pub const ALWAYS: &[u8] = &[0x00];
const NEVER: &[u8] = &[0xFF];
const BEFORE_OPERATIONAL: &[u8] = &[0xE1, 0xFC, 0x07];

/// Seven conditions in three groups; only the last group holds at first.
const LONGEST: &[u8] = &[
    0xE1, 0xFB, 0x01, 0xFD, 0x70, 0xFA, 0x01, 0xFE, 0xE0, 0xFB, 0x03, 0xFD, 0x70, 0xFC, 0x0F, 0xFE,
    0xE1, 0xFC, 0x07, 0xFD, 0x70, 0xFA, 0x01, 0xFD, 0xE0, 0xFA, 0x01,
];

/// The expressions for change, read and execute: those of the factory, or the longest.
pub const SHORT_ONES: [&[u8]; 3] = [BEFORE_OPERATIONAL, ALWAYS, ALWAYS];
pub const LONG_ONES: [&[u8]; 3] = [LONGEST; 3];

/// On a counter of a full store that is far from its threshold.
const COUNTED: &[u8] = &[0x40, 0xF2, 0x06];
pub const COUNTED_ONES: [&[u8]; 3] = [COUNTED, COUNTED, ALWAYS];

/// On two of them: the first is at its threshold, so the second group decides, and the other counter goes up.
const GROUPED: &[u8] = &[
    0x40, 0xF2, 0x24, 0xFE, 0x40, 0xF2, 0x06, 0xFD, 0xE1, 0xFC, 0x07,
];
pub const GROUPED_ONES: [&[u8]; 3] = [GROUPED, GROUPED, ALWAYS];

/// The record of an object, with random bytes in use.
pub fn record(object: Object, expressions: [&[u8]; 3], random: &mut Random) -> Vec<u8> {
    let data = random.bytes(object.used);
    record_of(RecordKind::Data, object, expressions, &data)
}

fn queue_record(
    object: Object,
    fares: Fares,
    expressions: [&[u8]; 3],
    random: &mut Random,
) -> Vec<u8> {
    let data = fares.to_data(random);
    record_of(RecordKind::Queue, object, expressions, &data)
}

fn counter_record(object: Object, counter: Counter, expressions: [&[u8]; 3]) -> Vec<u8> {
    let kind = RecordKind::Counter(counter.direction);
    record_of(kind, object, expressions, &counter.to_data())
}

fn record_of(kind: RecordKind, object: Object, expressions: [&[u8]; 3], data: &[u8]) -> Vec<u8> {
    let mut bytes = Vec::new();
    let size = DATA + object.maximum;
    for number in [
        size as u16,
        kind.number(),
        object.number,
        object.maximum as u16,
        object.used as u16,
    ] {
        bytes.extend_from_slice(&number.to_le_bytes());
    }
    bytes.extend_from_slice(&[0x01, 0x00]);
    for expression in expressions {
        let end = bytes.len() + SLOT_SIZE;
        bytes.push(expression.len() as u8);
        bytes.extend_from_slice(expression);
        bytes.resize(end, 0);
    }
    bytes.extend_from_slice(data);
    bytes.resize(size, 0);
    bytes
}

/// A store in which no object plays a part yet.
fn beginning(store: Vec<u8>) -> Beginning {
    let session = Session {
        opened: true,
        ..fresh_session()
    };
    let locked = Object {
        number: 0,
        maximum: 0,
        used: 0,
    };
    Beginning {
        store,
        session,
        read: Vec::new(),
        written: Vec::new(),
        counted: Vec::new(),
        reached: Vec::new(),
        queues: Vec::new(),
        ended: Vec::new(),
        put_back: 0..0,
        locked,
        sent: BEFORE_OPERATIONAL.to_vec(),
    }
}

/// The factory store: its first objects of both sizes full, its last of 140 bytes locked, the others empty.
pub fn factory(random: &mut Random) -> Beginning {
    let mut made = vec![0; FACTORY_SIZE];
    make_factory_store(&mut made);
    let objects = FACTORY_OBJECTS.map(|(number, maximum)| Object {
        number,
        maximum,
        used: 0,
    });
    let full = |place: usize| Object {
        used: objects[place].maximum,
        ..objects[place]
    };
    let mut store = Vec::new();
    for (place, object) in objects.into_iter().enumerate() {
        store.extend(match place {
            0 | 12 => record(full(place), SHORT_ONES, random),
            11 => record(object, [NEVER, NEVER, ALWAYS], random),
            _ => made[store.len()..][..DATA + object.maximum].to_vec(),
        });
    }
    let mut written = objects[1..11].to_vec();
    written.push(objects[13]);
    Beginning {
        read: vec![full(0), full(12)],
        written,
        locked: objects[11],
        ..beginning(store)
    }
}

/// The place of the locked object in a full store.
const LOCKED: usize = 27;

/// The counters of a full store, by their places.
const COUNTERS: [(usize, Counter); 6] = [
    (2, counter(Direction::Up, 0, u32::MAX)),
    (7, counter(Direction::Down, u32::MAX, 0)),
    (12, counter(Direction::Up, 600, 600)),
    (15, counter(Direction::Down, 600, 600)),
    (20, counter(Direction::Up, u32::MAX, 0)),
    (23, counter(Direction::Down, 0, u32::MAX)),
];

const fn counter(direction: Direction, value: u32, threshold: u32) -> Counter {
    Counter {
        direction,
        value,
        threshold,
    }
}

fn counter_at(place: usize) -> Option<Counter> {
    let found = COUNTERS.iter().find(|counter| counter.0 == place);
    found.map(|counter| counter.1)
}

/// The queues of a full store, by their places, with their maxima: empty, half full, full of short fares and of long ones, ended.
const QUEUES: [(usize, usize, Fares); 5] = [
    (5, 300, fares(0, 0, 1)),
    (10, 600, fares(1_006, 6, 42)),
    (17, 300, fares(1_032, 32, 1)),
    (22, 900, fares(1_004, 4, LONGEST_BODY)),
    (26, 100, fares(NO_MORE, 2, 10)),
];

/// Of the queues that take fares, the one that is half full.
pub const HALF_FULL: usize = 1;

const fn fares(next: u32, count: usize, body: usize) -> Fares {
    Fares { next, count, body }
}

fn queue_at(place: usize) -> Option<(usize, Fares)> {
    let found = QUEUES.iter().find(|queue| queue.0 == place);
    found.map(|queue| (queue.1, queue.2))
}

/// The bytes of a full store that are left to the records whose maxima are alike, and how many these are.
fn left_to_others() -> (usize, usize) {
    let counters = COUNTERS.len() * (DATA + counter::SIZE);
    let queues: usize = QUEUES.iter().map(|queue| DATA + queue.1).sum();
    let rest = LARGEST_STORE - 2 * (DATA + LARGEST) - counters - queues;
    (rest, 30 - COUNTERS.len() - QUEUES.len())
}

/// The objects of a full store: two of the largest maximum, the counters, the queues, every second of the others full, the rest used in part.
fn full_objects(random: &mut Random) -> Vec<Object> {
    let (rest, others) = left_to_others();
    let object = |place: usize| {
        let (maximum, used) = match (counter_at(place), queue_at(place)) {
            (Some(_), _) => (counter::SIZE, counter::SIZE),
            (_, Some((maximum, fares))) => (maximum, fares.used()),
            _ => {
                let maximum = match place {
                    28 | 29 => LARGEST,
                    31 => rest - (others - 1) * (rest / others) - DATA,
                    _ => rest / others - DATA,
                };
                (maximum, [maximum, random.below(maximum)][place % 2])
            }
        };
        Object {
            number: FIRST + 3 * place as u16,
            maximum,
            used,
        }
    };
    (0..32).map(object).collect()
}

/// 32 records that fill 16,384 bytes, all with these expressions.
pub fn full(expressions: [&'static [u8]; 3], random: &mut Random) -> Beginning {
    full_by(|_| expressions, random)
}

/// The same, with other expressions in half of the records, of those read and of those written.
pub fn half(expressions: [&'static [u8]; 3], random: &mut Random) -> Beginning {
    full_by(|place| [expressions, SHORT_ONES][place / 2 % 2], random)
}

/// The same, with the expressions of each place; a metadata write brings the first change expression.
fn full_by(expressions: impl Fn(usize) -> [&'static [u8]; 3], random: &mut Random) -> Beginning {
    let objects = full_objects(random);
    let mut begin = Beginning {
        locked: objects[LOCKED],
        sent: expressions(0)[0].to_vec(),
        ..beginning(Vec::new())
    };
    for (place, &object) in objects.iter().enumerate() {
        add(&mut begin, place, object, expressions(place), random);
    }
    assert_eq!(begin.store.len(), LARGEST_STORE);
    begin
}

/// Adds the record of a place in a full store; its object gets the part of the place.
fn add(
    begin: &mut Beginning,
    place: usize,
    object: Object,
    expressions: [&[u8]; 3],
    random: &mut Random,
) {
    let record = if place == LOCKED {
        record(object, [NEVER, NEVER, expressions[2]], random)
    } else if let Some(counter) = counter_at(place) {
        let counters = match counter.is_reached() {
            true => &mut begin.reached,
            false => &mut begin.counted,
        };
        counters.push((object.number, counter));
        counter_record(object, counter, expressions)
    } else if let Some((_, fares)) = queue_at(place) {
        let queues = match fares.next {
            NO_MORE => &mut begin.ended,
            _ => &mut begin.queues,
        };
        queues.push(queue(object, begin.store.len()));
        queue_record(object, fares, expressions, random)
    } else {
        [&mut begin.read, &mut begin.written][place % 2].push(object);
        record(object, expressions, random)
    };
    begin.store.extend(record);
}

fn queue(object: Object, at: usize) -> Queue {
    let Object {
        number, maximum, ..
    } = object;
    Queue {
        number,
        at,
        maximum,
    }
}

/// One queue of the largest maximum, put back before each command.
pub fn one_queue(fares: Fares, random: &mut Random) -> Beginning {
    let store = alike_queues(1, LARGEST, fares, random);
    let queue = Queue {
        number: FIRST,
        at: 0,
        maximum: LARGEST,
    };
    Beginning {
        queues: vec![queue],
        put_back: queue.record(),
        ..beginning(store)
    }
}

/// So many queues alike.
pub fn alike_queues(count: usize, maximum: usize, fares: Fares, random: &mut Random) -> Vec<u8> {
    let mut store = Vec::new();
    for place in 0..count {
        let object = Object {
            number: FIRST + place as u16,
            maximum,
            used: fares.used(),
        };
        store.extend(queue_record(object, fares, SHORT_ONES, random));
    }
    store
}

/// A store of queues with the same bytes as data.
pub fn as_data(queues: &[u8]) -> Vec<u8> {
    let mut store = queues.to_vec();
    let mut at = 0;
    while at < store.len() {
        store[at + KIND] = RecordKind::Data.number() as u8;
        at += usize::from(u16::from_le_bytes([store[at], store[at + 1]]));
    }
    store
}

/// So many alike records, all bytes in use or none.
pub fn alike(count: usize, maximum: usize, in_use: bool, random: &mut Random) -> Vec<u8> {
    let mut store = Vec::new();
    for place in 0..count {
        let object = Object {
            number: FIRST + place as u16,
            maximum,
            used: if in_use { maximum } else { 0 },
        };
        store.extend(record(object, SHORT_ONES, random));
    }
    store
}
