//! Stores: well formed ones, and ones that break a single clause.

use std::fmt;

use crate::counter::{self, Counter, Direction};
use crate::engine;
use crate::generator::counting::counting_objects;
use crate::generator::expressions::{expression, BadExpression};
use crate::generator::names::Names;
use crate::generator::queues::{queue_data, queue_maximum, QueueDamage};
use crate::generator::random::Random;
use crate::kinds::ObjectNumber;
use crate::queue;
use crate::session::{Session, SessionObject, STATES};
use crate::store::{
    Fault, RecordKind, Slot, DATA, KIND, LARGEST_MAXIMUM, LARGEST_STORE, LCSO, LENGTH,
    MOST_RECORDS, SLOT_SIZE, USED, ZERO,
};

/// The smallest record: one byte of data.
const SMALLEST_RECORD: usize = DATA + 1;
/// The record of a counter.
const COUNTER_RECORD: usize = DATA + counter::SIZE;

/// How many of a hundred objects with room for a next number are queues.
const QUEUES: usize = 30;

/// An object before it is put into a store.
#[derive(Clone, Debug)]
pub(super) struct Object {
    pub(super) kind: RecordKind,
    pub(super) number: u16,
    pub(super) maximum: usize,
    pub(super) lcso: u8,
    pub(super) expressions: [Vec<u8>; 3],
    /// The used bytes.
    pub(super) data: Vec<u8>,
}

impl Object {
    fn new(number: u16, maximum: usize, random: &mut Random) -> Object {
        let used = match random.below(5) {
            0 => 0,
            1 => maximum,
            2 => maximum.min(random.between(1, 20)),
            _ => random.between(0, maximum),
        };
        let change = match random.chance(40) {
            true => vec![crate::expression::ALWAYS],
            false => expression(&Names::none(), random),
        };
        Object {
            kind: RecordKind::Data,
            number,
            maximum,
            lcso: random.pick(&STATES),
            expressions: [
                change,
                expression(&Names::none(), random),
                expression(&Names::none(), random),
            ],
            data: random.bytes(used),
        }
    }

    fn counter(number: u16, direction: Direction, random: &mut Random) -> Object {
        Object {
            kind: RecordKind::Counter(direction),
            data: random_counter(direction, random).to_data().to_vec(),
            ..Object::new(number, counter::SIZE, random)
        }
    }

    pub(super) fn queue(number: u16, maximum: usize, random: &mut Random) -> Object {
        Object {
            kind: RecordKind::Queue,
            data: queue_data(maximum, random),
            ..Object::new(number, maximum, random)
        }
    }

    /// Makes the object a queue that breaks a single clause.
    fn damage_queue(&mut self, damage: QueueDamage, random: &mut Random) {
        let (maximum, data) = damage.make(random);
        self.kind = RecordKind::Queue;
        self.maximum = maximum;
        self.data = data;
    }

    /// Often makes the object a counter or a queue.
    fn change_kind(&mut self, random: &mut Random) {
        match random.below(3) {
            0 => {
                let direction = random.pick(&Direction::ALL);
                *self = Object::counter(self.number, direction, random);
            }
            1 => *self = Object::queue(self.number, queue_maximum(random), random),
            _ => {}
        }
    }

    fn size(&self) -> usize {
        DATA + self.maximum
    }

    fn put_into(&self, store: &mut Vec<u8>) {
        let start = store.len();
        for number in [
            self.size() as u16,
            self.kind.number(),
            self.number,
            self.maximum as u16,
            self.data.len() as u16,
        ] {
            store.extend_from_slice(&number.to_le_bytes());
        }
        store.extend_from_slice(&[self.lcso, 0]);
        for (slot, bytes) in Slot::ALL.into_iter().zip(&self.expressions) {
            store.push(bytes.len() as u8);
            store.extend(bytes.iter().take(SLOT_SIZE - 1));
            store.resize(start + slot.place().end, 0);
        }
        store.extend_from_slice(&self.data);
        store.resize(start + self.size(), 0);
    }
}

pub(super) fn join(objects: &[Object]) -> Vec<u8> {
    let mut store = Vec::new();
    for object in objects {
        object.put_into(&mut store);
    }
    store
}

/// A well-formed store of 1 to 32 records.
pub fn valid_store(random: &mut Random) -> Vec<u8> {
    join(&valid_objects(random))
}

/// Objects of such a store; in half of them conditions use up counters.
fn valid_objects(random: &mut Random) -> Vec<Object> {
    if random.chance(50) {
        return counting_objects(random);
    }
    let sizes = match random.below(20) {
        0 => full_store_sizes(random),
        _ => store_sizes(random),
    };
    let numbers = object_numbers(sizes.len(), random);
    make_objects(&numbers, &sizes, random)
}

fn make_objects(numbers: &[u16], sizes: &[usize], random: &mut Random) -> Vec<Object> {
    numbers
        .iter()
        .zip(sizes)
        .map(|(&number, &size)| make_object(number, size, random))
        .collect()
}

/// An object of this maximum; where it can be a counter, it mostly is one, and where
/// it can be a queue, often.
pub(super) fn make_object(number: u16, maximum: usize, random: &mut Random) -> Object {
    if maximum == counter::SIZE && random.chance(80) {
        let direction = random.pick(&Direction::ALL);
        return Object::counter(number, direction, random);
    }
    if maximum >= queue::EMPTY && random.chance(QUEUES) {
        return Object::queue(number, maximum, random);
    }
    Object::new(number, maximum, random)
}

/// A counter short of its threshold, at it, next to it, past it, or anywhere.
pub fn random_counter(direction: Direction, random: &mut Random) -> Counter {
    let last = match direction {
        Direction::Up => u32::MAX,
        Direction::Down => 0,
    };
    let threshold = match random.below(9) {
        0 => 0,
        1 => u32::MAX,
        2..=4 => last,
        5 => carrying_number(random),
        6 => random.between(1, 600) as u32,
        _ => random.number() as u32,
    };
    let away = match random.chance(70) {
        true => random.between(2, 255) as u32,
        false => random.between(256, 100_000) as u32,
    };
    let (below, above) = (
        threshold.saturating_sub(away),
        threshold.saturating_add(away),
    );
    let short = match direction {
        Direction::Up => below,
        Direction::Down => above,
    };
    let value = match random.below(16) {
        0 => threshold,
        1 | 2 => threshold.saturating_sub(1),
        3 | 4 => threshold.saturating_add(1),
        5 => below,
        6 => above,
        7 => random.pick(&[0, u32::MAX]),
        8 => carrying_number(random),
        9 => random.number() as u32,
        _ => short,
    };
    Counter {
        direction,
        value,
        threshold,
    }
}

/// A number at which a step carries from byte to byte.
fn carrying_number(random: &mut Random) -> u32 {
    let carried = 1u32 << random.pick(&[8, 16, 24, 31]);
    carried - random.below(3) as u32
}

/// Maximums of records that stay within the largest store.
fn store_sizes(random: &mut Random) -> Vec<usize> {
    let count = match random.below(10) {
        0 => 1,
        1 => MOST_RECORDS,
        2 => random.between(2, MOST_RECORDS - 1),
        _ => random.between(2, 8),
    };
    let mut left = LARGEST_STORE;
    let mut sizes = Vec::new();
    for place in 0..count {
        let reserved = (count - place - 1) * SMALLEST_RECORD;
        let limit = (left - reserved - DATA).min(LARGEST_MAXIMUM);
        let size = match random.below(16) {
            0 => 1,
            1 => LARGEST_MAXIMUM,
            2 => random.between(LARGEST_MAXIMUM - 3, LARGEST_MAXIMUM),
            3 => random.between(1, LARGEST_MAXIMUM),
            4 | 5 => random.between(1, 140),
            6..=9 => random.between(1, 32),
            10 | 11 => queue_maximum(random),
            _ => counter::SIZE,
        };
        sizes.push(size.min(limit));
        left -= DATA + sizes[place];
    }
    sizes
}

/// Maximums of records that fill the largest store exactly.
fn full_store_sizes(random: &mut Random) -> Vec<usize> {
    let counters = random.between(0, 4);
    let count = random.between(11, MOST_RECORDS - counters);
    let total = LARGEST_STORE - counters * COUNTER_RECORD;
    let mut sizes = sizes_of_total(count, total, random);
    for _ in 0..counters {
        sizes.insert(random.between(0, sizes.len()), counter::SIZE);
    }
    sizes
}

/// Maximums of `count` records of `total` bytes together.
fn sizes_of_total(count: usize, total: usize, random: &mut Random) -> Vec<usize> {
    let mut sizes = vec![1; count];
    let mut left = total - count * SMALLEST_RECORD;
    while left > 0 {
        let place = random.below(count);
        let most = left.min(LARGEST_MAXIMUM - sizes[place]);
        let more = random.between(0, most);
        sizes[place] += more;
        left -= more;
    }
    sizes
}

/// Rising object numbers, none of them of the session.
fn object_numbers(count: usize, random: &mut Random) -> Vec<u16> {
    let mut numbers = Vec::new();
    while numbers.len() < count {
        let number = object_number(random);
        if !is_session_number(number) && !numbers.contains(&number) {
            numbers.push(number);
        }
    }
    numbers.sort_unstable();
    numbers
}

pub(super) fn is_session_number(number: u16) -> bool {
    SessionObject::from_number(ObjectNumber(number)).is_some()
}

/// A number near the named ones, at an end, or anywhere.
pub fn object_number(random: &mut Random) -> u16 {
    match random.below(6) {
        0 => random.pick(&[0x0000, 0x0001, 0x00FF, 0x0100, 0xFF00, 0xFFFE, 0xFFFF]),
        1 => random.between(0xE0BE, 0xE0C3) as u16,
        2 => random.between(0xF1BE, 0xF1C5) as u16,
        3 => random.between(0xF1D0, 0xF1E3) as u16,
        4 => random.between(0, 40) as u16,
        _ => random.number() as u16,
    }
}

/// The number of a kind, shown as four hex digits.
#[derive(Clone, Copy, PartialEq, Eq)]
pub struct KindNumber(u16);

impl fmt::Debug for KindNumber {
    fn fmt(&self, formatter: &mut fmt::Formatter<'_>) -> fmt::Result {
        write!(formatter, "{:04X}", self.0)
    }
}

/// Unknown kinds near the known ones, by number, by bit or by order of bytes, and at the ends.
const UNKNOWN_KINDS: [KindNumber; 13] = [
    KindNumber(0x0000),
    KindNumber(0x0007),
    KindNumber(0x0005),
    KindNumber(0x0006),
    KindNumber(0x0008),
    KindNumber(0x0100),
    KindNumber(0x0101),
    KindNumber(0x0102),
    KindNumber(0x0104),
    KindNumber(0x0200),
    KindNumber(0x0300),
    KindNumber(0x0400),
    KindNumber(0xFFFF),
];

/// The ways in which a store is malformed.
#[derive(Clone, Copy, Debug, PartialEq, Eq)]
pub enum Damage {
    NoRecord,
    ThirtyThreeRecords,
    TooLong,
    CutShort,
    TrailingBytes,
    RecordLength,
    Kind(KindNumber),
    AnyKind,
    SessionObject(SessionObject),
    MaximumZero,
    MaximumAbove,
    UsedAboveMaximum,
    CounterMaximum(Direction),
    CounterUsed(Direction),
    LifeCycle,
    ZeroByte,
    Expression(Slot, BadExpression),
    SlotLength(Slot),
    SlotTail(Slot),
    Queue(QueueDamage),
    DataTail,
    NumbersEqual,
    NumbersFalling,
}

impl Damage {
    pub fn all() -> Vec<Damage> {
        let mut all = vec![
            Damage::NoRecord,
            Damage::ThirtyThreeRecords,
            Damage::TooLong,
            Damage::CutShort,
            Damage::TrailingBytes,
            Damage::RecordLength,
            Damage::AnyKind,
            Damage::MaximumZero,
            Damage::MaximumAbove,
            Damage::UsedAboveMaximum,
            Damage::LifeCycle,
            Damage::ZeroByte,
            Damage::DataTail,
            Damage::NumbersEqual,
            Damage::NumbersFalling,
        ];
        all.extend(UNKNOWN_KINDS.map(Damage::Kind));
        all.extend(SessionObject::ALL.map(Damage::SessionObject));
        all.extend(Direction::ALL.map(Damage::CounterMaximum));
        all.extend(Direction::ALL.map(Damage::CounterUsed));
        all.extend(Slot::ALL.map(Damage::SlotLength));
        all.extend(Slot::ALL.map(Damage::SlotTail));
        for slot in Slot::ALL {
            all.extend(BadExpression::ALL.map(|bad| Damage::Expression(slot, bad)));
        }
        all.extend(QueueDamage::ALL.map(Damage::Queue));
        all
    }

    /// The clause that the damage breaks.
    pub fn fault(self) -> Fault {
        match self {
            Damage::NoRecord => Fault::NoRecord,
            Damage::ThirtyThreeRecords => Fault::TooManyRecords,
            Damage::TooLong => Fault::TooLong,
            Damage::CutShort | Damage::TrailingBytes => Fault::CutShort,
            Damage::RecordLength => Fault::RecordLength,
            Damage::Kind(_) | Damage::AnyKind => Fault::Kind,
            Damage::SessionObject(_) => Fault::SessionObject,
            Damage::MaximumZero | Damage::MaximumAbove => Fault::Maximum,
            Damage::UsedAboveMaximum => Fault::Used,
            Damage::CounterMaximum(_) => Fault::CounterMaximum,
            Damage::CounterUsed(_) => Fault::CounterUsed,
            Damage::LifeCycle => Fault::LifeCycle,
            Damage::ZeroByte => Fault::ZeroByte,
            Damage::Expression(slot, _) | Damage::SlotLength(slot) => Fault::Expression(slot),
            Damage::SlotTail(slot) => Fault::SlotTail(slot),
            Damage::Queue(damage) => damage.fault(),
            Damage::DataTail => Fault::DataTail,
            Damage::NumbersEqual | Damage::NumbersFalling => Fault::Order,
        }
    }

    /// A store that breaks this clause only.
    pub fn make(self, random: &mut Random) -> Vec<u8> {
        match self {
            Damage::NoRecord => Vec::new(),
            Damage::ThirtyThreeRecords => thirty_three_records(random),
            Damage::TooLong => too_long(random),
            Damage::CutShort => cut_short(random),
            Damage::TrailingBytes => trailing_bytes(random),
            _ => self.damage_object(random),
        }
    }

    /// A store in which one object is damaged.
    fn damage_object(self, random: &mut Random) -> Vec<u8> {
        let mut objects = smaller_objects(random);
        let place = random.below(objects.len());
        match self {
            Damage::SessionObject(object) => {
                objects[place].number = object.number().0;
                objects.sort_by_key(|object| object.number);
                return join(&objects);
            }
            Damage::NumbersEqual => {
                let twin = Object::new(objects[place].number, 9, random);
                objects.insert(place + 1, twin);
                return join(&objects);
            }
            Damage::NumbersFalling => {
                while objects.len() < 2 {
                    objects = smaller_objects(random);
                }
                let place = random.below(objects.len() - 1);
                objects.swap(place, place + 1);
                return join(&objects);
            }
            _ => self.damage_spec(&mut objects[place], random),
        }
        let start: usize = objects[..place].iter().map(Object::size).sum();
        let mut store = join(&objects);
        self.damage_bytes(&mut store[start..], &objects[place], random);
        store
    }

    /// Damage that also moves what comes after, and room for damage of bytes.
    fn damage_spec(self, object: &mut Object, random: &mut Random) {
        match self {
            Damage::MaximumZero => {
                object.maximum = 0;
                object.data.clear();
            }
            Damage::MaximumAbove => {
                object.maximum = LARGEST_MAXIMUM + 1;
            }
            Damage::UsedAboveMaximum => {
                object.kind = random.pick(&[RecordKind::Data, RecordKind::Queue]);
                object.data = vec![0; object.maximum];
            }
            Damage::Kind(_) | Damage::AnyKind => object.change_kind(random),
            Damage::Queue(damage) => object.damage_queue(damage, random),
            Damage::CounterMaximum(direction) => {
                *object = Object::counter(object.number, direction, random);
                object.maximum = match random.below(4) {
                    0 => counter::SIZE - 1,
                    1 => counter::SIZE + 1,
                    2 => random.between(1, counter::SIZE - 1),
                    _ => random.between(counter::SIZE + 1, LARGEST_MAXIMUM),
                };
                object.data.truncate(object.maximum);
            }
            Damage::CounterUsed(direction) => {
                *object = Object::counter(object.number, direction, random);
                if random.chance(60) {
                    object.data.truncate(random.below(counter::SIZE));
                }
            }
            Damage::DataTail => {
                object.kind = RecordKind::Data;
                object.data.truncate(random.below(object.maximum));
            }
            Damage::Expression(slot, bad) => {
                object.expressions[slot as usize] = bad.make(random);
            }
            Damage::SlotTail(slot) => {
                let short = &mut object.expressions[slot as usize];
                while short.len() > 23 {
                    *short = expression(&Names::none(), random);
                }
            }
            _ => {}
        }
    }

    /// Damage in the bytes of the record at the front of `bytes`.
    fn damage_bytes(self, bytes: &mut [u8], object: &Object, random: &mut Random) {
        match self {
            Damage::RecordLength => {
                let size = object.size() as u16;
                let wrong = match random.below(5) {
                    0 => size - 1,
                    1 => size + 1,
                    2 => size.swap_bytes(),
                    3 => object.maximum as u16,
                    _ => random.number() as u16,
                };
                let wrong = if wrong == size { 0 } else { wrong };
                put_number(bytes, LENGTH, wrong);
            }
            Damage::Kind(kind) => put_number(bytes, KIND, kind.0),
            Damage::AnyKind => put_number(bytes, KIND, unknown_kind(random)),
            Damage::CounterUsed(_) if object.data.len() < counter::SIZE => {}
            Damage::UsedAboveMaximum | Damage::CounterUsed(_) => {
                let used = match random.below(3) {
                    0 => object.maximum + 1,
                    1 => 0xFFFF,
                    _ => random.between(object.maximum + 1, 0xFFFF),
                };
                put_number(bytes, USED, used as u16);
            }
            Damage::LifeCycle => {
                bytes[LCSO] = match random.chance(50) {
                    true => random.pick(&[0x00, 0x02, 0x04, 0x08, 0x0E, 0x10, 0x1F, 0xFF]),
                    false => random.byte_outside(&STATES),
                };
            }
            Damage::ZeroByte => bytes[ZERO] = random.nonzero_byte(),
            Damage::SlotLength(slot) => {
                bytes[slot.place().start] = match random.chance(50) {
                    true => random.pick(&[28, 31, 35, 255]),
                    false => random.between(28, 255) as u8,
                };
            }
            Damage::Expression(slot, _) => {
                // Eight conditions may reach past the slot.
                let made = &object.expressions[slot as usize];
                if made.len() >= SLOT_SIZE && random.chance(50) {
                    let start = slot.place().start + 1;
                    for (byte, made) in bytes[start..].iter_mut().zip(made) {
                        *byte = *made;
                    }
                }
            }
            Damage::SlotTail(slot) => {
                let place = slot.place();
                let first = place.start + 1 + object.expressions[slot as usize].len();
                let dirty = match random.below(3) {
                    0 => first,
                    1 => place.end - 1,
                    _ => random.between(first, place.end - 1),
                };
                bytes[dirty] = random.nonzero_byte();
            }
            Damage::DataTail | Damage::Queue(QueueDamage::Tail) => {
                let first = DATA + object.data.len();
                let last = object.size() - 1;
                let dirty = match random.below(3) {
                    0 => first,
                    1 => last,
                    _ => random.between(first, last),
                };
                bytes[dirty] = random.nonzero_byte();
            }
            _ => {}
        }
    }
}

/// Any kind that no record has.
fn unknown_kind(random: &mut Random) -> u16 {
    loop {
        let kind = random.number() as u16;
        if RecordKind::from_number(kind).is_none() {
            return kind;
        }
    }
}

fn put_number(bytes: &mut [u8], place: usize, number: u16) {
    bytes[place..place + 2].copy_from_slice(&number.to_le_bytes());
}

/// Objects of a store that can grow by one record of the largest size.
fn smaller_objects(random: &mut Random) -> Vec<Object> {
    loop {
        let objects = valid_objects(random);
        let size: usize = objects.iter().map(Object::size).sum();
        if objects.len() < MOST_RECORDS && size + 1_600 <= LARGEST_STORE {
            return objects;
        }
    }
}

fn thirty_three_records(random: &mut Random) -> Vec<u8> {
    let count = MOST_RECORDS + 1;
    let total = random.between(count * SMALLEST_RECORD, LARGEST_STORE);
    let sizes = sizes_of_total(count, total, random);
    let numbers = object_numbers(count, random);
    join(&make_objects(&numbers, &sizes, random))
}

fn too_long(random: &mut Random) -> Vec<u8> {
    let count = random.between(12, MOST_RECORDS);
    let total = match random.chance(50) {
        true => LARGEST_STORE + 1,
        false => random.between(LARGEST_STORE + 1, 18_000),
    };
    let sizes = sizes_of_total(count, total, random);
    let numbers = object_numbers(count, random);
    join(&make_objects(&numbers, &sizes, random))
}

/// A store whose last record lacks some of its bytes.
fn cut_short(random: &mut Random) -> Vec<u8> {
    let objects = valid_objects(random);
    let mut store = join(&objects);
    let last = objects[objects.len() - 1].size();
    let cut = match random.below(3) {
        0 => 1,
        1 => last - 1,
        _ => random.between(1, last - 1),
    };
    store.truncate(store.len() - cut);
    store
}

/// A store with some bytes after its last record, fewer than a record has.
fn trailing_bytes(random: &mut Random) -> Vec<u8> {
    let mut store = join(&smaller_objects(random));
    let count = random.between(1, DATA - 1);
    let trailing = match random.below(3) {
        0 => vec![0; 1],
        1 => vec![0; count],
        _ => random.bytes(count),
    };
    store.extend_from_slice(&trailing);
    store
}

/// A session in which most commands are judged by the object.
pub fn working_session(random: &mut Random) -> Session {
    Session {
        opened: random.chance(95),
        lcsg: random.pick(&STATES),
        lcsa: random.pick(&STATES[..3]),
        error: match random.below(4) {
            0 | 1 => 0,
            2 => random.pick(&engine::Refusal::ALL).code(),
            _ => random.byte(),
        },
    }
}

/// A session that is closed, terminated or has a byte that is no state.
pub fn odd_session(random: &mut Random) -> Session {
    let mut session = working_session(random);
    match random.below(5) {
        0 => session.opened = false,
        1 => session.lcsa = 0x0F,
        2 => session.lcsg = not_a_state(random),
        3 => session.lcsa = not_a_state(random),
        _ => {
            session.opened = false;
            session.lcsa = 0x0F;
        }
    }
    session
}

pub fn not_a_state(random: &mut Random) -> u8 {
    match random.chance(50) {
        true => random.pick(&[0x00, 0x02, 0x04, 0x06, 0x08, 0x0E, 0x10, 0x80, 0xFF]),
        false => random.byte_outside(&STATES),
    }
}
