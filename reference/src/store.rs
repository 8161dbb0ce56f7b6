//! The object store: records end to end, least significant byte first.

use std::ops::Range;

use crate::counter::{self, Counter, Direction};
use crate::expression::{self, CounterSet, States};
use crate::kinds::{Length, ObjectNumber, Offset};
use crate::queue::{self, Queue, QueueFault};
use crate::session::{is_state, Session, SessionObject};

pub const LARGEST_STORE: usize = 16_384;
pub const MOST_RECORDS: usize = 32;
pub const LARGEST_MAXIMUM: usize = 1_500;

/// Bytes of a record before its data.
pub const DATA: usize = 96;

/// Places of a record's fields.
pub const LENGTH: usize = 0;
pub const KIND: usize = 2;
pub const OBJECT: usize = 4;
pub const MAXIMUM: usize = 6;
pub const USED: usize = 8;
pub const LCSO: usize = 10;
pub const ZERO: usize = 11;
pub const SLOTS: usize = 12;

pub const SLOT_SIZE: usize = 28;

/// The kinds of records.
#[derive(Clone, Copy, Debug, PartialEq, Eq)]
pub enum RecordKind {
    Data,
    Counter(Direction),
    Queue,
}

impl RecordKind {
    pub const ALL: [RecordKind; 4] = [
        RecordKind::Data,
        RecordKind::Counter(Direction::Up),
        RecordKind::Queue,
        RecordKind::Counter(Direction::Down),
    ];

    pub const fn number(self) -> u16 {
        match self {
            RecordKind::Data => 0x0001,
            RecordKind::Counter(Direction::Up) => 0x0002,
            RecordKind::Queue => 0x0003,
            RecordKind::Counter(Direction::Down) => 0x0004,
        }
    }

    pub fn from_number(number: u16) -> Option<RecordKind> {
        Self::ALL.into_iter().find(|kind| kind.number() == number)
    }
}

/// The three slots of a record, in their order.
#[derive(Clone, Copy, Debug, PartialEq, Eq)]
pub enum Slot {
    Change,
    Read,
    Execute,
}

impl Slot {
    pub const ALL: [Slot; 3] = [Slot::Change, Slot::Read, Slot::Execute];

    /// The slot's place in a record.
    pub fn place(self) -> Range<usize> {
        let start = SLOTS + self as usize * SLOT_SIZE;
        start..start + SLOT_SIZE
    }
}

/// The clause of the store's form that a malformed store breaks first.
#[derive(Clone, Copy, Debug, PartialEq, Eq)]
pub enum Fault {
    TooLong,
    NoRecord,
    TooManyRecords,
    CutShort,
    RecordLength,
    Kind,
    SessionObject,
    Maximum,
    Used,
    CounterMaximum,
    CounterUsed,
    LifeCycle,
    ZeroByte,
    Expression(Slot),
    SlotTail(Slot),
    Queue(QueueFault),
    DataTail,
    Order,
}

impl Fault {
    pub const ALL: [Fault; 27] = [
        Fault::TooLong,
        Fault::NoRecord,
        Fault::TooManyRecords,
        Fault::CutShort,
        Fault::RecordLength,
        Fault::Kind,
        Fault::SessionObject,
        Fault::Maximum,
        Fault::Used,
        Fault::CounterMaximum,
        Fault::CounterUsed,
        Fault::LifeCycle,
        Fault::ZeroByte,
        Fault::Expression(Slot::Change),
        Fault::Expression(Slot::Read),
        Fault::Expression(Slot::Execute),
        Fault::SlotTail(Slot::Change),
        Fault::SlotTail(Slot::Read),
        Fault::SlotTail(Slot::Execute),
        Fault::Queue(QueueFault::Used),
        Fault::Queue(QueueFault::CutShort),
        Fault::Queue(QueueFault::BodySize),
        Fault::Queue(QueueFault::FareKind),
        Fault::Queue(QueueFault::FareNumber),
        Fault::Queue(QueueFault::NextNumber),
        Fault::DataTail,
        Fault::Order,
    ];
}

/// Whether the store is well formed.
pub fn check_store(store: &[u8]) -> bool {
    judge_store(store).is_ok()
}

/// The first clause that the store breaks, if any.
pub fn judge_store(store: &[u8]) -> Result<(), Fault> {
    if store.is_empty() {
        return Err(Fault::NoRecord);
    }
    if store.len() > LARGEST_STORE {
        return Err(Fault::TooLong);
    }
    let mut rest = store;
    let mut records = 0;
    let mut previous = None;
    while !rest.is_empty() {
        records += 1;
        if records > MOST_RECORDS {
            return Err(Fault::TooManyRecords);
        }
        let (record, after) = split_record(rest)?;
        judge_record(record)?;
        // None is below every number.
        if previous >= Some(record.object()) {
            return Err(Fault::Order);
        }
        previous = Some(record.object());
        rest = after;
    }
    Ok(())
}

/// The record at the front of the bytes, and the bytes after it.
fn split_record(bytes: &[u8]) -> Result<(Record<'_>, &[u8]), Fault> {
    if bytes.len() < DATA {
        return Err(Fault::CutShort);
    }
    let header = Record { bytes };
    let maximum = header.maximum();
    if maximum == 0 || maximum > LARGEST_MAXIMUM {
        return Err(Fault::Maximum);
    }
    if header.length() != DATA + maximum {
        return Err(Fault::RecordLength);
    }
    if bytes.len() < header.length() {
        return Err(Fault::CutShort);
    }
    let (record, after) = bytes.split_at(header.length());
    Ok((Record { bytes: record }, after))
}

/// Judges the fields of a record whose maximum and length are right.
fn judge_record(record: Record<'_>) -> Result<(), Fault> {
    let kind = record.kind().ok_or(Fault::Kind)?;
    if SessionObject::from_number(record.object()).is_some() {
        return Err(Fault::SessionObject);
    }
    judge_sizes(kind, record)?;
    if !is_state(record.lcso()) {
        return Err(Fault::LifeCycle);
    }
    if record.bytes[ZERO] != 0 {
        return Err(Fault::ZeroByte);
    }
    for slot in Slot::ALL {
        judge_slot(record, slot)?;
    }
    if kind == RecordKind::Queue {
        queue::judge(record.used_data()).map_err(Fault::Queue)?;
    }
    if !is_zero(&record.bytes[DATA + record.used()..]) {
        return Err(Fault::DataTail);
    }
    Ok(())
}

/// Judges maximum and used, which are fixed for a counter; a queue's contents judge
/// the rest of its used.
fn judge_sizes(kind: RecordKind, record: Record<'_>) -> Result<(), Fault> {
    match kind {
        RecordKind::Data | RecordKind::Queue if record.used() > record.maximum() => {
            Err(Fault::Used)
        }
        RecordKind::Counter(_) if record.maximum() != counter::SIZE => Err(Fault::CounterMaximum),
        RecordKind::Counter(_) if record.used() != counter::SIZE => Err(Fault::CounterUsed),
        _ => Ok(()),
    }
}

fn judge_slot(record: Record<'_>, slot: Slot) -> Result<(), Fault> {
    let bytes = &record.bytes[slot.place()];
    let length = usize::from(bytes[0]);
    if length > expression::LONGEST || !expression::is_well_formed(&bytes[1..1 + length]) {
        return Err(Fault::Expression(slot));
    }
    if !is_zero(&bytes[1 + length..]) {
        return Err(Fault::SlotTail(slot));
    }
    Ok(())
}

fn is_zero(bytes: &[u8]) -> bool {
    bytes.iter().fold(0, |all, byte| all | byte) == 0
}

/// The number at a place of a record, least significant byte first.
fn number_at(bytes: &[u8], place: usize) -> u16 {
    u16::from_le_bytes([bytes[place], bytes[place + 1]])
}

/// A record of a well-formed store, to be read.
#[derive(Clone, Copy, Debug)]
pub struct Record<'s> {
    bytes: &'s [u8],
}

impl<'s> Record<'s> {
    /// The record at a place given by `find`.
    pub fn at(store: &'s [u8], place: Range<usize>) -> Record<'s> {
        Record {
            bytes: &store[place],
        }
    }

    fn length(self) -> usize {
        usize::from(number_at(self.bytes, LENGTH))
    }

    /// The kind, unless its number is unknown.
    pub fn kind(self) -> Option<RecordKind> {
        RecordKind::from_number(number_at(self.bytes, KIND))
    }

    pub fn object(self) -> ObjectNumber {
        ObjectNumber(number_at(self.bytes, OBJECT))
    }

    pub fn maximum(self) -> usize {
        usize::from(number_at(self.bytes, MAXIMUM))
    }

    pub fn used(self) -> usize {
        usize::from(number_at(self.bytes, USED))
    }

    pub fn lcso(self) -> u8 {
        self.bytes[LCSO]
    }

    pub fn expression(self, slot: Slot) -> &'s [u8] {
        let bytes = &self.bytes[slot.place()];
        &bytes[1..1 + usize::from(bytes[0])]
    }

    /// Judges the slot's expression in this session and the record's store: the
    /// counters to move if it holds.
    pub fn judge(self, slot: Slot, session: Session, store: &[u8]) -> Option<CounterSet> {
        let states = States {
            lcsg: session.lcsg,
            lcsa: session.lcsa,
            lcso: self.lcso(),
        };
        expression::judge(self.expression(slot), states, |number| {
            is_below_threshold(store, number)
        })
    }

    /// The part of the data that a read shows.
    pub fn data(self, offset: Offset, length: Length) -> &'s [u8] {
        &self.bytes[DATA..][offset.0..][..length.0]
    }

    fn used_data(self) -> &'s [u8] {
        self.data(Offset(0), Length(self.used()))
    }

    /// The counter that the record holds, if it holds one.
    pub fn counter(self) -> Option<Counter> {
        match self.kind()? {
            RecordKind::Data | RecordKind::Queue => None,
            RecordKind::Counter(direction) => {
                Some(Counter::from_data(direction, &self.bytes[DATA..]))
            }
        }
    }

    /// The queue that the record holds, if it holds one.
    pub fn queue(self) -> Option<Queue<'s>> {
        let is_queue = self.kind() == Some(RecordKind::Queue);
        is_queue.then(|| Queue::from_used(self.used_data()))
    }
}

/// A record of a well-formed store, to be changed.
pub struct RecordMut<'s> {
    bytes: &'s mut [u8],
}

impl<'s> RecordMut<'s> {
    /// The record at a place given by `find`.
    pub fn at(store: &'s mut [u8], place: Range<usize>) -> RecordMut<'s> {
        RecordMut {
            bytes: &mut store[place],
        }
    }

    pub fn used(&self) -> usize {
        usize::from(number_at(self.bytes, USED))
    }

    pub fn set_used(&mut self, used: usize) {
        debug_assert!(used <= LARGEST_MAXIMUM);
        self.bytes[USED..USED + 2].copy_from_slice(&(used as u16).to_le_bytes());
    }

    pub fn set_lcso(&mut self, state: u8) {
        self.bytes[LCSO] = state;
    }

    /// Puts an expression in a slot, zeros after it.
    pub fn set_expression(&mut self, slot: Slot, expression: &[u8]) {
        let bytes = &mut self.bytes[slot.place()];
        let (present, tail) = bytes[1..].split_at_mut(expression.len());
        present.copy_from_slice(expression);
        tail.fill(0);
        bytes[0] = expression.len() as u8;
    }

    pub fn data(&mut self) -> &mut [u8] {
        &mut self.bytes[DATA..]
    }
}

/// The place of an object's record in a well-formed store.
pub fn find(store: &[u8], object: ObjectNumber) -> Option<Range<usize>> {
    records(store).find_map(|(place, record)| (record.object() == object).then_some(place))
}

/// The place and the state of an up counter in a well-formed store.
fn find_up_counter(store: &[u8], number: ObjectNumber) -> Option<(Range<usize>, Counter)> {
    let place = find(store, number)?;
    let counter = Record::at(store, place.clone()).counter()?;
    (counter.direction == Direction::Up).then_some((place, counter))
}

/// Whether an up counter of this number exists and can still go up.
fn is_below_threshold(store: &[u8], number: ObjectNumber) -> bool {
    find_up_counter(store, number).is_some_and(|(_, counter)| !counter.is_reached())
}

/// Moves each of the counters by one.
pub fn use_up(store: &mut [u8], counters: &CounterSet) {
    for &number in counters.numbers() {
        if let Some((place, counter)) = find_up_counter(store, number) {
            let mut record = RecordMut::at(store, place);
            record.data().copy_from_slice(&counter.used_up().to_data());
        }
    }
}

/// The records of a well-formed store with their places.
pub fn records(store: &[u8]) -> impl Iterator<Item = (Range<usize>, Record<'_>)> {
    let mut start = 0;
    std::iter::from_fn(move || {
        if start == store.len() {
            return None;
        }
        let place = start..start + usize::from(number_at(store, start + LENGTH));
        start = place.end;
        Some((place.clone(), Record::at(store, place)))
    })
}
