//! Commands: judgment in the order of the steps, and what a granted command does.

use std::ops::Range;

use crate::counter::{self, Counter};
use crate::expression::CounterSet;
use crate::kinds::{end_of, Length, ObjectNumber, Offset};
use crate::metadata::{self, Changes};
use crate::queue::{self, SequenceNumber};
use crate::session::{may_become, Session, SessionObject, TERMINATION};
use crate::store::{self, Record, RecordMut, Slot};

pub const FLUSH: u8 = 0x80;

/// Bytes before InData in a command and before OutData in a response.
pub const HEADER: usize = 4;
pub const LONGEST_COMMAND: usize = 1_557;

pub const DONE: u8 = 0x00;
pub const REFUSED: u8 = 0xFF;

pub const GET: u8 = 0x01;
pub const SET: u8 = 0x02;
pub const OPEN: u8 = 0x70;
pub const CLOSE: u8 = 0x71;

/// D2 76 00 00 04, then "GenAuthAppl".
pub const IDENTIFIER: [u8; 16] = *b"\xD2\x76\x00\x00\x04GenAuthAppl";

/// The maximum, and the used count, of an object in the session.
const SESSION_OBJECT_SIZE: usize = 1;

/// What came of a command: 0 where a response stands, 1 where none does.
#[derive(Clone, Copy, Debug, PartialEq, Eq)]
pub struct Answer {
    pub outcome: u8,
    pub session: Session,
}

/// Why a command is refused.
#[derive(Clone, Copy, Debug, PartialEq, Eq)]
#[repr(u8)]
pub enum Refusal {
    NoSuchObject = 0x01,
    WrongParam = 0x03,
    WrongLength = 0x04,
    WrongValue = 0x05,
    Malformed = 0x06,
    NoAccess = 0x07,
    OutOfBounds = 0x08,
    UnknownCmd = 0x0A,
    OutOfSequence = 0x0C,
    NoRoom = 0x0D,
}

impl Refusal {
    pub const ALL: [Refusal; 10] = [
        Refusal::NoSuchObject,
        Refusal::WrongParam,
        Refusal::WrongLength,
        Refusal::WrongValue,
        Refusal::Malformed,
        Refusal::NoAccess,
        Refusal::OutOfBounds,
        Refusal::UnknownCmd,
        Refusal::OutOfSequence,
        Refusal::NoRoom,
    ];

    pub fn code(self) -> u8 {
        self as u8
    }
}

/// The rows of the command table.
#[derive(Clone, Copy, Debug, PartialEq, Eq)]
pub enum Row {
    GetData,
    GetMetadata,
    Write,
    EraseAndWrite,
    Count,
    Append,
    Acknowledge,
    SetMetadata,
    Open,
    Close,
}

/// What a command that no step refuses does.
#[derive(Clone, Debug, PartialEq, Eq)]
pub enum Action<'c> {
    AnswerData {
        record: Range<usize>,
        offset: Offset,
        shown: Length,
    },
    AnswerSessionObject {
        object: SessionObject,
        shown: Length,
    },
    AnswerMetadata {
        record: Range<usize>,
    },
    Change {
        record: Range<usize>,
        change: Change<'c>,
    },
    SetLifeCycle {
        object: SessionObject,
        state: u8,
    },
    Open,
    Close,
}

/// What a set does to the record of a stored object.
#[derive(Clone, Debug, PartialEq, Eq)]
pub enum Change<'c> {
    Write {
        offset: Offset,
        bytes: &'c [u8],
        erase: bool,
    },
    Count(Counter),
    /// A fare with this body.
    Append(&'c [u8]),
    /// All fares before this place are gone.
    Acknowledge(Offset),
    Metadata(Changes<'c>),
}

/// An action that no step refuses, and the counters that its access uses up.
#[derive(Clone, Debug, PartialEq, Eq)]
pub struct Granted<'c> {
    pub action: Action<'c>,
    pub counters: CounterSet,
}

impl<'c> Granted<'c> {
    /// An action that no expression was asked for.
    fn unasked(action: Action<'c>) -> Granted<'c> {
        Granted {
            action,
            counters: CounterSet::EMPTY,
        }
    }

    fn change(record: Range<usize>, change: Change<'c>, counters: CounterSet) -> Granted<'c> {
        let action = Action::Change { record, change };
        Granted { action, counters }
    }
}

/// Executes one command. The store and the room change in place.
pub fn execute(command: &[u8], store: &mut [u8], session: Session, room: &mut [u8]) -> Answer {
    if room.len() < HEADER {
        return Answer {
            outcome: 1,
            session,
        };
    }
    let session = flush(command, session);
    let session = match judge(command, store, session, room.len()) {
        Ok(granted) => {
            let session = perform(granted.action, store, session, room);
            store::use_up(store, &granted.counters);
            session
        }
        Err(refusal) => refuse(refusal, session, room),
    };
    Answer {
        outcome: 0,
        session,
    }
}

/// The session after the flush bit of the command, if it is set.
pub fn flush(command: &[u8], mut session: Session) -> Session {
    if command.first().is_some_and(|cmd| cmd & FLUSH != 0) {
        session.error = 0;
    }
    session
}

/// Steps 2 to 13, for a room of at least 4 bytes.
pub fn judge<'c>(
    command: &'c [u8],
    store: &[u8],
    session: Session,
    room: usize,
) -> Result<Granted<'c>, Refusal> {
    // Step 2.
    require(
        store::check_store(store) && session.is_valid(),
        Refusal::Malformed,
    )?;
    // Step 3.
    let frame = read_frame(command).ok_or(Refusal::WrongLength)?;
    // Step 4.
    require(is_known_cmd(frame.cmd), Refusal::UnknownCmd)?;
    // Step 5.
    require(is_in_sequence(frame.cmd, session), Refusal::OutOfSequence)?;
    // Step 6.
    let row = row_of(frame.cmd, frame.param).ok_or(Refusal::WrongParam)?;
    // Step 7.
    require(
        is_length_of_row(row, frame.in_data.len()),
        Refusal::WrongLength,
    )?;
    // Steps 8 to 13.
    let in_data = frame.in_data;
    match row {
        Row::GetData => judge_get_data(in_data, store, session, room),
        Row::GetMetadata => judge_get_metadata(in_data, store, room),
        Row::Write => judge_write(in_data, store, session, false),
        Row::EraseAndWrite => judge_write(in_data, store, session, true),
        Row::Count => judge_count(in_data, store, session),
        Row::Append => judge_append(in_data, store, session),
        Row::Acknowledge => judge_acknowledge(in_data, store, session),
        Row::SetMetadata => judge_set_metadata(in_data, store, session),
        Row::Open => judge_open(in_data),
        Row::Close => Ok(Granted::unasked(Action::Close)),
    }
}

fn require(condition: bool, refusal: Refusal) -> Result<(), Refusal> {
    if condition {
        Ok(())
    } else {
        Err(refusal)
    }
}

/// A command taken apart, the flush bit removed.
struct Frame<'c> {
    cmd: u8,
    param: u8,
    in_data: &'c [u8],
}

/// The parts of a command whose length and InLen are right.
fn read_frame(command: &[u8]) -> Option<Frame<'_>> {
    if command.len() < HEADER || command.len() > LONGEST_COMMAND {
        return None;
    }
    let (header, in_data) = command.split_at(HEADER);
    if number_at(header, 2) != in_data.len() {
        return None;
    }
    Some(Frame {
        cmd: header[0] & !FLUSH,
        param: header[1],
        in_data,
    })
}

fn is_known_cmd(cmd: u8) -> bool {
    matches!(cmd, GET | SET | OPEN | CLOSE)
}

fn is_in_sequence(cmd: u8, session: Session) -> bool {
    session.lcsa != TERMINATION && (session.opened || cmd == OPEN)
}

/// The row of the command table, for a Cmd without its flush bit.
pub fn row_of(cmd: u8, param: u8) -> Option<Row> {
    match (cmd, param) {
        (GET, 0x00) => Some(Row::GetData),
        (GET, 0x01) => Some(Row::GetMetadata),
        (SET, 0x00) => Some(Row::Write),
        (SET, 0x40) => Some(Row::EraseAndWrite),
        (SET, 0x02) => Some(Row::Count),
        (SET, 0x04) => Some(Row::Append),
        (SET, 0x05) => Some(Row::Acknowledge),
        (SET, 0x01) => Some(Row::SetMetadata),
        (OPEN, 0x00) => Some(Row::Open),
        (CLOSE, 0x00) => Some(Row::Close),
        _ => None,
    }
}

fn is_length_of_row(row: Row, in_len: usize) -> bool {
    match row {
        Row::GetData => in_len == 6,
        Row::GetMetadata => in_len == 2,
        Row::Write | Row::EraseAndWrite => in_len >= 5,
        Row::Count => in_len == 5,
        Row::Append => in_len.checked_sub(2).is_some_and(queue::is_body_size),
        Row::Acknowledge => in_len == 6,
        Row::SetMetadata => in_len >= 4,
        Row::Open => in_len == IDENTIFIER.len(),
        Row::Close => in_len == 0,
    }
}

/// The number at a place of a command, most significant byte first.
fn number_at(bytes: &[u8], place: usize) -> usize {
    usize::from(u16::from_be_bytes([bytes[place], bytes[place + 1]]))
}

/// The sequence number at a place of a command, most significant byte first.
fn sequence_number_at(bytes: &[u8], place: usize) -> SequenceNumber {
    let bytes = [0, 1, 2, 3].map(|byte| bytes[place + byte]);
    SequenceNumber(u32::from_be_bytes(bytes))
}

/// The object named at the front of InData.
fn object_named(in_data: &[u8]) -> ObjectNumber {
    ObjectNumber(u16::from_be_bytes([in_data[0], in_data[1]]))
}

/// Where an object lives.
enum Object {
    Session(SessionObject),
    Stored(Range<usize>),
}

/// Step 9.
fn find_object(in_data: &[u8], store: &[u8]) -> Result<Object, Refusal> {
    let number = object_named(in_data);
    if let Some(object) = SessionObject::from_number(number) {
        return Ok(Object::Session(object));
    }
    store::find(store, number)
        .map(Object::Stored)
        .ok_or(Refusal::NoSuchObject)
}

/// Step 10 at a stored object: the counters that its access uses up.
fn judge_access(
    record: Record<'_>,
    slot: Slot,
    session: Session,
    store: &[u8],
) -> Result<CounterSet, Refusal> {
    let judged = record.judge(slot, session, store);
    judged.ok_or(Refusal::NoAccess)
}

/// Step 11 of a write.
fn require_within(offset: Offset, length: Length, limit: usize) -> Result<(), Refusal> {
    require(end_of(offset, length) <= limit, Refusal::OutOfBounds)
}

/// Step 11 of a get of data, and how many of the used bytes from offset it shows.
fn length_shown(offset: Offset, length: Length, used: usize) -> Result<Length, Refusal> {
    require(offset.0 <= used, Refusal::OutOfBounds)?;
    let end = end_of(offset, length).min(used);
    Ok(Length(end - offset.0))
}

fn require_room(out_len: usize, room: usize) -> Result<(), Refusal> {
    require(HEADER + out_len <= room, Refusal::NoRoom)
}

fn judge_get_data<'c>(
    in_data: &[u8],
    store: &[u8],
    session: Session,
    room: usize,
) -> Result<Granted<'c>, Refusal> {
    let offset = Offset(number_at(in_data, 2));
    let length = Length(number_at(in_data, 4));
    match find_object(in_data, store)? {
        Object::Session(object) => {
            let shown = length_shown(offset, length, SESSION_OBJECT_SIZE)?;
            require_room(shown.0, room)?;
            let action = Action::AnswerSessionObject { object, shown };
            Ok(Granted::unasked(action))
        }
        Object::Stored(place) => {
            let record = Record::at(store, place.clone());
            let counters = judge_access(record, Slot::Read, session, store)?;
            let shown = length_shown(offset, length, record.used())?;
            require_room(shown.0, room)?;
            let action = Action::AnswerData {
                record: place,
                offset,
                shown,
            };
            Ok(Granted { action, counters })
        }
    }
}

fn judge_get_metadata<'c>(
    in_data: &[u8],
    store: &[u8],
    room: usize,
) -> Result<Granted<'c>, Refusal> {
    let Object::Stored(place) = find_object(in_data, store)? else {
        return Err(Refusal::NoAccess);
    };
    let record = Record::at(store, place.clone());
    require_room(metadata::answer_length(record), room)?;
    Ok(Granted::unasked(Action::AnswerMetadata { record: place }))
}

fn judge_write<'c>(
    in_data: &'c [u8],
    store: &[u8],
    session: Session,
    erase: bool,
) -> Result<Granted<'c>, Refusal> {
    let offset = Offset(number_at(in_data, 2));
    let bytes = &in_data[4..];
    match find_object(in_data, store)? {
        Object::Session(object) => judge_session_write(object, offset, bytes, session),
        Object::Stored(place) => {
            let record = Record::at(store, place.clone());
            // Whatever its change expression says, a queue takes no plain write.
            require(record.queue().is_none(), Refusal::NoAccess)?;
            let counters = judge_access(record, Slot::Change, session, store)?;
            require_write_fits(record, offset, Length(bytes.len()))?;
            let change = Change::Write {
                offset,
                bytes,
                erase,
            };
            Ok(Granted::change(place, change, counters))
        }
    }
}

/// Step 11 of a write to a stored object; a counter takes all of its data only.
fn require_write_fits(record: Record<'_>, offset: Offset, length: Length) -> Result<(), Refusal> {
    match record.counter() {
        None => require_within(offset, length, record.maximum()),
        Some(_) => require(
            offset == Offset(0) && length == Length(counter::SIZE),
            Refusal::OutOfBounds,
        ),
    }
}

fn judge_session_write<'c>(
    object: SessionObject,
    offset: Offset,
    bytes: &[u8],
    session: Session,
) -> Result<Granted<'c>, Refusal> {
    require(object != SessionObject::LastError, Refusal::NoAccess)?;
    require_within(offset, Length(bytes.len()), SESSION_OBJECT_SIZE)?;
    // Within bounds, a write has one byte at offset 0.
    let state = bytes[0];
    require(may_become(session.byte(object), state), Refusal::WrongValue)?;
    Ok(Granted::unasked(Action::SetLifeCycle { object, state }))
}

/// Step 9 of a set for one kind of stored objects: 07 at the last error, 03 at a life cycle.
fn find_stored(in_data: &[u8], store: &[u8]) -> Result<Range<usize>, Refusal> {
    match find_object(in_data, store)? {
        Object::Stored(place) => Ok(place),
        Object::Session(SessionObject::LastError) => Err(Refusal::NoAccess),
        Object::Session(SessionObject::LcsG | SessionObject::LcsA) => Err(Refusal::WrongParam),
    }
}

/// Steps 9 to 11 of a count; right after access, the kind.
fn judge_count<'c>(in_data: &[u8], store: &[u8], session: Session) -> Result<Granted<'c>, Refusal> {
    let offset = Offset(number_at(in_data, 2));
    let step = in_data[4];
    let place = find_stored(in_data, store)?;
    let record = Record::at(store, place.clone());
    let counters = judge_access(record, Slot::Change, session, store)?;
    let counter = record.counter().ok_or(Refusal::WrongParam)?;
    require(offset == Offset(0), Refusal::OutOfBounds)?;
    let counter = counter.count(step).ok_or(Refusal::OutOfBounds)?;
    Ok(Granted::change(place, Change::Count(counter), counters))
}

/// Steps 9 to 13 of an append; right after access, the kind.
fn judge_append<'c>(
    in_data: &'c [u8],
    store: &[u8],
    session: Session,
) -> Result<Granted<'c>, Refusal> {
    let body = &in_data[2..];
    let place = find_stored(in_data, store)?;
    let record = Record::at(store, place.clone());
    let counters = judge_access(record, Slot::Change, session, store)?;
    let queue = record.queue().ok_or(Refusal::WrongParam)?;
    // Step 11.
    let used = record.used() + queue::fare_size(body.len());
    require(used <= record.maximum(), Refusal::OutOfBounds)?;
    // Step 13.
    let has_number = queue.next_number() != SequenceNumber::LAST;
    require(has_number, Refusal::NoRoom)?;
    Ok(Granted::change(place, Change::Append(body), counters))
}

/// Steps 9 to 12 of an acknowledgement; right after access, the kind.
fn judge_acknowledge<'c>(
    in_data: &[u8],
    store: &[u8],
    session: Session,
) -> Result<Granted<'c>, Refusal> {
    let number = sequence_number_at(in_data, 2);
    let place = find_stored(in_data, store)?;
    let record = Record::at(store, place.clone());
    let counters = judge_access(record, Slot::Change, session, store)?;
    let queue = record.queue().ok_or(Refusal::WrongParam)?;
    let end = queue.end_of(number).ok_or(Refusal::WrongValue)?;
    Ok(Granted::change(place, Change::Acknowledge(end), counters))
}

fn judge_set_metadata<'c>(
    in_data: &'c [u8],
    store: &[u8],
    session: Session,
) -> Result<Granted<'c>, Refusal> {
    let Object::Stored(place) = find_object(in_data, store)? else {
        return Err(Refusal::NoAccess);
    };
    let record = Record::at(store, place.clone());
    let counters = judge_access(record, Slot::Change, session, store)?;
    let changes =
        metadata::read_changes(&in_data[2..], record.lcso()).ok_or(Refusal::WrongValue)?;
    Ok(Granted::change(place, Change::Metadata(changes), counters))
}

/// Step 8.
fn judge_open<'c>(in_data: &[u8]) -> Result<Granted<'c>, Refusal> {
    require(in_data == IDENTIFIER, Refusal::WrongValue)?;
    Ok(Granted::unasked(Action::Open))
}

/// Writes the refusal and keeps the highest error.
fn refuse(refusal: Refusal, mut session: Session, room: &mut [u8]) -> Session {
    room[..HEADER].copy_from_slice(&[REFUSED, 0, 0, 0]);
    session.error = session.error.max(refusal.code());
    session
}

/// Does what no step refused.
fn perform(action: Action<'_>, store: &mut [u8], session: Session, room: &mut [u8]) -> Session {
    match action {
        Action::AnswerData {
            record,
            offset,
            shown,
        } => {
            let data = Record::at(store, record).data(offset, shown);
            out_data(room, shown.0).copy_from_slice(data);
            session
        }
        Action::AnswerSessionObject { object, shown } => {
            out_data(room, shown.0).fill(session.byte(object));
            after_read(object, shown, session)
        }
        Action::AnswerMetadata { record } => {
            let record = Record::at(store, record);
            let out = out_data(room, metadata::answer_length(record));
            metadata::write_answer(record, out);
            session
        }
        Action::Change { record, change } => {
            make_change(change, RecordMut::at(store, record));
            answer_nothing(room, session)
        }
        Action::SetLifeCycle { object, state } => {
            answer_nothing(room, session.with_byte(object, state))
        }
        Action::Open => answer_nothing(room, with_opened(session, true)),
        Action::Close => answer_nothing(room, with_opened(session, false)),
    }
}

fn make_change(change: Change<'_>, mut record: RecordMut<'_>) {
    match change {
        Change::Write {
            offset,
            bytes,
            erase,
        } => write(record, offset, bytes, erase),
        Change::Count(counter) => record.data().copy_from_slice(&counter.to_data()),
        Change::Append(body) => append(record, body),
        Change::Acknowledge(end) => acknowledge(record, end),
        Change::Metadata(changes) => changes.store(&mut record),
    }
}

/// Writes the header of a response that is done, and lends the part for OutData.
fn out_data(room: &mut [u8], out_len: usize) -> &mut [u8] {
    let [high, low] = (out_len as u16).to_be_bytes();
    room[..HEADER].copy_from_slice(&[DONE, 0, high, low]);
    &mut room[HEADER..HEADER + out_len]
}

fn answer_nothing(room: &mut [u8], session: Session) -> Session {
    out_data(room, 0);
    session
}

/// A get that returns the byte of the last error then sets it to 0.
fn after_read(object: SessionObject, shown: Length, session: Session) -> Session {
    if object == SessionObject::LastError && shown.0 == SESSION_OBJECT_SIZE {
        session.with_byte(object, 0)
    } else {
        session
    }
}

fn write(mut record: RecordMut<'_>, offset: Offset, bytes: &[u8], erase: bool) {
    let end = end_of(offset, Length(bytes.len()));
    let used = if erase {
        record.data().fill(0);
        end
    } else {
        record.used().max(end)
    };
    record.data()[offset.0..end].copy_from_slice(bytes);
    record.set_used(used);
}

fn append(mut record: RecordMut<'_>, body: &[u8]) {
    let used = record.used();
    let used = queue::append(record.data(), used, body);
    record.set_used(used);
}

fn acknowledge(mut record: RecordMut<'_>, end: Offset) {
    let used = record.used();
    let used = queue::acknowledge(record.data(), used, end);
    record.set_used(used);
}

fn with_opened(mut session: Session, opened: bool) -> Session {
    session.opened = opened;
    session
}
