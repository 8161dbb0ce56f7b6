//! What the cases cover of fare queues.
//!
//! Queues are taken apart and judged here once more, as lists of numbers and bodies,
//! apart from the engine.

use super::{chosen, number_at, CommandRow, Event, Verdict};
use crate::counter::Direction;
use crate::engine::{Refusal, Row, HEADER};
use crate::kinds::{Length, ObjectNumber, Offset};
use crate::session::SessionObject;
use crate::store::{self, Record, RecordKind};

/// A queue as a list: numbers and bodies, the oldest fare first.
#[derive(Clone, Debug, PartialEq, Eq)]
struct Listed {
    next: u32,
    fares: Vec<(u32, Vec<u8>)>,
}

impl Listed {
    /// The queue of a record of a well-formed store, if it holds one.
    fn of(record: Record<'_>) -> Option<Listed> {
        if record.kind() != Some(RecordKind::Queue) {
            return None;
        }
        let data = record.data(Offset(0), Length(record.used()));
        let mut fares = Vec::new();
        let mut place = 4;
        while place < data.len() {
            let length = usize::from(data[place]) + 256 * usize::from(data[place + 1]);
            let body = data[place + 8..place + length].to_vec();
            fares.push((little(&data[place + 4..place + 8]), body));
            place += length;
        }
        let next = little(&data[..4]);
        Some(Listed { next, fares })
    }

    fn used(&self) -> usize {
        let sizes = self.fares.iter().map(|(_, body)| 8 + body.len());
        4 + sizes.sum::<usize>()
    }

    /// The data of a record of this maximum.
    fn data(&self, maximum: usize) -> Vec<u8> {
        let mut data = self.next.to_le_bytes().to_vec();
        for (number, body) in &self.fares {
            data.extend([(8 + body.len()) as u8, 0, 1, 0]);
            data.extend(number.to_le_bytes());
            data.extend(body);
        }
        data.resize(maximum, 0);
        data
    }

    fn append(&mut self, body: &[u8], maximum: usize) -> Verdict {
        if self.used() + 8 + body.len() > maximum {
            return Verdict::Refused(Refusal::OutOfBounds);
        }
        let Some(next) = self.next.checked_add(1) else {
            return Verdict::Refused(Refusal::NoRoom);
        };
        self.fares.push((self.next, body.to_vec()));
        self.next = next;
        Verdict::Done
    }

    fn acknowledge(&mut self, number: u32) -> Verdict {
        if !self.fares.iter().any(|fare| fare.0 == number) {
            return Verdict::Refused(Refusal::WrongValue);
        }
        self.fares.retain(|fare| fare.0 > number);
        Verdict::Done
    }

    /// The number of the oldest fare, or of the next where there is none.
    fn first(&self) -> u32 {
        self.fares.first().map_or(self.next, |fare| fare.0)
    }
}

/// The number of these bytes, least significant first.
fn little(bytes: &[u8]) -> u32 {
    let bytes = bytes.iter().rev();
    bytes.fold(0, |number, &byte| number << 8 | u32::from(byte))
}

/// The number of these bytes, most significant first.
fn big(bytes: &[u8]) -> u32 {
    let bytes = bytes.iter();
    bytes.fold(0, |number, &byte| number << 8 | u32::from(byte))
}

/// How many fares are many.
const MANY: usize = 20;

/// What an append meets at a queue, the refusals in their order first.
#[derive(Clone, Copy, Debug, PartialEq, Eq)]
pub enum AppendMet {
    NoAccess,
    /// 07 although 08 would be due as well.
    NoAccessThoughFull,
    /// 07 although 0D would be due as well.
    NoAccessThoughNoNumber,
    /// 08 with so many bytes left.
    TooLong(usize),
    TooLongByOne,
    /// 08 although 0D would be due as well.
    TooLongThoughNoNumber,
    /// 0D: the next number is FFFFFFFF.
    NoNumber,
    NoNumberForEmpty,
    NoNumberThoughExact,
    ToEmpty,
    Behind,
    BehindMany,
    Exact,
    /// A body of 1 byte with 9 bytes left, of 200 with 208.
    ExactOf1,
    ExactOf200,
    OneSpare,
    BodyOf1,
    BodyOf200,
    /// The fare gets the number 0.
    FirstNumber,
    /// FFFFFFFE, the last one ever given.
    LastNumber,
    /// The next number's lowest byte becomes 0.
    Carries,
}

impl AppendMet {
    const LEFT: [usize; 6] = [0, 1, 7, 8, 9, 207];

    fn all() -> Vec<AppendMet> {
        let mut all = vec![
            AppendMet::NoAccess,
            AppendMet::NoAccessThoughFull,
            AppendMet::NoAccessThoughNoNumber,
            AppendMet::TooLongByOne,
            AppendMet::TooLongThoughNoNumber,
            AppendMet::NoNumber,
            AppendMet::NoNumberForEmpty,
            AppendMet::NoNumberThoughExact,
            AppendMet::ToEmpty,
            AppendMet::Behind,
            AppendMet::BehindMany,
            AppendMet::Exact,
            AppendMet::ExactOf1,
            AppendMet::ExactOf200,
            AppendMet::OneSpare,
            AppendMet::BodyOf1,
            AppendMet::BodyOf200,
            AppendMet::FirstNumber,
            AppendMet::LastNumber,
            AppendMet::Carries,
        ];
        all.extend(Self::LEFT.map(AppendMet::TooLong));
        all
    }
}

/// What an acknowledgement meets at a queue, the refusals in their order first.
#[derive(Clone, Copy, Debug, PartialEq, Eq)]
pub enum AcknowledgeMet {
    NoAccess,
    /// 07 although 05 would be due as well.
    NoAccessThoughAbsent,
    OfEmpty,
    /// The number just before the first one present.
    JustBefore,
    LongBefore,
    /// The next number.
    Next,
    LongAfter,
    /// A number present, its bytes in the other order.
    Swapped,
    Only,
    FirstOfSeveral,
    FirstOfMany,
    Middle,
    LastOfSeveral,
    NumberZero,
    /// FFFFFFFE, the last one ever given.
    LastNumber,
    /// From a full queue.
    OfFull,
}

impl AcknowledgeMet {
    const ALL: [AcknowledgeMet; 16] = [
        AcknowledgeMet::NoAccess,
        AcknowledgeMet::NoAccessThoughAbsent,
        AcknowledgeMet::OfEmpty,
        AcknowledgeMet::JustBefore,
        AcknowledgeMet::LongBefore,
        AcknowledgeMet::Next,
        AcknowledgeMet::LongAfter,
        AcknowledgeMet::Swapped,
        AcknowledgeMet::Only,
        AcknowledgeMet::FirstOfSeveral,
        AcknowledgeMet::FirstOfMany,
        AcknowledgeMet::Middle,
        AcknowledgeMet::LastOfSeveral,
        AcknowledgeMet::NumberZero,
        AcknowledgeMet::LastNumber,
        AcknowledgeMet::OfFull,
    ];
}

/// The commands for queues alone.
#[derive(Clone, Copy, Debug, PartialEq, Eq)]
pub enum QueueCommand {
    Append,
    Acknowledge,
}

impl QueueCommand {
    const ALL: [QueueCommand; 2] = [QueueCommand::Append, QueueCommand::Acknowledge];

    fn of(row: CommandRow) -> Option<QueueCommand> {
        match row {
            CommandRow::Known(Row::Append) => Some(QueueCommand::Append),
            CommandRow::Known(Row::Acknowledge) => Some(QueueCommand::Acknowledge),
            _ => None,
        }
    }

    /// The lengths of InData that step 7 refuses, next to the right ones and elsewhere.
    fn wrong_lengths(self) -> &'static [usize] {
        match self {
            QueueCommand::Append => &[2, 203],
            QueueCommand::Acknowledge => &[5, 7],
        }
    }

    fn is_length(self, in_len: usize) -> bool {
        match self {
            QueueCommand::Append => (3..=202).contains(&in_len),
            QueueCommand::Acknowledge => in_len == 6,
        }
    }
}

/// Plain writes.
#[derive(Clone, Copy, Debug, PartialEq, Eq)]
pub enum Plain {
    Write,
    Erase,
}

/// What other commands meet at a queue.
#[derive(Clone, Copy, Debug, PartialEq, Eq)]
pub enum OtherMet {
    /// 07, as the change expression has it.
    PlainNoAccess(Plain),
    /// 07 although the change expression holds.
    PlainThoughGranted(Plain),
    /// And would use up counters.
    PlainThoughCounters(Plain),
    /// And the bytes would not fit.
    PlainThoughTooLong(Plain),
    CountNoAccess,
    Count,
    GetAll,
    GetShortened,
    GetPart,
    GetOfEmpty,
    GetNothingAtUsed,
    GetAboveUsed,
    GetNoAccess,
    GetNoRoom,
    GetMetadata,
    SetMetadata,
    SetMetadataNoAccess,
    SetMetadataWrong,
}

impl OtherMet {
    fn all() -> Vec<OtherMet> {
        let mut all = vec![
            OtherMet::CountNoAccess,
            OtherMet::Count,
            OtherMet::GetAll,
            OtherMet::GetShortened,
            OtherMet::GetPart,
            OtherMet::GetOfEmpty,
            OtherMet::GetNothingAtUsed,
            OtherMet::GetAboveUsed,
            OtherMet::GetNoAccess,
            OtherMet::GetNoRoom,
            OtherMet::GetMetadata,
            OtherMet::SetMetadata,
            OtherMet::SetMetadataNoAccess,
            OtherMet::SetMetadataWrong,
        ];
        for plain in [Plain::Write, Plain::Erase] {
            all.extend([
                OtherMet::PlainNoAccess(plain),
                OtherMet::PlainThoughGranted(plain),
                OtherMet::PlainThoughCounters(plain),
                OtherMet::PlainThoughTooLong(plain),
            ]);
        }
        all
    }
}

/// A row of the table of queues.
#[derive(Clone, Copy, Debug, PartialEq, Eq)]
pub enum QueueRow {
    Append(AppendMet),
    Acknowledge(AcknowledgeMet),
    /// 04 for InData of this length.
    OfWrongLength(QueueCommand, usize),
    OfNoObject(QueueCommand),
    OfSession(QueueCommand, SessionObject),
    OfDataNoAccess(QueueCommand),
    OfData(QueueCommand),
    OfCounterNoAccess(QueueCommand, Direction),
    OfCounter(QueueCommand, Direction),
    Other(OtherMet),
}

impl QueueRow {
    pub fn all() -> Vec<QueueRow> {
        let mut all = Vec::new();
        all.extend(AppendMet::all().into_iter().map(QueueRow::Append));
        all.extend(AcknowledgeMet::ALL.map(QueueRow::Acknowledge));
        for command in QueueCommand::ALL {
            let lengths = command.wrong_lengths().iter();
            all.extend(lengths.map(|&length| QueueRow::OfWrongLength(command, length)));
            all.push(QueueRow::OfNoObject(command));
            all.extend(SessionObject::ALL.map(|object| QueueRow::OfSession(command, object)));
            all.push(QueueRow::OfDataNoAccess(command));
            all.push(QueueRow::OfData(command));
            all.extend(Direction::ALL.map(|way| QueueRow::OfCounterNoAccess(command, way)));
            all.extend(Direction::ALL.map(|way| QueueRow::OfCounter(command, way)));
        }
        all.extend(OtherMet::all().into_iter().map(QueueRow::Other));
        all
    }
}

impl Event<'_> {
    /// The rows of queues that the event shows.
    pub(super) fn queue_rows(&self) -> Vec<QueueRow> {
        match QueueCommand::of(self.row) {
            Some(command) => self.queue_command_rows(command),
            None => self.other_command_rows(),
        }
    }

    /// The record that the command names, in a well-formed store.
    fn record_named(&self) -> Option<Record<'_>> {
        let number = ObjectNumber(number_at(self.command, HEADER) as u16);
        let place = store::find(&self.before.store, number)?;
        Some(Record::at(&self.before.store, place))
    }

    fn queue_command_rows(&self, command: QueueCommand) -> Vec<QueueRow> {
        let in_len = self.command.len() - HEADER;
        match self.verdict {
            Verdict::NoResponse => return Vec::new(),
            Verdict::Refused(Refusal::NoSuchObject) => return vec![QueueRow::OfNoObject(command)],
            Verdict::Refused(Refusal::WrongLength) => {
                let is_frame = number_at(self.command, 2) == in_len;
                let is_listed = command.wrong_lengths().contains(&in_len);
                let row = QueueRow::OfWrongLength(command, in_len);
                return chosen(&[(is_frame && is_listed, row)]);
            }
            Verdict::Refused(Refusal::Malformed | Refusal::OutOfSequence) => return Vec::new(),
            _ => {}
        }
        let number = ObjectNumber(number_at(self.command, HEADER) as u16);
        if let Some(object) = SessionObject::from_number(number) {
            return vec![QueueRow::OfSession(command, object)];
        }
        let Some(record) = self.record_named() else {
            return Vec::new();
        };
        match (Listed::of(record), command) {
            (None, _) => self.wrong_kind_rows(command, record),
            (Some(queue), QueueCommand::Append) => self.append_rows(&queue, record.maximum()),
            (Some(queue), QueueCommand::Acknowledge) => {
                self.acknowledge_rows(&queue, record.maximum())
            }
        }
    }

    fn wrong_kind_rows(&self, command: QueueCommand, record: Record<'_>) -> Vec<QueueRow> {
        let no_access = self.is_refused(Refusal::NoAccess);
        let wrong_param = self.is_refused(Refusal::WrongParam);
        let (refused, wrong) = match record.counter() {
            None => (QueueRow::OfDataNoAccess(command), QueueRow::OfData(command)),
            Some(counter) => (
                QueueRow::OfCounterNoAccess(command, counter.direction),
                QueueRow::OfCounter(command, counter.direction),
            ),
        };
        chosen(&[(no_access, refused), (wrong_param, wrong)])
    }

    fn append_rows(&self, queue: &Listed, maximum: usize) -> Vec<QueueRow> {
        let left = maximum - queue.used();
        let size = self.command.len() - HEADER - 2;
        let mut met = self.refused_appends(queue, left, size);
        if self.verdict == Verdict::Done {
            met.extend(done_appends(queue, left, size));
        }
        met.into_iter().map(QueueRow::Append).collect()
    }

    fn refused_appends(&self, queue: &Listed, left: usize, size: usize) -> Vec<AppendMet> {
        let fits = 8 + size <= left;
        let no_number = queue.next == u32::MAX;
        let no_access = self.is_refused(Refusal::NoAccess);
        let too_long = self.is_refused(Refusal::OutOfBounds);
        let no_room = self.is_refused(Refusal::NoRoom);
        let mut met = chosen(&[
            (no_access && fits && !no_number, AppendMet::NoAccess),
            (no_access && !fits, AppendMet::NoAccessThoughFull),
            (
                no_access && fits && no_number,
                AppendMet::NoAccessThoughNoNumber,
            ),
            (too_long && 8 + size == left + 1, AppendMet::TooLongByOne),
            (too_long && no_number, AppendMet::TooLongThoughNoNumber),
            (no_room, AppendMet::NoNumber),
            (
                no_room && queue.fares.is_empty(),
                AppendMet::NoNumberForEmpty,
            ),
            (no_room && 8 + size == left, AppendMet::NoNumberThoughExact),
        ]);
        if too_long && AppendMet::LEFT.contains(&left) {
            met.push(AppendMet::TooLong(left));
        }
        met
    }

    fn acknowledge_rows(&self, queue: &Listed, maximum: usize) -> Vec<QueueRow> {
        let number = big(&self.command[HEADER + 2..HEADER + 6]);
        let place = queue.fares.iter().position(|fare| fare.0 == number);
        let no_access = self.is_refused(Refusal::NoAccess);
        let mut met = chosen(&[
            (no_access && place.is_some(), AcknowledgeMet::NoAccess),
            (
                no_access && place.is_none(),
                AcknowledgeMet::NoAccessThoughAbsent,
            ),
        ]);
        match (self.verdict, place) {
            (Verdict::Done, Some(place)) => {
                let is_full = queue.used() == maximum;
                met.extend(done_acknowledgements(queue, number, place, is_full));
            }
            (Verdict::Refused(Refusal::WrongValue), None) => {
                met.extend(absent_acknowledgements(queue, number));
            }
            _ => {}
        }
        met.into_iter().map(QueueRow::Acknowledge).collect()
    }

    fn other_command_rows(&self) -> Vec<QueueRow> {
        let Some(record) = self.stored_record() else {
            return Vec::new();
        };
        let Some(queue) = Listed::of(record) else {
            return Vec::new();
        };
        let CommandRow::Known(row) = self.row else {
            return Vec::new();
        };
        let met = match row {
            Row::Write => self.plain_met(Plain::Write, record),
            Row::EraseAndWrite => self.plain_met(Plain::Erase, record),
            Row::GetData => self.get_met(&queue),
            Row::Count => chosen(&[
                (self.is_refused(Refusal::NoAccess), OtherMet::CountNoAccess),
                (self.is_refused(Refusal::WrongParam), OtherMet::Count),
            ]),
            Row::GetMetadata => chosen(&[(self.verdict == Verdict::Done, OtherMet::GetMetadata)]),
            Row::SetMetadata => self.set_metadata_met(),
            _ => Vec::new(),
        };
        met.into_iter().map(QueueRow::Other).collect()
    }

    fn plain_met(&self, plain: Plain, record: Record<'_>) -> Vec<OtherMet> {
        let refused = self.is_refused(Refusal::NoAccess);
        let (granted, moving) = self.change_judged(record);
        let end = number_at(self.command, 6) + self.command.len() - HEADER - 4;
        chosen(&[
            (refused && !granted, OtherMet::PlainNoAccess(plain)),
            (refused && granted, OtherMet::PlainThoughGranted(plain)),
            (
                refused && granted && !moving.is_empty(),
                OtherMet::PlainThoughCounters(plain),
            ),
            (
                refused && granted && end > record.maximum(),
                OtherMet::PlainThoughTooLong(plain),
            ),
        ])
    }

    fn set_metadata_met(&self) -> Vec<OtherMet> {
        chosen(&[
            (self.verdict == Verdict::Done, OtherMet::SetMetadata),
            (
                self.is_refused(Refusal::NoAccess),
                OtherMet::SetMetadataNoAccess,
            ),
            (
                self.is_refused(Refusal::WrongValue),
                OtherMet::SetMetadataWrong,
            ),
        ])
    }

    fn get_met(&self, queue: &Listed) -> Vec<OtherMet> {
        let used = queue.used();
        let offset = number_at(self.command, 6);
        let length = number_at(self.command, 8);
        let done = self.verdict == Verdict::Done;
        let all = done && offset == 0 && self.out_len == used;
        chosen(&[
            (all && length == used, OtherMet::GetAll),
            (all && length > used, OtherMet::GetShortened),
            (all && queue.fares.is_empty(), OtherMet::GetOfEmpty),
            (
                done && self.out_len == length && offset > 0 && length > 0,
                OtherMet::GetPart,
            ),
            (
                done && offset == used && length > 0,
                OtherMet::GetNothingAtUsed,
            ),
            (
                self.is_refused(Refusal::OutOfBounds) && offset > used,
                OtherMet::GetAboveUsed,
            ),
            (self.is_refused(Refusal::NoAccess), OtherMet::GetNoAccess),
            (self.is_refused(Refusal::NoRoom), OtherMet::GetNoRoom),
        ])
    }

    /// What in a command at a queue, or in an append or acknowledgement anywhere, is
    /// not as judged here.
    pub(super) fn queue_disagreement(&self) -> Option<&'static str> {
        match QueueCommand::of(self.row) {
            Some(command) => self.queue_command_disagreement(command),
            None => self.other_command_disagreement(),
        }
    }

    fn queue_command_disagreement(&self, command: QueueCommand) -> Option<&'static str> {
        let due = match self.judged_before_object(command) {
            Some(due) => due,
            None => {
                let record = self.record_named()?;
                let Some(mut queue) = Listed::of(record) else {
                    let due = Verdict::Refused(Refusal::WrongParam);
                    return (self.verdict != due).then_some("another kind takes a queue's command");
                };
                let in_data = &self.command[HEADER..];
                let due = match command {
                    QueueCommand::Append => queue.append(&in_data[2..], record.maximum()),
                    QueueCommand::Acknowledge => queue.acknowledge(big(&in_data[2..])),
                };
                if due == Verdict::Done && !self.has_become(record, &queue) {
                    return Some("the queue is not as the list");
                }
                due
            }
        };
        (self.verdict != due).then_some("a queue's command is not judged as the list has it")
    }

    /// Steps 1 to 10, none where the kind and the queue decide.
    fn judged_before_object(&self, command: QueueCommand) -> Option<Verdict> {
        let refused = |refusal| Some(Verdict::Refused(refusal));
        let session = self.before.session;
        let in_len = self.command.len() - HEADER;
        if self.room < HEADER {
            return Some(Verdict::NoResponse);
        }
        if !store::check_store(&self.before.store) || !session.is_valid() {
            return refused(Refusal::Malformed);
        }
        if self.command.len() > 1_557 || number_at(self.command, 2) != in_len {
            return refused(Refusal::WrongLength);
        }
        if !session.opened || session.lcsa == 0x0F {
            return refused(Refusal::OutOfSequence);
        }
        if !command.is_length(in_len) {
            return refused(Refusal::WrongLength);
        }
        match number_at(self.command, HEADER) {
            0xE0C0 | 0xF1C0 => return refused(Refusal::WrongParam),
            0xF1C2 => return refused(Refusal::NoAccess),
            _ => {}
        }
        let Some(record) = self.record_named() else {
            return refused(Refusal::NoSuchObject);
        };
        match self.change_judged(record).0 {
            true => None,
            false => refused(Refusal::NoAccess),
        }
    }

    /// Whether the queue's record is as the list after the command, and nothing else
    /// has changed but counters.
    fn has_become(&self, record: Record<'_>, queue: &Listed) -> bool {
        let (before, after) = (&self.before.store, &self.after.store);
        let mut records = store::records(before);
        records.all(|(place, other)| {
            if other.object() != record.object() {
                return other.counter().is_some() || before[place.clone()] == after[place];
            }
            let mut expected = before[place.clone()].to_vec();
            expected[8..10].copy_from_slice(&(queue.used() as u16).to_le_bytes());
            expected.truncate(96);
            expected.extend(queue.data(record.maximum()));
            expected == after[place]
        })
    }

    fn other_command_disagreement(&self) -> Option<&'static str> {
        let record = self.stored_record()?;
        let queue = Listed::of(record)?;
        let granted = self.change_judged(record).0;
        let CommandRow::Known(row) = self.row else {
            return None;
        };
        let fits = match row {
            Row::Write | Row::EraseAndWrite => self.is_refused(Refusal::NoAccess),
            Row::Count if granted => self.is_refused(Refusal::WrongParam),
            Row::Count => self.is_refused(Refusal::NoAccess),
            _ => {
                let place = store::find(&self.after.store, record.object())?;
                Listed::of(Record::at(&self.after.store, place)) == Some(queue)
            }
        };
        (!fits).then_some("another command at a queue is not judged as due")
    }
}

fn done_appends(queue: &Listed, left: usize, size: usize) -> Vec<AppendMet> {
    let exact = 8 + size == left;
    chosen(&[
        (queue.fares.is_empty(), AppendMet::ToEmpty),
        (!queue.fares.is_empty(), AppendMet::Behind),
        (queue.fares.len() >= MANY, AppendMet::BehindMany),
        (exact, AppendMet::Exact),
        (exact && size == 1, AppendMet::ExactOf1),
        (exact && size == 200, AppendMet::ExactOf200),
        (8 + size + 1 == left, AppendMet::OneSpare),
        (size == 1, AppendMet::BodyOf1),
        (size == 200, AppendMet::BodyOf200),
        (queue.next == 0, AppendMet::FirstNumber),
        (queue.next == u32::MAX - 1, AppendMet::LastNumber),
        (queue.next & 0xFF == 0xFF, AppendMet::Carries),
    ])
}

fn done_acknowledgements(
    queue: &Listed,
    number: u32,
    place: usize,
    is_full: bool,
) -> Vec<AcknowledgeMet> {
    let count = queue.fares.len();
    let last = place + 1 == count;
    chosen(&[
        (count == 1, AcknowledgeMet::Only),
        (place == 0 && !last, AcknowledgeMet::FirstOfSeveral),
        (place == 0 && count >= MANY, AcknowledgeMet::FirstOfMany),
        (place > 0 && !last, AcknowledgeMet::Middle),
        (place > 0 && last, AcknowledgeMet::LastOfSeveral),
        (number == 0, AcknowledgeMet::NumberZero),
        (number == u32::MAX - 1, AcknowledgeMet::LastNumber),
        (is_full, AcknowledgeMet::OfFull),
    ])
}

fn absent_acknowledgements(queue: &Listed, number: u32) -> Vec<AcknowledgeMet> {
    let first = queue.first();
    let swapped = number.swap_bytes();
    chosen(&[
        (queue.fares.is_empty(), AcknowledgeMet::OfEmpty),
        (
            first.checked_sub(1) == Some(number),
            AcknowledgeMet::JustBefore,
        ),
        (number.saturating_add(1) < first, AcknowledgeMet::LongBefore),
        (number == queue.next, AcknowledgeMet::Next),
        (number > queue.next, AcknowledgeMet::LongAfter),
        (
            queue.fares.iter().any(|fare| fare.0 == swapped),
            AcknowledgeMet::Swapped,
        ),
    ])
}

/// How a stored queue stands.
#[derive(Clone, Copy, Debug, PartialEq, Eq)]
pub enum QueueStanding {
    /// Empty, with this next number.
    Empty(NextNumber),
    /// With fares.
    Filled(NextNumber),
    /// With fares, and so many bytes left.
    Left(usize),
    OfMaximum4,
    OneFare,
    TwoFares,
    ManyFares,
    BodyOf1,
    BodyOf200,
    FirstNumber0,
    /// The lowest byte of the numbers passes 0.
    NumbersCarry,
}

/// A next number near an end.
#[derive(Clone, Copy, Debug, PartialEq, Eq)]
pub enum NextNumber {
    Zero,
    /// Below 256.
    Small,
    BeforeLast,
    Last,
    Other,
}

impl NextNumber {
    fn of(number: u32) -> NextNumber {
        match number {
            0 => NextNumber::Zero,
            1..=255 => NextNumber::Small,
            0xFFFF_FFFE => NextNumber::BeforeLast,
            0xFFFF_FFFF => NextNumber::Last,
            _ => NextNumber::Other,
        }
    }
}

impl QueueStanding {
    const LEFT: [usize; 6] = [0, 1, 7, 8, 9, 208];

    pub fn all() -> Vec<QueueStanding> {
        let mut all = vec![
            QueueStanding::Empty(NextNumber::Zero),
            QueueStanding::OfMaximum4,
            QueueStanding::OneFare,
            QueueStanding::TwoFares,
            QueueStanding::ManyFares,
            QueueStanding::BodyOf1,
            QueueStanding::BodyOf200,
            QueueStanding::FirstNumber0,
            QueueStanding::NumbersCarry,
        ];
        all.extend(Self::LEFT.map(QueueStanding::Left));
        for next in [
            NextNumber::Small,
            NextNumber::BeforeLast,
            NextNumber::Last,
            NextNumber::Other,
        ] {
            all.extend([QueueStanding::Empty(next), QueueStanding::Filled(next)]);
        }
        all
    }

    /// The standings of a record's queue, none if it holds another kind.
    pub(super) fn of(record: Record<'_>) -> Vec<QueueStanding> {
        let Some(queue) = Listed::of(record) else {
            return Vec::new();
        };
        let next = NextNumber::of(queue.next);
        let left = record.maximum() - queue.used();
        let count = queue.fares.len();
        let has_body = |size: usize| queue.fares.iter().any(|fare| fare.1.len() == size);
        let carries = |fare: &(u32, Vec<u8>)| fare.0 & 0xFF == 0;
        chosen(&[
            (count == 0, QueueStanding::Empty(next)),
            (count > 0, QueueStanding::Filled(next)),
            (
                count > 0 && Self::LEFT.contains(&left),
                QueueStanding::Left(left),
            ),
            (record.maximum() == 4, QueueStanding::OfMaximum4),
            (count == 1, QueueStanding::OneFare),
            (count == 2, QueueStanding::TwoFares),
            (count >= MANY, QueueStanding::ManyFares),
            (has_body(1), QueueStanding::BodyOf1),
            (has_body(200), QueueStanding::BodyOf200),
            (count > 0 && queue.first() == 0, QueueStanding::FirstNumber0),
            (
                queue.fares.iter().skip(1).any(carries),
                QueueStanding::NumbersCarry,
            ),
        ])
    }
}
